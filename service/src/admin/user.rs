//! The name of a local user, for the audit log.

use crate::ingest::user::User;

/// The number of users that the namespace of this process has no number for, as with `PrivateUsers=yes`.
const OF_ANOTHER_NAMESPACE: u32 = 65534;

/// The user's name, or `uid N`. None if the user is of another namespace.
pub fn name(User(uid): User) -> Option<String> {
    if uid == OF_ANOTHER_NAMESPACE {
        return None;
    }
    let users = std::fs::read_to_string("/etc/passwd").unwrap_or_default();
    Some(named(&users, &uid.to_string()).unwrap_or_else(|| format!("uid {uid}")))
}

fn named(users: &str, uid: &str) -> Option<String> {
    let mut rows = users.lines().map(|line| line.split(':').collect::<Vec<&str>>());
    let row = rows.find(|row| row.get(2) == Some(&uid))?;
    Some(row[0].to_string())
}

#[cfg(test)]
mod tests {
    use super::*;

    #[test]
    fn a_user_has_its_name_or_its_number() {
        let users = "root:x:0:0::/root:/bin/sh\nann:x:1000:1000::/home/ann:/bin/sh\n";
        assert_eq!(named(users, "1000"), Some("ann".to_string()));
        assert_eq!(named(users, "100"), None);
        assert_eq!(name(User(4_000_000)), Some("uid 4000000".to_string()));
        assert_eq!(name(User(OF_ANOTHER_NAMESPACE)), None);
    }
}
