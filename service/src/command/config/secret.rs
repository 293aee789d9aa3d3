//! Finds and hides secrets in addresses.

/// Whether an address has a password, before its host or in its query. Any query of an OTLP receiver counts, since it
/// may be a key.
pub fn has_password(address: &str) -> bool {
    let (place, query) = address.split_once('?').unwrap_or((address, ""));
    let user = place.split_once("//").and_then(|(_, rest)| Some(rest.rsplit_once('@')?.0));
    user.is_some_and(|user| user.contains(':'))
        || is_of_otlp(place) && !query.is_empty()
        || query.split('&').any(|pair| pair.starts_with("password="))
}

pub fn is_of_otlp(address: &str) -> bool {
    let scheme = address.split(':').next().unwrap_or_default();
    ["http", "https"].iter().any(|of_otlp| scheme.eq_ignore_ascii_case(of_otlp))
}

/// The address without its password and without its query, which may have a token.
pub fn without_password(address: &str) -> String {
    let (place, query) = address.split_once('?').map_or((address, ""), |(place, _)| (place, "?.."));
    let parts = place.split_once("//").and_then(|(scheme, rest)| Some((scheme, rest.rsplit_once('@')?)));
    match parts {
        Some((scheme, (user, host))) => {
            let user = user.split(':').next().unwrap_or_default();
            format!("{scheme}//{user}@{host}{query}")
        }
        None => place.to_string() + query,
    }
}

#[cfg(test)]
mod tests {
    use super::*;

    #[test]
    fn a_password_is_found_and_not_shown() {
        for (address, has, shown) in [
            ("sqlite:/a/b.db", false, "sqlite:/a/b.db"),
            ("postgres://u@h:5432/d", false, "postgres://u@h:5432/d"),
            ("postgres://u:secret@h:5432/d", true, "postgres://u@h:5432/d"),
            ("postgres://u:se@cr:et@h/d", true, "postgres://u@h/d"),
            ("postgres://u@h/d?sslmode=require&password=secret", true, "postgres://u@h/d?.."),
            ("postgres://u@h/d?passfile=/etc/f", false, "postgres://u@h/d?.."),
            ("https://h:4318/v1/metrics?key=secret", true, "https://h:4318/v1/metrics?.."),
            ("HTTP://h:4318?x", true, "HTTP://h:4318?.."),
            ("https://h:4318/v1/metrics", false, "https://h:4318/v1/metrics"),
        ] {
            assert_eq!((has_password(address), &*without_password(address)), (has, shown), "{address}");
        }
    }
}
