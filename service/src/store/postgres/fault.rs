//! Why a store can't be used, and what to do about it. Each text is complete: a fault has no cause that would repeat
//! it.

use super::unknown_outcome::UnknownOutcome;

#[derive(Debug, thiserror::Error)]
pub enum StoreFault {
    #[error(transparent)]
    UnknownOutcome(#[from] UnknownOutcome),
    #[error("{server}: {doubt}")]
    Server { server: String, doubt: UnknownOutcome },
    #[error("{0} has no store: make one by `totxegun store init`, or correct the address")]
    None(String),
    #[error("{0} has a store already: use it, or delete it with everything in it by `drop schema totxegun_store cascade`")]
    IsThere(String),
    #[error("the store in {server} has format version {found}, and this totxegun reads only {known}: use the totxegun that \
        made it, or make a store in another database")]
    Version { server: String, found: i32, known: i32 },
    #[error("a store can't have {given} shards: give 1 to {most}")]
    Shards { given: u16, most: u16 },
    #[error("there is no shard {given}: the store has shards 0 to {}", shards - 1)]
    NoShard { given: u16, shards: u16 },
    #[error("the store is in use by {0}: stop all instances, and call this again")]
    Running(String),
    #[error("this instance reads posts by other rules than the store's other instances. Here: {here}. There: {there}. Start \
        it with their options; to change the rules of all, stop all instances and `update totxegun_store.cluster set \
        reading = ''`")]
    Reading { here: String, there: String },
    #[error("{0}")]
    Moved(String),
    #[error("something else changed the store meanwhile: make sure that no other `totxegun store move` runs, and call it \
        again")]
    Meanwhile,
    #[error(
        "{server} can lose data that it reports as durable: {why}. Give it a synchronous standby, or give \
        --store-copies 1 to accept that"
    )]
    Copies { server: String, why: String },
    #[error("the system gives no thread or no random bytes for the store: {0}")]
    System(std::io::Error),
}

impl From<std::io::Error> for StoreFault {
    fn from(error: std::io::Error) -> StoreFault {
        StoreFault::System(error)
    }
}

impl StoreFault {
    /// Whether the cause may go away without anyone's help.
    pub fn may_pass(&self) -> bool {
        match self {
            StoreFault::UnknownOutcome(doubt) | StoreFault::Server { doubt, .. } => doubt.may_pass(),
            _ => false,
        }
    }

    pub(super) fn of(server: impl ToString, doubt: impl Into<UnknownOutcome>) -> StoreFault {
        StoreFault::Server { server: server.to_string(), doubt: doubt.into() }
    }
}

#[cfg(test)]
mod tests {
    use super::*;
    use std::io::Error;

    #[test]
    fn where_all_causes_are_said_each_is_said_once() {
        let refused = || UnknownOutcome::NotConnected("u@h:1/d: refused".into());
        for (fault, said) in [
            (StoreFault::UnknownOutcome(refused()), "u@h:1/d: refused"),
            (StoreFault::of("u@h:1/d", UnknownOutcome::Refused("no".into())), "u@h:1/d: no"),
            (
                StoreFault::from(Error::other("none")),
                "the system gives no thread or no random bytes for the store: none",
            ),
        ] {
            let shown = anyhow::Error::from(fault).context("it can't be used");
            assert_eq!(format!("{shown:#}"), format!("it can't be used: {said}"));
        }
    }
}
