//! Whether the shard takes posts. It is checked again under the lock of the book, so no post is taken after the last
//! checkpoint.

use std::sync::atomic::{AtomicU8, Ordering::SeqCst};

/// The phases of a shard, in order: none is ever followed by an earlier one.
#[derive(Clone, Copy, Debug, PartialEq, Eq)]
#[repr(u8)]
pub(crate) enum Phase {
    /// The book does not have all accepted posts yet.
    Recovering,
    /// There is too little memory to fill the book: it never serves.
    Unfilled,
    Serving,
    /// The service is ending, and no more posts are taken.
    Stopping,
    /// The shard is fenced: another instance has it.
    Fenced,
}

/// The phase as one byte, so that each post only reads it.
pub(super) struct Phases(AtomicU8);

impl Phases {
    pub fn new() -> Phases {
        Phases(AtomicU8::new(Phase::Recovering as u8))
    }

    pub fn now(&self) -> Phase {
        let byte = self.0.load(SeqCst);
        let others = [Phase::Recovering, Phase::Unfilled, Phase::Serving, Phase::Stopping];
        others.into_iter().find(|phase| *phase as u8 == byte).unwrap_or(Phase::Fenced)
    }

    /// Enters a phase, unless it is in a later one.
    pub fn go_on(&self, to: Phase) {
        self.0.fetch_max(to as u8, SeqCst);
    }
}

#[cfg(test)]
mod tests {
    use super::*;

    #[test]
    fn phases_follow_one_another() {
        let phases = Phases::new();
        assert_eq!(phases.now(), Phase::Recovering);
        phases.go_on(Phase::Serving);
        assert_eq!(phases.now(), Phase::Serving);
        phases.go_on(Phase::Stopping);
        phases.go_on(Phase::Serving);
        assert_eq!(phases.now(), Phase::Stopping, "an end is for ever");
        phases.go_on(Phase::Fenced);
        phases.go_on(Phase::Stopping);
        phases.go_on(Phase::Serving);
        assert_eq!(phases.now(), Phase::Fenced);
    }
}
