//! Owns the memory budget of posts: the bytes that all of them may use until they are answered, and the part of these
//! that arriving bodies may use (`arrival`). A post that exceeds the budget is refused, and never waits.

use std::sync::atomic::{AtomicUsize, Ordering::Relaxed};
use std::sync::Arc;

/// A counter of reserved bytes.
#[derive(Default)]
pub(super) struct Taken(AtomicUsize);

/// Why there is no room.
#[derive(Debug, PartialEq, Eq, thiserror::Error)]
pub enum Full {
    /// Other posts use the memory and will give it back: the same post can be sent again.
    #[error("too many bytes in flight: retry")]
    Now,
    /// The whole budget is smaller: the same post would be refused again.
    #[error("body too long for the memory of all posts: post fewer points at a time, or raise --max-bytes")]
    Ever,
}

impl Taken {
    pub fn bytes(&self) -> usize {
        self.0.load(Relaxed)
    }

    /// Replaces a reservation of `before` bytes by one of `bytes`. It may grow only if the total stays within `most`;
    /// otherwise the old reservation stays.
    pub fn change(&self, before: usize, bytes: usize, most: usize) -> Result<(), Full> {
        if bytes > most {
            return Err(Full::Ever);
        }
        let Some(more) = bytes.checked_sub(before) else {
            self.0.fetch_sub(before - bytes, Relaxed);
            return Ok(());
        };
        let room = |taken: usize| taken.checked_add(more).filter(|sum| more == 0 || *sum <= most);
        self.0.fetch_update(Relaxed, Relaxed, room).map(|_| ()).map_err(|_| Full::Now)
    }

    pub fn give_back(&self, bytes: usize) {
        self.0.fetch_sub(bytes, Relaxed);
    }
}

/// The budget that all posts share. A post that exceeds it is refused at once: the sender can retry, memory can't grow.
pub struct Budget {
    most: usize,
    used: Taken,
    /// The part used by bodies that are still arriving.
    pub(super) arriving: Taken,
}

impl Budget {
    pub fn new(most: usize) -> Arc<Budget> {
        Arc::new(Budget { most, used: Taken::default(), arriving: Taken::default() })
    }

    pub fn most(&self) -> usize {
        self.most
    }

    pub fn used(&self) -> usize {
        self.used.bytes()
    }

    /// An empty reservation.
    pub fn hold(self: &Arc<Self>) -> MemoryHold {
        MemoryHold { budget: self.clone(), bytes: 0 }
    }
}

/// The reservation of one post, released when it is dropped.
pub struct MemoryHold {
    pub(super) budget: Arc<Budget>,
    bytes: usize,
}

impl MemoryHold {
    /// Changes the reservation to this many bytes. If there is no room, it stays as it was.
    pub fn set(&mut self, bytes: usize) -> Result<(), Full> {
        self.budget.used.change(self.bytes, bytes, self.budget.most)?;
        self.bytes = bytes;
        Ok(())
    }
}

impl Drop for MemoryHold {
    fn drop(&mut self) {
        self.budget.used.give_back(self.bytes);
    }
}

#[cfg(test)]
mod tests {
    use super::*;

    #[test]
    fn what_is_over_the_bound_is_refused_and_changes_nothing() {
        let budget = Budget::new(100);
        let (mut first, mut second) = (budget.hold(), budget.hold());
        assert_eq!(first.set(60), Ok(()));
        assert_eq!(second.set(41), Err(Full::Now));
        assert_eq!(budget.used(), 60);
        assert_eq!(second.set(40), Ok(()));
        assert_eq!(second.set(101), Err(Full::Ever));
        assert_eq!(second.set(usize::MAX), Err(Full::Ever));
        assert_eq!(budget.used(), 100);
    }

    #[test]
    fn what_was_taken_is_given_back() {
        let budget = Budget::new(100);
        let mut hold = budget.hold();
        assert_eq!(hold.set(90), Ok(()));
        assert_eq!(hold.set(10), Ok(()));
        assert_eq!(budget.used(), 10);
        drop(hold);
        assert_eq!(budget.used(), 0);
    }
}
