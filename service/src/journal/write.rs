//! Writes appended records into the segment, with one write for all that are there when it begins.
//!
//! Only one write runs at a time (`Shared::writing`), and appending never waits for it. After a write has failed, no
//! other one follows: the failure ends the process while the lock is held.

use super::{locked, Journal, Place, Shared, Ticket};
use crate::storage::shard_store::Fenced;
use crate::work::own_call::OwnCall;

/// The most memory of a write's buffer that is kept for the next one.
const KEPT: usize = 64 << 10;

impl Journal {
    /// Returns after everything before the ticket is in a file, where it survives the end of the process.
    pub fn write(&self, ticket: Ticket) -> Result<(), Fenced> {
        match self.is_written(ticket) {
            true => Ok(()),
            false => self.shared.written(|_| ()),
        }
    }

    /// Writes everything appended so far. Called before a roll, which holds the lock of the book: then the roll has
    /// little left to write, and posts do not wait for the book if the disk stalls here.
    pub fn write_all(&self) -> Result<(), Fenced> {
        self.write(self.now())
    }

    fn is_written(&self, ticket: Ticket) -> bool {
        self.shared.written.has(ticket.0)
    }
}

#[cfg(test)]
impl Journal {
    /// Blocks appends until it is dropped.
    pub fn hold_appends(&self) -> impl Sized + '_ {
        locked(&self.shared.place)
    }
}

impl Shared {
    /// For a caller that writes into the segment itself: no other write runs meanwhile.
    pub fn alone<T>(&self, writes: impl FnOnce(&mut Place) -> T) -> T {
        let _writing = locked(&self.writing);
        writes(&mut locked(&self.place))
    }

    /// Writes everything appended so far and tells the callers that wait for it. Returns what `see` returns for the
    /// state up to there.
    pub fn written<T>(&self, see: impl FnOnce(&mut Place) -> T) -> Result<T, Fenced> {
        let (seen, ticket) = self.put_appended(see)?;
        self.written.reach(ticket);
        Ok(seen)
    }

    /// Writes everything appended so far, and returns its ticket and what `see` returns for the state up to there.
    /// Appends do not wait. A failure ends the process before any other thread can write: a start does not find what
    /// follows a hole.
    fn put_appended<T>(&self, see: impl FnOnce(&mut Place) -> T) -> Result<(T, u64), Fenced> {
        let mut bytes = locked(&self.writing);
        let mut place = locked(&self.place);
        let (seen, ticket) = (see(&mut place), place.ticket);
        let mut write = place.segment.give_unwritten(&mut bytes);
        drop(place);
        if !bytes.is_empty() {
            let written = write.put(&self.disk, &bytes);
            written.map_err(|fault| self.disk.fail(fault))?;
            locked(&self.place).segment.has_ahead(write.ahead); // still the same segment, since a roll waits for `writing`
            bytes.clear();
            bytes.shrink_to(KEPT);
        }
        Ok((seen, ticket))
    }
}

impl OwnCall for Shared {
    fn make(&self) -> u64 {
        let put = self.put_appended(|_| ());
        put.map_or(0, |((), ticket)| ticket) // a failure ends the process, since only a folder is written in this way
    }

    fn tell(&self, reached: u64) {
        self.written.reach(reached);
    }
}
