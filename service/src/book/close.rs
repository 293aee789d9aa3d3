//! Closes the rounds of the books: a book forgets what has ended, so that its journal has room again. `rounds` says
//! when.

use super::rounds::Closing;
use super::{memory, Book};

impl Book {
    /// Closes the round of the next book if one is due. While a flush is in flight no round can be closed, so that book
    /// waits; if it were passed over, its journal would grow longer than `rounds` counts.
    pub(super) fn close_next_round(&mut self) {
        if self.earlier.in_flight > 0 {
            return;
        }
        if let Some(book) = self.rounds.next() {
            self.close_round(book);
        }
    }

    /// Closes all rounds, but only if the books have no more room: it takes longer than many posts. For starts, when
    /// nobody waits.
    pub(super) fn close_full_rounds(&mut self) {
        if self.rounds.are_full(self.desk.entries()) {
            self.close_rounds();
        }
    }

    /// Sets the length of the rounds by the number of series, after a start has seeded them.
    pub fn note_seeded(&mut self) {
        self.rounds.last_for(self.desk.series());
    }

    /// Called when a start has filled the book and senders begin to wait. Closes all rounds if the start put in many
    /// posts, so that new posts find room; if there were only many points, rounds are closed one by one as usual.
    pub fn note_filled(&mut self) {
        if self.rounds.have_many_posts() {
            self.close_rounds();
        }
    }

    /// Closes the rounds of all books at once because one has no room. A book with a flush in flight is skipped.
    pub(super) fn close_rounds(&mut self) {
        self.rounds.begin();
        while let Some(book) = self.rounds.being_closed() {
            self.close_round(book);
        }
    }

    /// Closes the round of one book while nobody posts, since a round keeps all posts from its beginning in memory.
    /// Returns whether another book is left.
    pub fn close_round_at_rest(&mut self) -> bool {
        if self.earlier.in_flight > 0 || self.desk.entries() == 0 {
            return false;
        }
        if self.rounds.being_closed().is_none() {
            self.rounds.begin();
        }
        if let Some(book) = self.rounds.being_closed() {
            self.close_round(book);
        }
        self.rounds.being_closed().is_some()
    }

    /// How many calls the book has had: posts (taken, refused or only tried) and ends of flushes.
    pub fn came(&self) -> u64 {
        self.came
    }

    fn close_round(&mut self, book: usize) {
        let before = memory::refusals();
        let closing = match self.desk.close_round(book) {
            true => Closing::Closed,
            false if self.earlier.in_flight > 0 || memory::refusals() > before => Closing::GoesOn,
            false => Closing::Empty,
        };
        self.rounds.note(closing, || self.desk.series());
    }

    /// How many rounds were closed since the last call.
    pub fn rounds_closed(&mut self) -> usize {
        self.rounds.closed()
    }
}
