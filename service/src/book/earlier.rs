//! Keeps all unflushed points of a series in one window of time (an hour or a day): if a point of a later window comes,
//! the pending points of its book are flushed first. `Book` calls it for each post.
//!
//! These flushes are serialised and settled at once, because a series with a flush in flight can't be flushed again.
//! Their requests wait here and go first in the next group.

use super::library::{Desk, Flushes, Reader, MAX_TAKEN};
use super::refusal::check;
use super::rounds::have_room_for;
use super::{memory, Book, Flushed, Read, Refused};
use crate::journal::Points;

/// The most entries that one window of a post may add to a book's journal: the post itself, and as many flushes as
/// 10,000 series need, each with its taking and its settling.
const ENTRIES_OF_A_PART: usize = 2 + 2 * 10_000_usize.div_ceil(MAX_TAKEN);

/// Requests of earlier windows that go first in the next group.
#[derive(Default)]
pub(super) struct Earlier {
    /// The requests, in order, and their total length.
    texts: Vec<Vec<u8>>,
    bytes: usize,
    /// The earliest window with pending points, or an earlier one; none if nothing is pending.
    pub first: Option<u64>,
    /// Flushes taken but not yet settled; their requests are being serialised outside the lock.
    pub in_flight: usize,
}

impl Earlier {
    /// Hands the requests over to a group.
    pub fn take(&mut self) -> Vec<Vec<u8>> {
        self.bytes = 0;
        std::mem::take(&mut self.texts)
    }

    /// Records that points of this window are pending.
    pub fn note(&mut self, stretch: u64) {
        self.first = Some(self.first.map_or(stretch, |first| first.min(stretch)));
    }
}

impl Book {
    /// Whether the next group already has requests.
    pub fn has_earlier(&self) -> bool {
        !self.earlier.texts.is_empty()
    }

    /// The total length of these requests.
    pub fn earlier_bytes(&self) -> usize {
        self.earlier.bytes
    }

    /// Flushes each book in which a series has pending points of an earlier window than one of its points in `reader`.
    /// If these are in flight, answers `InFlight` and changes nothing: the caller retries after that flush has ended.
    pub(super) fn cross(&mut self, reader: &mut Reader, last: u64) -> Result<(), Refused> {
        if self.earlier.first.is_none_or(|first| first >= last) {
            return Ok(());
        }
        let mut crossed = self.cross_books(reader);
        if self.desk.entries() > 0 && crossed.is_err_and(|refused| refused.retry_after_compaction()) {
            self.close_rounds();
            crossed = self.cross_books(reader);
        }
        crossed
    }

    fn cross_books(&mut self, reader: &mut Reader) -> Result<(), Refused> {
        let mut next = 0;
        while let Some(book) = self.crossing(reader, next) {
            self.take_earlier(book)?;
            if self.earlier.in_flight > 0 && self.crossing(reader, book) == Some(book) {
                return Err(Refused::InFlight);
            }
            // Points of a quarantined sender stay pending, and the book refuses its post.
            next = book + 1;
        }
        Ok(())
    }

    fn crossing(&mut self, reader: &mut Reader, next: usize) -> Option<usize> {
        let found = check(self.desk.crosses(reader, self.window.length(), next)).ok()?;
        usize::try_from(found.number).ok()
    }

    fn take_earlier(&mut self, book: usize) -> Result<(), Refused> {
        loop {
            let mut flushes = Flushes::new().ok_or(Refused::NoMemory)?;
            match check(self.desk.take_book(&mut flushes, book, MAX_TAKEN)) {
                Err(Refused::Nothing) => return Ok(()),
                taken => drop(taken?),
            }
            let texts = self.write(Flushed::of(flushes, 1))?;
            self.earlier.bytes += texts.iter().map(Vec::len).sum::<usize>();
            self.earlier.texts.extend(texts);
        }
    }

    /// Admits a post whose points lie in several windows, window by window. A refusal changes nothing, except for
    /// `HalfTaken`.
    pub(super) fn admit_stretches(&mut self, read: &mut Read) -> Result<(), Refused> {
        if self.earlier.in_flight > 0 {
            return Err(Refused::InFlight); // after the first window, no flush may be in flight
        }
        let parts = std::mem::take(&mut read.windows);
        let done = self.try_whole(read, parts.len()).and_then(|()| {
            parts.iter().enumerate().try_for_each(|(place, part)| {
                let admitted = memory::with_reserve(|| self.admit_part(read, part));
                admitted.map_err(|refused| match place {
                    0 => refused,
                    _ => Refused::HalfTaken,
                })
            })
        });
        read.windows = parts;
        done
    }

    /// Refuses the post as a whole if the books would refuse it; if they accept it, each part will find room.
    fn try_whole(&mut self, read: &mut Read, parts: usize) -> Result<(), Refused> {
        let entries = ENTRIES_OF_A_PART * parts;
        if !have_room_for(self.desk.entries(), entries) {
            self.close_rounds();
        }
        match have_room_for(self.desk.entries(), entries) {
            true => self.ask(read, None, Desk::try_admit),
            false => Err(Refused::Full),
        }
    }

    fn admit_part(&mut self, read: &mut Read, part: &Points) -> Result<(), Refused> {
        let Some(end) = part.each().map(|point| point[2]).max() else {
            return Ok(());
        };
        let stretch = self.window.stretch(end);
        self.cross(read.put(part)?, stretch)?;
        self.ask(read, Some(part), Desk::admit)?;
        self.rounds.count(part.count() as u64);
        self.earlier.note(stretch);
        Ok(())
    }
}
