//! The book of a shard: the proved library behind one lock. `shard` puts posts into it, `worker` starts it and takes
//! checkpoints from it.
//!
//! A reader parses a post without the lock. Everything else is a call of the one `Book` under the lock of `SharedBook`, so
//! all changes have one order; the journal has the same order, because a post is appended under that lock.
//!
//! - `book`: the calls of the library; `refusal`: its refusals; `memory`: the bound on its memory.
//! - `names`: numbers for series; `texts`: the request that names each of them; `recent`: the last posts of each
//!   series.
//! - `read`: a post that was parsed; `readers`: the pool of parsers; `stretch`: windows of time.
//! - `rounds`: when rounds are closed; `close`: closing them.
//! - `earlier`: flushes before a later window begins; `flushed`: what was taken; `point_refusals`: which points of a
//!   refused post their series refuse.

mod close;
mod earlier;
mod flushed;
#[allow(unsafe_code)]
mod library;
mod memory;
mod names;
mod point_refusals;
mod read;
mod readers;
mod recent;
mod refusal;
mod rounds;
mod texts;
mod window;

pub use flushed::Flushed;
pub use library::give_back as give_back_memory;
#[cfg(test)]
pub(crate) use library::{allocated, given_back};
pub use memory::{bound as bound_memory, used as memory_used, with_reserve, NONE_LEFT};
pub use names::Names;
pub use point_refusals::PointRefusal;
pub use read::Read;
pub use readers::{free_idle_readers, free_spare_readers};
pub use recent::{series_of_text, BySeries, Changed};
pub use refusal::Refused;
pub use window::FlushWindow;

use crate::journal::{Body, Points, Post};
use crate::work::locked;
use bytes::Bytes;
use earlier::Earlier;
use flushed::copied;
use library::{Answer, Desk, Flushes, Reader, MAX_TAKEN};
use recent::RecentPoints;
use refusal::check;
use rounds::Rounds;
use std::sync::{Arc, Mutex, MutexGuard};

/// A book takes 10,000 series and a hash chooses the book of a series, so this many on average leave room for an uneven
/// spread.
const SERIES_OF_A_BOOK: usize = 8_000;
/// How many series of each book are flushed at once if memory is short.
const SMALL: usize = 10;
/// The most series that may be configured.
pub const MOST_SERIES: usize = 1_000_000;

/// The book with its lock.
pub struct SharedBook {
    books: usize,
    window: FlushWindow,
    reserve: Arc<memory::Reserve>,
    book: Mutex<Book>,
}

/// All series of a shard, in as many books of the library as they need.
pub struct Book {
    desk: Desk,
    books: usize,
    rounds: Rounds,
    /// How many calls there were so far, see `came()`.
    came: u64,
    window: FlushWindow,
    earlier: Earlier,
    reserve: Arc<memory::Reserve>,
    recent: RecentPoints,
}

/// A call of all books with the post that a reader has.
type Ask = fn(&mut Desk, &mut Reader) -> Answer;

/// The book, for the holder of its lock.
pub type Locked<'a> = MutexGuard<'a, Book>;

/// Makes the free memory that this thread caches available to all threads, unless the thread has used the library since
/// the last call. The allocator has a cache for each thread and never takes anything from the cache of an idle one.
/// `before` is what the last call returned.
pub fn give_back_of_thread(before: Option<i64>) -> Option<i64> {
    let now = Some(memory::drift());
    if now == before {
        library::give_back_of_thread();
    }
    now
}

impl SharedBook {
    /// A book with room for so many series, with windows of an hour.
    pub fn new(series: usize) -> Result<Arc<SharedBook>, Refused> {
        SharedBook::apart(series, FlushWindow::default())
    }

    /// The same with other windows.
    pub fn apart(series: usize, window: FlushWindow) -> Result<Arc<SharedBook>, Refused> {
        let books = series.div_ceil(SERIES_OF_A_BOOK).max(1);
        let reserve = Arc::<memory::Reserve>::default();
        let book = Book::new(books, window, reserve.clone())?;
        Ok(Arc::new(SharedBook { books, window, reserve, book: Mutex::new(book) }))
    }

    /// How many books of the library there are.
    pub fn books(&self) -> usize {
        self.books
    }

    /// How many series there is room for, about.
    pub fn max_series(&self) -> usize {
        self.books * SERIES_OF_A_BOOK
    }

    /// An empty book, to replace this one.
    pub fn fresh(&self) -> Result<Book, Refused> {
        Book::new(self.books, self.window, self.reserve.clone())
    }

    /// Parses a post. JSON may nest to a depth of 127, which needs a stack of 2 MiB, as the threads of the runtimes
    /// have.
    pub fn read(&self, sender: String, body: Bytes) -> Result<Read, Refused> {
        self.unread(Post { sender, foreign: 0, body: Body::Text(body) }, None).read()
    }

    /// Reads points that have numbers by `names`. `left_out` other points of the post are outside the profile.
    pub fn read_points(
        &self,
        sender: String,
        points: Points,
        names: Arc<Names>,
        left_out: u64,
    ) -> Result<Read, Refused> {
        self.unread(Post { sender, foreign: left_out, body: Body::Points(points) }, Some(names)).read()
    }

    /// A post that any thread may parse later. Its `foreign` counts only points that it does not contain.
    pub fn unread(&self, post: Post, names: Option<Arc<Names>>) -> Read {
        Read::unread(self.books, self.window, post, names)
    }

    /// The window of all these points; none if they lie in several.
    pub fn window_of(&self, points: &Points) -> Option<u64> {
        self.window.of_all(points)
    }

    /// Waits for the lock. Its holder never waits for anything but a write of the journal.
    pub fn lock(&self) -> Locked<'_> {
        locked(&self.book) // a call of the library either completes or ends the process
    }
}

impl Book {
    /// Returns free memory to the system first. A book allocates room for all that a round may bring and uses little of
    /// it; the rest costs no memory only if its pages were never used.
    fn new(books: usize, window: FlushWindow, reserve: Arc<memory::Reserve>) -> Result<Book, Refused> {
        library::give_back();
        Ok(Book {
            desk: Desk::new(books).ok_or(Refused::NoMemory)?,
            books,
            rounds: Rounds::new(books),
            came: 0,
            window,
            earlier: Earlier::default(),
            reserve,
            recent: RecentPoints::default(),
        })
    }

    /// Puts a post into all of its books or into none: a refusal changes nothing, except for `HalfTaken`.
    pub fn admit(&mut self, read: &mut Read) -> Result<(), Refused> {
        let admitted = self.admit_in_turn(read);
        self.close_next_round();
        admitted
    }

    /// Puts in a post of the journal during a start, when nobody waits.
    pub fn admit_again(&mut self, read: &mut Read) -> Result<(), Refused> {
        let admitted = self.admit_in_turn(read);
        self.close_full_rounds();
        admitted
    }

    /// Puts in a post of a quarantined sender. It is never flushed, and it crossed no window when it came.
    pub fn admit_held(&mut self, read: &mut Read) -> Result<(), Refused> {
        let Some((first, _)) = read.first_and_last() else {
            return Ok(());
        };
        let admitted = self.admit_whole(read, first);
        self.close_full_rounds();
        admitted
    }

    fn admit_in_turn(&mut self, read: &mut Read) -> Result<(), Refused> {
        let Some((first, last)) = read.first_and_last() else {
            return Ok(());
        };
        if read.windows.is_empty() {
            self.cross(read.reader.as_mut().ok_or(Refused::Nothing)?, last)?;
            self.admit_whole(read, first)
        } else {
            self.admit_stretches(read)
        }
    }

    fn admit_whole(&mut self, read: &mut Read, first: u64) -> Result<(), Refused> {
        self.ask(read, None, Desk::admit)?;
        self.rounds.count(read.points);
        self.earlier.note(first);
        Ok(())
    }

    /// Asks the books to take what the reader has: the whole post, or one part of it. If closing the rounds may help,
    /// closes them and asks again. A part has to succeed, since half a post ends the service.
    fn ask(&mut self, read: &mut Read, part: Option<&Points>, call: Ask) -> Result<(), Refused> {
        let asked = self.ask_once(read, call);
        let Err(refused) = asked else { return asked };
        let may_cure = self.rounds.may_cure(refused, self.desk.entries());
        if !may_cure && (part.is_none() || !refused.retry_after_compaction()) {
            return asked;
        }
        self.close_rounds();
        match part {
            Some(part) => read.put(part)?,
            None => read.again()?,
        };
        self.ask_once(read, call)
    }

    fn ask_once(&mut self, read: &mut Read, call: Ask) -> Result<(), Refused> {
        let reader = read.reader.as_mut().ok_or(Refused::Nothing)?;
        let mut call = || call(&mut self.desk, reader);
        self.came += 1;
        check(match read.is_of_known_series {
            true => call(),
            false => memory::with_new_series(call),
        })
        .map(drop)
    }

    /// Takes all that may be forwarded, or nothing. Until it is settled no round can be closed.
    pub fn take_all(&mut self) -> Result<Flushed, Refused> {
        let mut taken = Flushed { earlier: Vec::new(), parts: Vec::new() };
        loop {
            match self.take(MAX_TAKEN) {
                Ok(part) => taken.parts.push(part),
                Err(Refused::Nothing) => break,
                Err(refused) => {
                    self.end(taken, Desk::give_back)?;
                    return Err(refused);
                }
            }
        }
        self.reserve.be_for(self.desk.series());
        taken.earlier = self.earlier.take();
        self.earlier.first = None;
        self.earlier.in_flight += 1;
        Ok(taken)
    }

    fn take(&mut self, most: usize) -> Result<(Flushes, usize), Refused> {
        let mut flushes = Flushes::new().ok_or(Refused::NoMemory)?;
        let came = check(self.desk.take(&mut flushes, most))?;
        Ok((flushes, usize::try_from(came.number).unwrap_or(usize::MAX)))
    }

    /// Flushes everything in small parts, each serialised and settled before the next is taken. That needs little
    /// memory, but holds the lock for long. After an error, `texts` has what was settled and the book has the rest.
    pub fn write_all(&mut self, texts: &mut Vec<Vec<u8>>) -> Result<(), Refused> {
        texts.extend(self.earlier.take());
        loop {
            let (flushes, count) = match self.take(SMALL) {
                Ok(part) => part,
                Err(Refused::Nothing) => break,
                Err(refused) => return Err(refused),
            };
            texts.extend(self.write(Flushed::of(flushes, count))?);
        }
        self.earlier.first = None;
        Ok(())
    }

    /// Does the same, and closes the rounds, for a post that must be put in and found no memory.
    pub fn make_room(&mut self, texts: &mut Vec<Vec<u8>>) -> Result<(), Refused> {
        self.close_rounds();
        self.write_all(texts)?;
        self.close_rounds();
        Ok(())
    }

    /// Serialises a flush and settles it; gives it back if there is no memory.
    fn write(&mut self, mut taken: Flushed) -> Result<Vec<Vec<u8>>, Refused> {
        let written = taken.texts();
        let end = match written {
            Ok(_) => Desk::settle,
            Err(_) => Desk::give_back,
        };
        self.end(taken, end)?;
        written
    }

    /// Settles flushes whose requests were serialised.
    pub fn settle(&mut self, taken: Flushed) -> Result<(), Refused> {
        self.earlier.in_flight -= 1;
        self.end(taken, Desk::settle)
    }

    fn end(&mut self, taken: Flushed, end: fn(&mut Desk, &mut Flushes) -> Answer) -> Result<(), Refused> {
        // Each flush is ended, even if the end of another is refused, which never happens.
        let ended = taken.parts.into_iter().map(|(mut flushes, _)| {
            self.count_entries();
            let answer = end(&mut self.desk, &mut flushes);
            check(answer).map(drop)
        });
        ended.fold(Ok(()), Result::and)
    }

    /// Counts a call that adds entries as a post does, but no points.
    fn count_entries(&mut self) {
        self.came += 1;
        self.rounds.count(0);
    }

    /// Quarantines a sender: its posts are refused, and its pending points are not flushed.
    pub fn quarantine(&mut self, sender: &str) -> Result<(), Refused> {
        let sender = sender.as_bytes();
        self.count_entries();
        let mut done = check(self.desk.quarantine(sender));
        if done.is_err_and(|refused| refused.retry_after_compaction()) {
            self.close_rounds();
            done = check(self.desk.quarantine(sender));
        }
        done.map(drop)
    }

    /// Releases a sender: its pending points are flushed again.
    pub fn lift(&mut self, sender: &str) -> Result<(), Refused> {
        self.earlier.note(0); // its pending points may be of any window
        self.count_entries();
        check(self.desk.lift(sender.as_bytes())).map(drop)
    }

    /// How many series there are.
    pub fn series(&mut self) -> usize {
        self.desk.series()
    }

    /// The reports of all books, one after the other.
    pub fn report(&mut self) -> Result<Vec<u8>, Refused> {
        let mut flushes = Flushes::new().ok_or(Refused::NoMemory)?;
        let mut all = Vec::new();
        for book in 0..self.books {
            let text = check(self.desk.report(&mut flushes, book))?;
            let report = copied(&mut flushes, text.number)?;
            all.extend_from_slice(report.strip_suffix(END).unwrap_or(&report));
        }
        all.extend_from_slice(END);
        Ok(all)
    }
}

/// The last line of a report.
const END: &[u8] = b"end\n";

#[cfg(test)]
pub(crate) mod tests;
