//! Counts the memory of the library and refuses allocations above a bound. A failed allocation is an answer to one
//! post; a killed process has to be restored.
//!
//! Posts are read and admitted below a lower bound than the one for forwarding what was taken; the difference is a
//! reserve. So posts are refused, and leave nothing behind, before a flush could lack memory. A start may use the
//! reserve, since it puts in what was taken already. Posts that bring new series have a bound that is lower still:
//! otherwise posts of known series would be refused once senders have made as many series as there is memory for.

use crate::work::locked;
use std::cell::Cell;
use std::sync::atomic::{AtomicI64, AtomicU64, Ordering::Relaxed};
use std::sync::Mutex;

/// The exit status of a process that ends for want of memory.
pub const NONE_LEFT: i32 = 71;

/// How many bytes a thread may count by itself before it adds them to the shared sum, which may be off by this for each
/// thread.
const DRIFT: i64 = 128 << 10;

/// The reserve is at least this, plus this for each series, plus this many texts as long as the longest.
const LEAST_RESERVE: u64 = 8 << 20;
const RESERVE_OF_A_SERIES: u64 = 1 << 10;
const TEXTS: u64 = 3;
/// Posts of known series leave the part of the reserve that does not depend on series, up to a quarter of all memory:
/// enough to forward everything in small parts. New series leave more, by this fraction of that part.
const PART_OF_KNOWN: u64 = 4;

/// The bytes of all threads but for their drifts, and the bounds by purpose.
static USED: AtomicI64 = AtomicI64::new(0);
static MOST: AtomicI64 = AtomicI64::new(i64::MAX);
static MOST_OF_POSTS: AtomicI64 = AtomicI64::new(i64::MAX);
static MOST_OF_NEW: AtomicI64 = AtomicI64::new(i64::MAX);
/// Until a text was written, a text is assumed to have this length.
static LONGEST_TEXT: AtomicU64 = AtomicU64::new(4 << 20);
/// How many series all books had at their last flush. Locked while the reserve is computed from it.
static SERIES: Mutex<u64> = Mutex::new(0);

thread_local! {
    static OWN: Own = const { Own::new() };
}

/// Why a call asks for memory, which decides how much it may have.
#[derive(Clone, Copy)]
enum Purpose {
    /// To admit a post that may bring new series.
    NewSeries,
    /// To read a post, or to admit a post of known series.
    Posts,
    /// To forward what was taken, or to put it in again.
    Taken,
}

impl Purpose {
    fn most(self) -> &'static AtomicI64 {
        match self {
            Purpose::NewSeries => &MOST_OF_NEW,
            Purpose::Posts => &MOST_OF_POSTS,
            Purpose::Taken => &MOST,
        }
    }
}

/// The counters of a thread.
struct Own {
    /// Bytes not yet added to the shared sum.
    drift: Cell<i64>,
    /// The purpose of the current call.
    purpose: Cell<Purpose>,
    /// How many blocks the thread was refused.
    refusals: Cell<u64>,
    /// After this many blocks, one block is refused, or all are.
    #[cfg(test)]
    left: Cell<Option<u64>>,
    #[cfg(test)]
    refuses_all: Cell<bool>,
}

impl Own {
    const fn new() -> Own {
        Own {
            drift: Cell::new(0),
            purpose: Cell::new(Purpose::Posts),
            refusals: Cell::new(0),
            #[cfg(test)]
            left: Cell::new(None),
            #[cfg(test)]
            refuses_all: Cell::new(false),
        }
    }

    fn take(&self, bytes: i64) -> bool {
        if self.is_told_to_fail() {
            return false;
        }
        let drift = self.drift.get().saturating_add(bytes);
        if drift < DRIFT {
            self.drift.set(drift);
            return true;
        }
        let fits = fits(drift, self.purpose.get().most());
        if fits {
            self.drift.set(0);
        }
        fits
    }

    fn give(&self, bytes: i64) {
        let drift = self.drift.get().saturating_sub(bytes);
        if drift > -DRIFT {
            return self.drift.set(drift);
        }
        USED.fetch_add(drift, Relaxed);
        self.drift.set(0);
    }

    #[cfg(not(test))]
    fn is_told_to_fail(&self) -> bool {
        false
    }

    #[cfg(test)]
    fn is_told_to_fail(&self) -> bool {
        let left = self.left.get();
        let is_last = left == Some(0);
        if !(is_last && self.refuses_all.get()) {
            self.left.set(left.and_then(|left| left.checked_sub(1)));
        }
        is_last
    }
}

impl Drop for Own {
    fn drop(&mut self) {
        USED.fetch_add(self.drift.get(), Relaxed);
    }
}

/// Reserves so many bytes if the sum stays within the bound.
fn fits(bytes: i64, most: &AtomicI64) -> bool {
    let most = most.load(Relaxed);
    let next = |used: i64| used.checked_add(bytes).filter(|sum| *sum <= most);
    USED.fetch_update(Relaxed, Relaxed, next).is_ok()
}

/// Reserves so many bytes for the current call; returns whether they fit.
pub(super) fn take(bytes: usize) -> bool {
    let bytes = i64::try_from(bytes).unwrap_or(i64::MAX);
    // A thread that is ending has lost its own counters.
    OWN.try_with(|own| own.take(bytes)).unwrap_or_else(|_| fits(bytes, &MOST))
}

pub(super) fn give(bytes: usize) {
    correct(bytes, 0);
}

/// Counts a refused block.
pub(super) fn note_refusal() {
    let note = |own: &Own| own.refusals.set(own.refusals.get().wrapping_add(1));
    OWN.try_with(note).unwrap_or_default(); // of a thread that is ending, nobody asks
}

/// The bytes that this thread has not added to the shared sum. It changes whenever the thread uses the library.
pub(super) fn drift() -> i64 {
    OWN.with(|own| own.drift.get())
}

/// How many blocks this thread was refused so far.
pub(super) fn refusals() -> u64 {
    OWN.with(|own| own.refusals.get())
}

/// Corrects the count of a block: the allocator may give more bytes than were asked for.
pub(super) fn correct(counted: usize, has: usize) {
    let bytes = counted as i64 - has as i64;
    if OWN.try_with(|own| own.give(bytes)).is_err() {
        USED.fetch_sub(bytes, Relaxed);
    }
}

/// Makes a call that may use up the reserve.
pub fn with_reserve<T>(call: impl FnOnce() -> T) -> T {
    with_purpose(Purpose::Taken, call)
}

/// Makes a call that may bring new series, unless it may use the reserve anyway.
pub(super) fn with_new_series<T>(call: impl FnOnce() -> T) -> T {
    match OWN.with(|own| own.purpose.get()) {
        Purpose::Taken => call(),
        _ => with_purpose(Purpose::NewSeries, call),
    }
}

fn with_purpose<T>(purpose: Purpose, call: impl FnOnce() -> T) -> T {
    let before = OWN.with(|own| own.purpose.replace(purpose));
    let done = call();
    OWN.with(|own| own.purpose.set(before));
    done
}

/// Sets the bound for all books.
pub fn bound(most: u64) {
    MOST.store(i64::try_from(most).unwrap_or(i64::MAX), Relaxed);
    Reserve::default().be_for(0);
}

/// Records the length of a text: the next one may be as long.
pub(super) fn note_text(bytes: u64) {
    LONGEST_TEXT.fetch_max(bytes, Relaxed);
}

/// The part of the reserve for one shard's book and for the one that replaces it. A process may have several shards.
#[derive(Default)]
pub(super) struct Reserve {
    series: AtomicU64,
}

impl Reserve {
    /// Sets the reserve to what forwarding this book's series and those of the other books needs, with texts as long as
    /// the longest so far, up to half of all memory. For posts of known series a smaller reserve is kept back, see
    /// `PART_OF_KNOWN`.
    pub fn be_for(&self, series: usize) {
        let mut all = locked(&SERIES);
        *all = *all + series as u64 - self.series.swap(series as u64, Relaxed);
        let most = MOST.load(Relaxed);
        let least = LEAST_RESERVE + TEXTS * LONGEST_TEXT.load(Relaxed);
        let wanted = least + least / PART_OF_KNOWN + RESERVE_OF_A_SERIES * *all;
        let [least, reserve] = [least, wanted].map(|bytes| i64::try_from(bytes).unwrap_or(i64::MAX));
        MOST_OF_NEW.store(most - reserve.min(most / 2), Relaxed);
        MOST_OF_POSTS.store(most - least.min(most / 4), Relaxed);
    }
}

impl Drop for Reserve {
    fn drop(&mut self) {
        self.be_for(0);
    }
}

/// How many bytes are used, and the bound.
pub fn used() -> (u64, u64) {
    (USED.load(Relaxed).max(0).unsigned_abs(), MOST.load(Relaxed).unsigned_abs())
}

/// Makes a call for which this thread gets so many blocks before one is refused, or all are. Returns whether none was
/// refused.
#[cfg(test)]
pub(crate) fn with_blocks<T>(blocks: u64, refuses_all: bool, call: impl FnOnce() -> T) -> (T, bool) {
    let set = |left| OWN.with(|own| (own.left.set(left), own.refuses_all.set(refuses_all)));
    let before = refusals();
    set(Some(blocks));
    let done = call();
    set(None);
    (done, refusals() == before)
}

/// A block, or none: then the address is that of a static byte, since the library wants a valid one.
#[repr(C)]
pub(super) struct Tried {
    ok: bool,
    at: *mut u8,
}

/// The valid address that stands for no block.
static NO_BLOCK: u8 = 0;

impl Tried {
    pub(super) fn of(at: *mut libc::c_void) -> Tried {
        let at = at.cast();
        Tried { ok: true, at }
    }

    pub(super) fn not() -> Tried {
        note_refusal();
        Tried { ok: false, at: (&raw const NO_BLOCK).cast_mut() }
    }
}

#[cfg(test)]
mod tests {
    use super::super::tests::points;
    use super::super::SharedBook;
    use super::*;
    use std::sync::Arc;

    /// A book from which so many series were flushed.
    fn taken(series: usize) -> Arc<SharedBook> {
        let shared_book = SharedBook::new(1).unwrap();
        let names: Vec<String> = (0..series).map(|number| format!("s{number}")).collect();
        let mut read = shared_book.read("A".into(), points(&names, 10, 1).into()).unwrap();
        shared_book.lock().admit(&mut read).unwrap();
        let flushed = shared_book.lock().take_all().unwrap();
        shared_book.lock().settle(flushed).unwrap();
        shared_book
    }

    /// An instance has the books of several shards, and any of them may be flushed next.
    #[test]
    fn what_is_kept_back_is_for_the_series_of_all_books() {
        let least = LEAST_RESERVE + TEXTS * LONGEST_TEXT.load(Relaxed) + RESERVE_OF_A_SERIES * 3_010;
        let _books = [taken(3_000), taken(10)];
        let kept = MOST.load(Relaxed) - MOST_OF_NEW.load(Relaxed);
        assert!(kept >= least as i64, "{kept} < {least}");
    }

    /// Otherwise posts of known series would be refused once senders have made as many series as there is memory for.
    #[test]
    fn new_series_leave_memory_for_known_ones_and_these_for_what_is_taken() {
        Reserve::default().be_for(0);
        let most = || OWN.with(|own| own.purpose.get()).most().load(Relaxed);
        let (posts, new, all) = (most(), with_new_series(most), with_reserve(|| with_new_series(most)));
        assert!(new < posts && posts < all, "{new}, {posts}, {all}");
        assert!(with_new_series(|| with_reserve(most)) == all && most() == posts);
    }
}
