//! The pool of the library's readers. A reader keeps the identities that it has parsed, up to some megabytes, so that
//! it recognises them; therefore the pool is small, and readers that were idle for a while are freed.

use super::library::Reader;
use super::Refused;
use crate::work::locked;
use std::sync::atomic::{AtomicU64, Ordering::Relaxed};
use std::sync::{Arc, Mutex, Weak};
use std::time::{Duration, Instant};

/// How many readers a thread keeps. A post needs one only while its thread parses it and puts it in, unless it has to
/// wait.
const KEPT: usize = 2;
/// More than a start uses at once.
const MOST_SPARE: usize = 160;

/// Nobody waits long: the lock is held only to take or to return a reader.
type Pool = Mutex<Vec<Kept>>;

/// A reader in a pool.
struct Kept {
    reader: Reader,
    /// The value of `TURN` when the reader was returned.
    turn: u64,
}

thread_local! {
    /// The readers of this thread, so that no post waits for another thread.
    static OWN: Arc<Pool> = own();
}

/// Readers that their threads have no room for. A start parses on short-lived threads, whose readers know the
/// identities by then.
static SPARE: Pool = Mutex::new(Vec::new());
/// The pools of all threads.
static POOLS: Mutex<Vec<Weak<Pool>>> = Mutex::new(Vec::new());
/// How often idle readers were freed, and when last.
static TURN: AtomicU64 = AtomicU64::new(0);
static LAST: Mutex<Option<Instant>> = Mutex::new(None);

fn own() -> Arc<Pool> {
    let own = Arc::new(Pool::default());
    locked(&POOLS).push(Arc::downgrade(&own));
    own
}

/// Takes a reader from the pool, or makes one; none if there is no memory.
pub(super) fn reader() -> Option<Reader> {
    let kept = OWN.try_with(|own| locked(own).pop()).ok().flatten();
    let kept = kept.or_else(|| locked(&SPARE).pop());
    kept.map(|kept| kept.reader).or_else(Reader::new)
}

/// Does some work with a pooled reader.
pub(super) fn with_reader<T>(work: impl FnOnce(&mut Reader) -> Result<T, Refused>) -> Result<T, Refused> {
    let mut reader = reader().ok_or(Refused::NoMemory)?;
    let done = work(&mut reader);
    keep(reader);
    done
}

/// Returns a reader to the pool.
pub(super) fn keep(reader: Reader) {
    let turn = TURN.load(Relaxed);
    let mut kept = Some(Kept { reader, turn });
    // A thread that is ending keeps none.
    let _ = OWN.try_with(|own| put(own, KEPT, &mut kept));
    if kept.is_some() {
        put(&SPARE, MOST_SPARE, &mut kept); // all threads share its lock
    }
}

/// Puts the reader into the pool if there is room.
fn put(pool: &Pool, most: usize, kept: &mut Option<Kept>) {
    let mut pool = locked(pool);
    if pool.len() < most {
        pool.extend(kept.take());
    }
}

/// Frees all readers that belong to no thread.
pub fn free_spare_readers() {
    let spare = std::mem::take(&mut *locked(&SPARE));
    drop(spare); // without the lock, since freeing takes long
}

/// Frees all readers that nobody has used since the last time, if that is at least `after` ago.
pub fn free_idle_readers(after: Duration) {
    let mut last = locked(&LAST);
    if last.is_none_or(|last| last.elapsed() >= after) {
        *last = Some(Instant::now());
        drop(last);
        free_idle();
    }
}

fn free_idle() {
    let turn = TURN.fetch_add(1, Relaxed);
    let mut pools = locked(&POOLS);
    pools.retain(|pool| pool.strong_count() > 0);
    let own: Vec<_> = pools.iter().filter_map(Weak::upgrade).collect();
    drop(pools);
    let pools = own.iter().map(Arc::as_ref).chain([&SPARE]);
    let idle: Vec<Kept> = pools.flat_map(|pool| idle(pool, turn)).collect();
    drop(idle); // without the lock, since freeing takes long
}

fn idle(pool: &Pool, turn: u64) -> Vec<Kept> {
    let mut pool = locked(pool);
    let (used, idle) = pool.drain(..).partition(|kept| kept.turn == turn);
    *pool = used;
    idle
}

#[cfg(test)]
mod tests {
    use super::*;

    fn kept() -> usize {
        OWN.with(|own| locked(own).len())
    }

    #[test]
    fn what_nobody_uses_is_freed() {
        std::thread::spawn(|| {
            let mut readers: Vec<Reader> = (0..3).map(|_| Reader::new().unwrap()).collect();
            readers.drain(..).for_each(keep);
            assert_eq!(kept(), KEPT, "the third is spare");
            let used = reader().unwrap();
            free_idle(); // another test may have done it at the same time
            keep(used);
            free_idle();
            free_idle();
            assert_eq!(kept(), 0);
        })
        .join()
        .unwrap();
    }

    #[test]
    fn what_is_used_stays() {
        std::thread::spawn(|| {
            keep(Reader::new().unwrap());
            let used = reader().unwrap();
            assert_eq!(kept(), 0);
            keep(used);
            free_idle_readers(Duration::ZERO);
            free_idle_readers(Duration::from_secs(3600));
            assert!(locked(&LAST).is_some());
        })
        .join()
        .unwrap();
    }
}
