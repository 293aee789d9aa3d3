//! Measures how long the calls of a disk take, so that a stall is noticed (`shard/disk_stall`).

use std::sync::atomic::{AtomicU64, Ordering::Relaxed};
use std::sync::LazyLock;
use std::time::{Duration, Instant};

/// The calls that normally run at once: a write, a sync, a deletion, and one more. Further ones are not measured.
const PLACES: usize = 4;
static BEGAN: LazyLock<Instant> = LazyLock::new(Instant::now);

/// Start times of running calls. Reading them takes no lock, since the holder of a lock may be in a stalled call.
#[derive(Default)]
pub struct UnderWay([AtomicU64; PLACES]);

/// A running call; it ends when this is dropped.
pub struct Noted<'a>(Option<&'a AtomicU64>);

impl UnderWay {
    /// Nanoseconds, never 0: a 0 in the array is a free place.
    fn now() -> u64 {
        1 + BEGAN.elapsed().as_nanos() as u64
    }

    pub fn note(&self) -> Noted<'_> {
        let now = UnderWay::now();
        let is_taken = |place: &&AtomicU64| place.compare_exchange(0, now, Relaxed, Relaxed).is_ok();
        Noted(self.0.iter().find(is_taken))
    }

    pub fn longest(&self) -> Duration {
        let began = self.0.iter().map(|place| place.load(Relaxed));
        let first = began.filter(|began| *began > 0).min();
        first.map_or(Duration::ZERO, |first| Duration::from_nanos(UnderWay::now().saturating_sub(first)))
    }
}

impl Drop for Noted<'_> {
    fn drop(&mut self) {
        if let Some(place) = self.0 {
            place.store(0, Relaxed);
        }
    }
}
