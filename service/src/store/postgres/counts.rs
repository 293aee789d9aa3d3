//! Counters of a store, for metrics.

use std::sync::atomic::AtomicU64;

#[derive(Debug, Default)]
pub struct Counts {
    /// Writes that are known to be committed.
    pub commits: AtomicU64,
    /// Calls with an unknown outcome; each made us repeat a write.
    pub doubts: AtomicU64,
    /// Writes that found another owner.
    pub fenced: AtomicU64,
    /// How often the store had lost what it had reported as durable.
    pub vanished: AtomicU64,
}
