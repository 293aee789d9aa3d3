//! A shard: the book with its journal and outbox, and the way of a post through them. `ingest` and `grpc` post to it;
//! `worker` starts it and takes its checkpoints.
//!
//! Nothing is answered before the journal is as durable as was asked for (`verdict`), and a post is in the book and the
//! journal or in neither (`request`).
//!
//! - `request`: the way of a post; `posted` parses it, `numbers` has the numbers of series.
//! - `apart`: posts with refused points; `duplicates`: which of these were taken before; `refused_points`: what is
//!   answered and kept of the others; `long_ago`: warns of old points.
//! - `cumulative`: the conversion of cumulative points; `never`: posts that are refused for good.
//! - `verdict`: the answer, and when it may be given.
//! - `phase`: whether posts are taken; `disk_stall`: whether the disk answers; `shards`: where posts of each shard go.

mod cumulative;
mod disk_stall;
mod duplicates;
mod long_ago;
mod numbers;
mod partial_post;
mod phase;
mod posted;
mod refused_points;
mod request;
mod shards;
mod too_large;
mod verdict;

pub use numbers::{ByNumber, Request, Source};
pub(crate) use phase::Phase;
pub use shards::{Forwarder, RequestRoute, Shards};

use crate::book::SharedBook;
use crate::journal::Journal;
use crate::late::LateData;
use crate::log::OnceAnHour;
use crate::metrics::Metrics;
use crate::otlp::{Clock, Outcome, Reading, Reason};
use crate::outbox::Outbox;
use crate::quota::Quotas;
use crate::runs::Runs;
use crate::storage::FreeSpace;
use crate::work::Readers;
use bytes::Bytes;
use phase::Phases;
use std::sync::atomic::{AtomicBool, AtomicU64, Ordering};
use std::sync::{Arc, Mutex};
use tokio::sync::Notify;

/// How many long bodies are parsed at a time. Parsing one takes several times its length of memory.
const READERS: usize = 2;
/// For how many senders the log remembers that it reported duplicates.
const REMEMBERED: usize = 1000;

/// A shard, shared by `ingest`, which posts, and the worker.
pub struct Shard {
    number: u16,
    free_space: Arc<FreeSpace>,
    pub(crate) journal: Arc<Journal>,
    pub(crate) outbox: Arc<Outbox>,
    pub(crate) metrics: Arc<Metrics>,
    pub(crate) shared_book: Arc<SharedBook>,
    phases: Phases,
    readers: Arc<Readers>,
    numbers: Arc<numbers::Numbers>,
    clock: Clock,
    pub(crate) runs: Runs,
    /// How many posts are in the journal and in no group. Increased under the lock of the book; decreased by the
    /// worker.
    ungrouped: AtomicU64,
    /// Wakes the worker after a post was refused for too many series.
    pub(crate) crowded: Notify,
    /// Wakes the worker if requests of earlier windows have become large, or there is no memory for them.
    pub(crate) hurried: Notify,
    /// Wakes posts that wait for a flush in flight.
    pub(crate) landed: Notify,
    /// Whether the disk stalled at the last look, which the log has.
    told: AtomicBool,
    noted_runs: cumulative::NotedRuns,
    pub(crate) quotas: Arc<Quotas>,
    /// The senders whose duplicates were logged within the hour.
    duplicates: Arc<Mutex<OnceAnHour<String>>>,
    /// The senders whose points that ended long ago were logged within the hour.
    long_ago: Arc<Mutex<OnceAnHour<String>>>,
    late: Arc<LateData>,
    /// None if posts are read by the settings that all shards share.
    reading: Option<Arc<Reading>>,
    /// Held by the one post that has the outbox keep new units of measure.
    keeping: Arc<tokio::sync::Mutex<()>>,
}

/// What all shards of a process share.
pub struct Shared {
    pub metrics: Arc<Metrics>,
    /// The clock, and how far from it points may end.
    pub clock: Clock,
    pub quotas: Arc<Quotas>,
    /// Keeps the points that their series refuse.
    pub late: Arc<LateData>,
    readers: Arc<Readers>,
    numbers: Arc<numbers::Numbers>,
    duplicates: Arc<Mutex<OnceAnHour<String>>>,
    long_ago: Arc<Mutex<OnceAnHour<String>>>,
}

impl Shared {
    pub fn new(metrics: Arc<Metrics>, clock: Clock) -> Shared {
        Shared {
            late: LateData::nowhere(metrics.clone()),
            metrics,
            clock,
            quotas: Arc::default(),
            readers: Arc::new(Readers::new(READERS)),
            numbers: Arc::default(),
            duplicates: Arc::new(Mutex::new(OnceAnHour::new(REMEMBERED))),
            long_ago: Arc::new(Mutex::new(OnceAnHour::new(REMEMBERED))),
        }
    }

    /// Keeps refused points in `late`.
    pub fn with_late(self, late: Arc<LateData>) -> Shared {
        Shared { late, ..self }
    }

    #[cfg(test)]
    fn of_test() -> Shared {
        Shared::new(Arc::new(Metrics::new().unwrap()), Clock::default())
    }
}

impl Shard {
    #[cfg(test)]
    pub fn new(
        number: u16,
        journal: Journal,
        outbox: Arc<Outbox>,
        metrics: Arc<Metrics>,
        shared_book: Arc<SharedBook>,
    ) -> Arc<Shard> {
        Shard::of(None, number, journal, outbox, shared_book, &Shared::new(metrics, Clock::default()))
    }

    /// A shard with its own `reading`, if there is one.
    pub fn of(
        reading: Option<Arc<Reading>>,
        number: u16,
        journal: Journal,
        outbox: Arc<Outbox>,
        shared_book: Arc<SharedBook>,
        shared: &Shared,
    ) -> Arc<Shard> {
        Arc::new(Shard {
            reading,
            number,
            free_space: journal.free_space().clone(),
            journal: Arc::new(journal),
            outbox,
            metrics: shared.metrics.clone(),
            shared_book,
            phases: Phases::new(),
            readers: shared.readers.clone(),
            numbers: shared.numbers.clone(),
            clock: shared.clock,
            runs: Runs::default(),
            ungrouped: AtomicU64::new(0),
            crowded: Notify::new(),
            hurried: Notify::new(),
            landed: Notify::new(),
            told: AtomicBool::new(false),
            noted_runs: cumulative::NotedRuns::new(),
            quotas: shared.quotas.clone(),
            duplicates: shared.duplicates.clone(),
            long_ago: shared.long_ago.clone(),
            late: shared.late.clone(),
            keeping: Arc::default(),
        })
    }

    pub fn number(&self) -> u16 {
        self.number
    }

    /// The settings by which its posts are read: its own, or those of all shards.
    pub fn reading<'r>(&'r self, of_all: &'r Arc<Reading>) -> &'r Arc<Reading> {
        self.reading.as_ref().unwrap_or(of_all)
    }

    /// Puts a request into the book. The answer, a refusal too, comes only after the journal is as durable as was asked
    /// for.
    pub async fn post(self: &Arc<Shard>, sender: String, body: Bytes) -> Outcome {
        self.request(sender, body.into()).await
    }

    /// Why every post is answered 503 now; none if posts are taken.
    pub fn unavailable(&self) -> Option<Reason> {
        match self.phase() {
            Phase::Recovering => Some(Reason::Recovering),
            Phase::Unfilled => Some(Reason::Unfilled),
            Phase::Stopping => Some(Reason::Stopping),
            Phase::Fenced => Some(Reason::ShardMoves),
            // Checked before the room, since that asks the disk.
            Phase::Serving if !self.disk_answers() => Some(match self.journal.is_in_store() {
                true => Reason::StoreSilent,
                false => Reason::DiskSilent,
            }),
            Phase::Serving if self.free_space.is_left() => None,
            Phase::Serving => Some(Reason::NoRoom),
        }
    }

    /// Whether the book has all accepted posts, so that posts are taken.
    pub fn is_ready(&self) -> bool {
        self.phase() == Phase::Serving
    }

    /// Whether posts of a released sender wait for a flush.
    pub fn has_released(&self) -> bool {
        self.journal.holds_of_others(&self.outbox.quarantined())
    }

    /// The book, for reports.
    pub fn shared_book(&self) -> &SharedBook {
        &self.shared_book
    }
}

#[cfg(test)]
impl Shard {
    /// A shard that takes posts and has its files in memory.
    fn in_memory(shared: &Shared) -> Arc<Shard> {
        Shard::in_memory_of(shared, SharedBook::new(10).unwrap())
    }

    fn in_memory_of(shared: &Shared, shared_book: Arc<SharedBook>) -> Arc<Shard> {
        use crate::storage::shard_store::{self, memory::Store};
        let (journal, outbox, _dead) =
            shard_store::open(Arc::<Store>::default().take(), "00000000000000aa").unwrap();
        let shard = Shard::of(None, 0, journal, Arc::new(outbox), shared_book, shared);
        shard.open();
        shard
    }
}

/// Whether this is a valid name of a sender: the book takes no other, and names are part of headers and paths.
pub fn is_sender(name: &str) -> bool {
    let sound = |byte: u8| byte.is_ascii_alphanumeric() || b"._-".contains(&byte);
    (1..=64).contains(&name.len()) && name.bytes().all(sound)
}

/// What the worker changes and asks.
impl Shard {
    pub(crate) fn phase(&self) -> Phase {
        self.phases.now()
    }

    /// Takes posts from now on, unless the service is ending.
    pub(crate) fn open(&self) {
        self.phases.go_on(Phase::Serving);
    }

    /// Takes no posts: there is too little memory to fill the book.
    pub(crate) fn stay_unfilled(&self) {
        self.phases.go_on(Phase::Unfilled);
    }

    /// Takes no more posts: the service is ending.
    pub(crate) fn stop(&self) {
        self.phases.go_on(Phase::Stopping);
        self.landed.notify_waiters(); // a flush in flight may never end
    }

    /// Takes no more posts: the shard is fenced, and another instance takes them.
    pub(crate) fn fence_off(&self) {
        self.phases.go_on(Phase::Fenced);
        self.landed.notify_waiters();
    }

    /// Whether the journal has posts.
    pub(crate) fn has_posts(&self) -> bool {
        self.journal.size().1.is_some()
    }

    fn count_post(&self) {
        self.ungrouped.fetch_add(1, Ordering::Relaxed);
    }

    pub(crate) fn set_ungrouped(&self, posts: u64) {
        self.ungrouped.store(posts, Ordering::Relaxed);
    }

    /// Counts posts that are now in a group.
    pub(crate) fn count_grouped(&self, posts: u64) {
        self.ungrouped.fetch_sub(posts, Ordering::Relaxed);
    }

    /// How many posts are in the journal and in no group.
    pub(crate) fn ungrouped(&self) -> u64 {
        self.ungrouped.load(Ordering::Relaxed)
    }
}

#[cfg(test)]
mod tests {
    use super::*;

    #[test]
    fn names_of_senders() {
        for name in ["-", "A", "a.b_c-9", &"x".repeat(64)] {
            assert!(is_sender(name), "{name}");
        }
        for name in ["", "a b", "a\r\nx: y", "a/b", "ä", &"x".repeat(65)] {
            assert!(!is_sender(name), "{name}");
        }
    }
}
