//! Late data: points that their series refused, kept with the names of their series in `late/` of the folder, so that a
//! person can look at them (`totxegun late`) and book them (`totxegun adjust`). `shard` hands them over after the post
//! was answered.
//!
//! Posts never wait for it: a thread writes the points. If its queue is full, or the disk is full or fails, the points
//! are counted as not kept and nothing else happens. Nothing is synced, so a loss of power may take the last ones.
//! `point` is the form of a point, `segments` the files.

mod point;
mod segments;

pub use point::{LatePoint, LateValue, Refusals};

use crate::log::RateLimit;
use crate::metrics::Metrics;
use segments::Segments;
use std::io;
use std::path::PathBuf;
use std::sync::atomic::{AtomicU64, AtomicUsize, Ordering::Relaxed};
use std::sync::mpsc::{sync_channel, Receiver, SyncSender};
use std::sync::Arc;
use std::time::Duration;

/// The name of the folder, within the folder of the service.
pub const FOLDER: &str = "late";

/// How many posts, and words of their points, may be queued: about 30 MB.
const MAX_POSTS: usize = 1 << 10;
const MAX_WORDS: usize = 4 << 20;
/// A failed write is logged at most this often.
const WARN_EVERY: Duration = Duration::from_secs(3600);

/// The late data of a process.
pub struct LateData {
    /// None if there is no folder, as in tests.
    queue: Option<SyncSender<Refusals>>,
    folder: PathBuf,
    metrics: Arc<Metrics>,
    state: Arc<State>,
}

#[derive(Default)]
struct State {
    /// The words of the queued points.
    waiting: AtomicUsize,
    /// The total length of the files.
    bytes: AtomicU64,
}

impl LateData {
    /// Keeps late data in this folder, which is created with the first point. A folder that can't be used is logged and
    /// tried again.
    pub fn begin(folder: PathBuf, max_bytes: u64, metrics: Arc<Metrics>) -> io::Result<Arc<LateData>> {
        let (queue, queued) = sync_channel(MAX_POSTS);
        let (segments, state) = (Segments::new(folder.clone(), max_bytes), Arc::new(State::default()));
        let mut writer = Writer {
            segments,
            state: state.clone(),
            metrics: metrics.clone(),
            rate_limit: RateLimit::every(WARN_EVERY),
        };
        let write = move || writer.write_all(&queued);
        std::thread::Builder::new().name("late data".into()).spawn(write)?;
        Ok(Arc::new(LateData { queue: Some(queue), folder, metrics, state }))
    }

    /// Keeps nothing.
    pub fn nowhere(metrics: Arc<Metrics>) -> Arc<LateData> {
        Arc::new(LateData { queue: None, folder: PathBuf::new(), metrics, state: Arc::default() })
    }

    /// Queues these points for writing, or counts them as not kept. Never waits.
    pub fn keep(&self, refusals: Refusals) {
        let (points, words) = (refusals.count(), refusals.words());
        if points == 0 {
            return;
        }
        let waiting = self.state.waiting.fetch_add(words, Relaxed);
        let is_queued = waiting + words <= MAX_WORDS
            && self.queue.as_ref().is_some_and(|queue| queue.try_send(refusals).is_ok());
        if !is_queued {
            self.state.waiting.fetch_sub(words, Relaxed);
            self.count_lost(points);
        }
    }

    /// Counts points of which nothing is kept.
    pub fn count_lost(&self, points: u64) {
        self.metrics.late_points.with_label_values(&["not_kept"]).inc_by(points);
    }

    /// The total length of the files.
    pub fn bytes(&self) -> u64 {
        self.state.bytes.load(Relaxed)
    }

    /// How many points were kept since the start, and how many were not.
    pub fn points(&self) -> [u64; 2] {
        ["kept", "not_kept"].map(|outcome| self.metrics.late_points.with_label_values(&[outcome]).get())
    }

    /// Calls `each` with all kept points, the oldest first. `may_be` filters the lines before they are parsed.
    pub fn read(&self, may_be: impl Fn(&[u8]) -> bool, each: impl FnMut(LatePoint)) -> io::Result<()> {
        segments::read(&self.folder, may_be, each)
    }
}

/// The writing thread.
struct Writer {
    segments: Segments,
    state: Arc<State>,
    metrics: Arc<Metrics>,
    rate_limit: RateLimit,
}

impl Writer {
    fn write_all(&mut self, queued: &Receiver<Refusals>) {
        self.state.bytes.store(self.segments.bytes(), Relaxed);
        for refusals in queued {
            let points = refusals.count();
            let (kept, written) = self.segments.append(refusals.lines());
            if let Err(error) = written {
                self.warn(&error);
            }
            for (outcome, points) in [("kept", kept), ("not_kept", points - kept)] {
                self.metrics.late_points.with_label_values(&[outcome]).inc_by(points);
            }
            self.state.bytes.store(self.segments.bytes(), Relaxed);
            self.state.waiting.fetch_sub(refusals.words(), Relaxed);
        }
    }

    fn warn(&self, error: &io::Error) {
        if self.rate_limit.is_due() {
            let (folder, reason) = (self.segments.folder().display().to_string(), error.to_string());
            tracing::warn!(
                folder,
                reason,
                "late data can't be written, so it is not kept; posts are still accepted"
            );
        }
    }
}

#[cfg(test)]
mod tests;
