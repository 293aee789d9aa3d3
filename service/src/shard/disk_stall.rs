//! Detects that the disk or the store stalls: while one of its calls takes long, posts get 503 before they are put in,
//! since they would wait for the same disk and their senders would not know how long. `Shard::unavailable` asks it for
//! each post.

use super::Shard;
use std::sync::atomic::Ordering::Relaxed;
use std::time::Duration;

/// How long a call of the disk may take.
const PATIENCE: Duration = Duration::from_secs(2);

impl Shard {
    /// How long the oldest unfinished call of the disk has been running; zero if there is none. Never waits.
    pub fn disk_call(&self) -> Duration {
        self.journal.under_way().max(self.outbox.under_way())
    }

    /// Whether the disk answers. Each change is logged once.
    pub fn disk_answers(&self) -> bool {
        let stalls = self.disk_call() >= PATIENCE;
        // While nothing changes posts only read this flag, so their threads share its cache line.
        if self.told.load(Relaxed) != stalls && self.told.swap(stalls, Relaxed) != stalls {
            let disk = if self.journal.is_in_store() { "store" } else { "disk" };
            match stalls {
                true => tracing::error!(
                    disk,
                    seconds = PATIENCE.as_secs(),
                    "a call of the disk is not completed, so posts get 503 until it is; accepted posts are not lost"
                ),
                false => tracing::info!(disk, "the disk answers again: posts are accepted"),
            }
        }
        !stalls
    }
}
