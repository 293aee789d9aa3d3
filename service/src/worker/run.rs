//! The loop of the worker: starts the shard, then waits for events and handles one after another.

use super::recovery::{recover_seeded, Recovered};
use super::{ShardWorker, WorkerError};
use crate::latch::Latch;
use crate::log::shown;
use crate::post_reports::SERIES_SHOWN;
use crate::shard::Shard;
use crate::work::blocking;
use std::collections::HashSet;
use std::time::{Duration, Instant, SystemTime, UNIX_EPOCH};
use tokio::sync::watch;
use tokio::time::MissedTickBehavior;

/// How often it looks whether a checkpoint is due.
const LOOK: Duration = Duration::from_millis(50);
/// A checkpoint is due early after so many posts, because a start has to put in what is in no group.
const MANY_POSTS: u64 = 300_000;
/// In a store the next owner replays the journal while senders wait, so a checkpoint is due after what takes about a
/// second: so many posts, or so many bytes of the journal.
const MANY_POSTS_IN_STORE: u64 = 20_000;
const MANY_BYTES_IN_STORE: u64 = 64 << 20;
/// How often it looks for series to forget while there are too many, and the pause after some were forgotten.
const BETWEEN_LOOKS_AT_AGES: Duration = Duration::from_secs(1);
const BETWEEN_FORGETTING: Duration = Duration::from_secs(10);
/// Series that end further ahead of the clock are reported at the start.
pub(super) const AHEAD: Duration = Duration::from_secs(3600);

impl ShardWorker {
    /// Returns when everything that was taken is in the outbox after `stop`, or when it can't go on. A stop during the
    /// start leaves posts in the journal, and the next start puts them in.
    pub async fn run(mut self, mut stop: watch::Receiver<bool>) -> Result<(), WorkerError> {
        let ended = self.serve(&mut stop).await;
        match ended {
            Err(WorkerError::Fenced(_)) => {
                self.shard.fence_off();
                let shard = self.shard.number();
                tracing::warn!(shard, "the shard was fenced: another instance has it");
            }
            _ => self.shard.stop(),
        }
        ended
    }

    async fn serve(&mut self, stop: &mut watch::Receiver<bool>) -> Result<(), WorkerError> {
        self.begin().await?;
        match self.start(stop).await {
            // In a store another instance may have more memory.
            Err(WorkerError::NoMemoryToFill(why)) if !self.shard.journal.is_in_store() => {
                return self.stay_unfilled(&why, stop).await;
            }
            started => {
                if !started? {
                    return Ok(());
                }
            }
        }
        self.flush_what_was_filled().await?;
        self.shard.open();
        let mut looks = tokio::time::interval(LOOK);
        looks.set_missed_tick_behavior(MissedTickBehavior::Delay);
        loop {
            tokio::select! {
                biased;
                lost = self.shard.journal.fenced() => return Err(lost.into()),
                () = stop.wait_true() => return self.finish().await,
                Some((order, to)) = self.orders.recv() => {
                    let done = self.carry_out(order).await?;
                    // After a refusal, too: a shard that is fenced says nothing.
                    let outbox = self.shard.outbox.clone();
                    blocking(move || outbox.sync()).await?;
                    let _ = to.send(done); // the caller may not wait any more
                }
                () = self.shard.crowded.notified() => self.forget_if_it_helps().await?,
                () = self.shard.hurried.notified() => {
                    // A checkpoint that was put off has its own time.
                    if self.put_off == 0 {
                        let _put_off = self.checkpoint().await?;
                    }
                }
                _ = looks.tick() => self.look().await?,
            }
        }
    }

    /// Deletes the segments of the journal that the last commit has made obsolete.
    pub(super) async fn begin(&mut self) -> Result<(), WorkerError> {
        let shard = self.shard.clone();
        blocking(move || Ok(shard.journal.truncate_before(shard.outbox.journal())?)).await
    }

    /// Fills the book; false if it was told to stop first.
    pub(super) async fn start(&mut self, stop: &watch::Receiver<bool>) -> Result<bool, WorkerError> {
        let began = Instant::now();
        // What is read of the journal has to be durable first.
        self.shard.journal.durable(self.shard.journal.now()).await?;
        let (shard, stop, seeding) = (self.shard.clone(), stop.clone(), self.seeding.take());
        let filled = blocking(move || recover_seeded(&shard, seeding, || *stop.borrow())).await?;
        let Some(Recovered { posts, carried, runs }) = filled else {
            return Ok(false);
        };
        self.carried = carried;
        let all = &self.shard.runs;
        all.put(&mut all.lock(), runs);
        self.shard.set_ungrouped(posts);
        let took = began.elapsed();
        self.shard.metrics.last_recovery.set(took.as_secs_f64());
        let (shard, series) = (self.shard.number(), self.shard.outbox.series_count());
        tracing::info!(
            shard,
            seconds = took.as_secs_f64(),
            series_count = series,
            posts,
            "the shard is ready"
        );
        tell_ahead(&self.shard);
        Ok(true)
    }

    /// Makes a group of what was put in, before the first post. If a store went back, a sink may have all that the
    /// journal brought, and nothing of what comes next; if both were one request it would be left out or count twice.
    /// Nothing says in time whether a store went back.
    async fn flush_what_was_filled(&mut self) -> Result<(), WorkerError> {
        if self.shard.journal.is_in_store() && (self.shard.ungrouped() > 0 || !self.carried.is_empty()) {
            let _put_off = self.checkpoint().await?; // without memory for it, it comes later
        }
        Ok(())
    }

    async fn look(&mut self) -> Result<(), WorkerError> {
        if self.is_due() {
            let _put_off = self.checkpoint().await?;
        }
        self.rest().await;
        Ok(())
    }

    /// A checkpoint that was put off has its own time, however many posts wait.
    fn is_due(&self) -> bool {
        let ungrouped = self.shard.ungrouped();
        if Instant::now() < self.next_checkpoint {
            return self.put_off == 0 && self.has_many(ungrouped);
        }
        ungrouped > 0 || self.released || !self.carried.is_empty()
    }

    /// Whether a start would take long to put in what is in no group, `ungrouped` posts.
    fn has_many(&self, ungrouped: u64) -> bool {
        let journal = &self.shard.journal;
        match journal.is_in_store() {
            true => are_many_in_store(ungrouped, journal.size().0),
            false => ungrouped > MANY_POSTS,
        }
    }

    /// Forgets series that nobody posts to, if there are any.
    async fn forget_if_it_helps(&mut self) -> Result<(), WorkerError> {
        let Some(age) = self.settings.forget else {
            return Ok(());
        };
        if Instant::now() < self.next_look_at_ages {
            return Ok(());
        }
        self.next_look_at_ages = Instant::now() + BETWEEN_LOOKS_AT_AGES;
        if self.shard.outbox.has_any_of(age, &HashSet::new()) {
            self.forget_idle_series(age).await?;
            self.next_look_at_ages = Instant::now() + BETWEEN_FORGETTING;
        }
        Ok(())
    }

    /// Refuses posts from now on, makes a last checkpoint, and then waits for the journal, so that each waiting sender
    /// gets its answer. After this another instance may take the shard, and a durable post would be answered 503.
    async fn finish(&mut self) -> Result<(), WorkerError> {
        self.shard.stop();
        let shard = self.shard.number();
        let flushed = self.checkpoint().await?;
        let journal = &self.shard.journal;
        journal.durable(journal.now()).await?;
        match flushed {
            Ok(_) => tracing::info!(shard, "all accepted posts are in the outbox"),
            Err(refused) => {
                let reason = refused.to_string();
                tracing::warn!(
                    shard,
                    reason,
                    "the last checkpoint failed. Nothing is lost: the next start replays the journal"
                );
            }
        }
        Ok(())
    }
}

/// Reports series that end far ahead of the clock, since their good points are refused.
fn tell_ahead(shard: &Shard) {
    let now = SystemTime::now().duration_since(UNIX_EPOCH).unwrap_or_default() + AHEAD;
    let (series_count, last) = shard.outbox.ahead_of(u64::try_from(now.as_nanos()).unwrap_or(u64::MAX));
    if let Some(last) = last {
        let (shard, series) = (shard.number(), shown(&last.0, SERIES_SHOWN));
        tracing::warn!(
            shard,
            series_count,
            series,
            "series end over an hour ahead of this clock, so their points are refused until then: set their ends back by \
             totxegun rewind"
        );
    }
}

/// Whether so many posts in no group, in a journal of so many bytes, are many for a store.
fn are_many_in_store(posts: u64, bytes: u64) -> bool {
    posts > MANY_POSTS_IN_STORE || posts > 0 && bytes > MANY_BYTES_IN_STORE
}

#[cfg(test)]
mod tests {
    use super::super::tests::worker;
    use super::*;

    /// Otherwise ten tries would take half a second, and the process would end.
    #[tokio::test]
    async fn a_checkpoint_that_was_put_off_waits_for_its_time_however_many_posts_there_are() {
        let place = tempfile::tempdir().unwrap();
        let mut worker = worker(place.path());
        let metrics = worker.shard.metrics.clone();
        let done = || metrics.checkpoints.with_label_values(&["done"]).get();
        worker.shard.set_ungrouped(MANY_POSTS + 1);
        worker.put_off = 1;
        worker.look().await.unwrap();
        assert_eq!(done(), 0);
        worker.next_checkpoint = Instant::now();
        worker.look().await.unwrap();
        assert_eq!((done(), worker.put_off), (1, 0));
        worker.shard.set_ungrouped(MANY_POSTS + 1);
        worker.look().await.unwrap();
        assert_eq!(done(), 2, "it comes early");
    }

    #[test]
    fn a_checkpoint_comes_early_by_posts_and_by_bytes() {
        let (posts, bytes) = (MANY_POSTS_IN_STORE, MANY_BYTES_IN_STORE);
        for (posts, bytes, are_many) in [
            (0, u64::MAX, false), // everything is in a group
            (posts, 0, false),
            (posts + 1, 0, true),
            (1, bytes, false),
            (1, bytes + 1, true),
        ] {
            assert_eq!(are_many_in_store(posts, bytes), are_many, "{posts} posts, {bytes} bytes");
        }
    }
}
