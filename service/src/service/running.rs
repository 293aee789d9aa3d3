//! The running parts, and the order in which they end.

use super::instance::Joined;
use super::open_shard::{cause, End};
use super::open_shards::{EndedShard, Ends, ShardTasks};
use super::{Ended, Live};
use crate::cluster::heartbeats::LEAVES_WITHIN;
use crate::ingest::Threads;
use crate::post_reports::Reporter;
use crate::quota::Quotas;
use crate::storage::Fault;
use std::sync::Arc;
use std::time::Duration;
use tokio::sync::watch;
use tokio::task::JoinHandle;

/// How long to wait for posts under way before the last checkpoint. The journal has what was taken, so the next start
/// finishes the rest.
const LAST_POSTS: Duration = Duration::from_secs(2);

/// A limit on all other waits at the end together, except hand-overs.
const LAST: Duration = Duration::from_secs(30);

/// The running parts. The ingest task ends first, then the shards; the others have nothing to finish.
pub(super) struct Running {
    pub ingest: JoinHandle<()>,
    pub operate: JoinHandle<()>,
    pub stop_ingest: watch::Sender<bool>,
    pub stop_operate: watch::Sender<bool>,
    pub shard_tasks: Arc<ShardTasks>,
    pub ends: Ends,
    /// None if a folder keeps everything.
    pub joined: Option<Joined>,
    pub live: LiveSettings,
    /// Kept until the workers of the shards have ended, so that posts under way can finish and be answered.
    pub _threads: Arc<Threads>,
}

/// The parts that changed settings affect.
#[derive(Clone)]
pub(super) struct LiveSettings {
    pub reporter: Arc<Reporter>,
    pub quotas: Arc<Quotas>,
}

impl LiveSettings {
    pub fn set(&self, live: Live) {
        self.reporter.set_options(live.report_options);
        self.quotas.set_of_each(live.of_each);
    }
}

impl Running {
    /// Returns when the whole process has to end because of a part. A fenced shard ends alone, as does each shard of a
    /// store.
    pub async fn ended(&mut self) -> Ended {
        loop {
            tokio::select! {
                Some(ending) = self.ends.recv() => {
                    if let Some(why) = self.ended_with(ending) {
                        return why;
                    }
                }
                end = &mut self.ingest => return cause("the ingest task", end.map(Ok::<(), Fault>)),
                end = &mut self.operate => return cause("the admin address", end.map(Ok::<(), Fault>)),
                cause = of_joined(&mut self.joined) => return cause,
            }
        }
    }

    /// The cause to end the process, if a shard's end requires that: a folder's shard has failed.
    fn ended_with(&self, ending: EndedShard) -> Option<Ended> {
        match (&self.joined, ending.end) {
            (Some(joined), end) => joined.ended(ending.shard, ending.term, &end),
            (None, End::Fenced) => self.shard_tasks.fence_off(ending.shard),
            (None, End::Failed(why)) => return Some(why),
        }
        None
    }

    /// How long the end may take.
    pub fn ends_within(&self) -> Duration {
        self.joined.as_ref().map_or(LAST, |_| LAST + LEAVES_WITHIN)
    }

    /// Stops accepting posts, and brings what was taken into the outbox.
    pub async fn stop(mut self) -> Result<(), Ended> {
        if let Some(joined) = &mut self.joined {
            joined.leave().await;
        }
        self.stop_ingest.send_replace(true);
        let _ = tokio::time::timeout(LAST_POSTS, &mut self.ingest).await; // a slower post was not answered
        self.stop_operate.send_replace(true);
        // A command in progress keeps a file open, which then could not be closed.
        let (_, ended) = tokio::join!(&mut self.operate, self.shard_tasks.stop_all());
        let ended = ended?;
        // A shard that failed before it was told to end reports that only here.
        while let Ok(ending) = self.ends.try_recv() {
            if let Some(why) = self.ended_with(ending) {
                return Err(why);
            }
        }
        if ended {
            tracing::info!("ended");
        }
        Ok(())
    }
}

async fn of_joined(joined: &mut Option<Joined>) -> Ended {
    match joined {
        Some(joined) => tokio::select! {
            end = &mut joined.beats => match end {
                // A restart would not help.
                Ok(Err(later)) => Ended::Line(later.into()),
                end => cause("the heartbeat", end.map(|ended| ended.map_err(anyhow::Error::from))),
            },
            end = &mut joined.peer => cause("the peers' address", end.map(Ok::<(), Fault>)),
        },
        None => std::future::pending().await,
    }
}

impl Drop for Running {
    fn drop(&mut self) {
        for task in [&self.ingest, &self.operate] {
            task.abort();
        }
    }
}

#[cfg(test)]
mod tests {
    use super::super::open_shard::tests::{no_disk, open_shard};
    use super::super::open_shard::OpenShard;
    use super::*;
    use crate::admin;
    use crate::latch::Latch;
    use crate::metrics::Metrics;
    use std::future::Future;
    use std::sync::atomic::{AtomicBool, Ordering::Relaxed};

    /// With one shard, and an ingest task whose last posts take as long as this future.
    fn running(
        open_shard: OpenShard,
        threads: Arc<Threads>,
        ingest: impl Future<Output = ()> + Send + 'static,
    ) -> Running {
        let (shard_tasks, ends) = ShardTasks::new(admin::LocalShards::of(1));
        shard_tasks.start(open_shard);
        Running {
            ingest: tokio::spawn(ingest),
            operate: tokio::spawn(async {}),
            stop_ingest: watch::channel(false).0,
            stop_operate: watch::channel(false).0,
            shard_tasks,
            ends,
            joined: None,
            live: LiveSettings {
                reporter: Reporter::new(
                    Default::default(),
                    Metrics::new().unwrap().into(),
                    Arc::default(),
                    None,
                ),
                quotas: Arc::default(),
            },
            _threads: threads,
        }
    }

    /// For example a call whose deadline has passed: no connection waits for it.
    #[tokio::test]
    async fn a_post_without_its_sender_goes_on_until_the_worker_has_ended() {
        let place = tempfile::tempdir().unwrap();
        let (done, post) = tokio::sync::oneshot::channel();
        let threads = Arc::new(Threads::new(1).unwrap());
        let of_ingest = threads.clone();
        threads.place().0.spawn(async {
            tokio::time::sleep(Duration::from_millis(200)).await;
            done.send(())
        });
        let open_shard = open_shard(place.path(), 0, async { post.await.map_err(|_| no_disk()) });
        let ended = running(open_shard, threads, async move { drop(of_ingest) }).stop().await;
        assert!(ended.is_ok(), "the post was dropped: {ended:?}");
    }

    /// Otherwise the files that the answers come from would be open at the end and could not be closed.
    #[tokio::test]
    async fn operators_who_are_being_answered_are_waited_for() {
        let place = tempfile::tempdir().unwrap();
        let open_shard = open_shard(place.path(), 0, async { Ok(()) });
        let mut running = running(open_shard, Arc::new(Threads::new(1).unwrap()), async {});
        let (stop, mut stopped) = watch::channel(false);
        let answered = Arc::new(AtomicBool::new(false));
        let has_answered = answered.clone();
        running.stop_operate = stop;
        running.operate = tokio::spawn(async move {
            stopped.wait_true().await;
            tokio::time::sleep(Duration::from_millis(200)).await;
            has_answered.store(true, Relaxed);
        });
        assert!(running.stop().await.is_ok() && answered.load(Relaxed));
    }

    /// While the last posts are waited for, or just before the signal came.
    #[tokio::test]
    async fn a_fault_of_a_shard_that_nobody_has_told_to_end_yet_is_told() {
        let place = tempfile::tempdir().unwrap();
        let open_shard = open_shard(place.path(), 0, async { Ok(()) }).with_worker(async { Err(no_disk()) });
        let threads = Arc::new(Threads::new(1).unwrap());
        let last_posts = tokio::time::sleep(Duration::from_millis(100));
        let ended = running(open_shard, threads, last_posts).stop().await;
        assert!(matches!(ended, Err(Ended::Disk(_))), "{ended:?}");
    }
}
