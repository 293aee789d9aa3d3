//! The open shards of this process. They come and go while the process runs; a folder's single shard stays.

use super::open_shard::{cause, End, Files, OpenShard, Opened};
use super::{Ended, Settings};
use crate::admin;
use crate::latch::Latch;
use crate::otlp::series::SeriesKey;
use crate::post_reports::{Reported, Reporter};
use crate::shard::{Shard, Shards, Shared};
use crate::sink::Sink;
use crate::work::{blocking, locked};
use std::collections::BTreeMap;
use std::sync::{Arc, Mutex};
use tokio::sync::{mpsc, watch};
use tokio::task::{JoinError, JoinHandle, JoinSet};

/// The tasks of the shards.
pub(super) struct ShardTasks {
    local: Arc<admin::LocalShards>,
    tasks: Mutex<BTreeMap<u16, Task>>,
    ends: mpsc::UnboundedSender<EndedShard>,
}

/// Receives the shards that ended without being told to.
pub(super) type Ends = mpsc::UnboundedReceiver<EndedShard>;

/// A shard that ended without being told to.
#[derive(Debug)]
pub(super) struct EndedShard {
    pub shard: u16,
    /// The term under which it was open; none for a folder. By now it may be open again under another term.
    pub term: Option<u64>,
    pub end: End,
}

/// Dropping it ends the shard.
struct Task {
    stop: watch::Sender<bool>,
    task: JoinHandle<Result<bool, Ended>>,
}

impl Drop for Task {
    fn drop(&mut self) {
        self.task.abort();
    }
}

impl ShardTasks {
    pub fn new(local: Arc<admin::LocalShards>) -> (Arc<ShardTasks>, Ends) {
        let (ends, ended) = mpsc::unbounded_channel();
        let shard_tasks = ShardTasks { local, tasks: Mutex::default(), ends };
        (Arc::new(shard_tasks), ended)
    }

    /// The shards as operators see them.
    pub fn open_shards(&self) -> &Arc<admin::LocalShards> {
        &self.local
    }

    pub fn start(&self, open_shard: OpenShard) {
        let number = open_shard.local.shard.number();
        self.local.put(open_shard.local.clone());
        let (stop, stopped) = watch::channel(false);
        let task = tokio::spawn(run(open_shard, stopped, self.ends.clone()));
        locked(&self.tasks).insert(number, Task { stop, task });
    }

    /// Ends a shard after everything taken is in its outbox; false if that took too long.
    pub async fn stop(&self, number: u16) -> Result<bool, Ended> {
        let task = locked(&self.tasks).remove(&number);
        let Some(mut task) = task else { return Ok(true) };
        task.stop.send_replace(true);
        let ended = (&mut task.task).await;
        self.local.remove(number);
        ended.unwrap_or_else(|error| Err(failed(error)))
    }

    /// Ends all shards at once.
    pub async fn stop_all(self: &Arc<Self>) -> Result<bool, Ended> {
        let numbers: Vec<u16> = locked(&self.tasks).keys().copied().collect();
        let mut stopping = JoinSet::new();
        for number in numbers {
            let shard_tasks = self.clone();
            stopping.spawn(async move { shard_tasks.stop(number).await });
        }
        let mut all = Ok(true);
        while let Some(stopped) = stopping.join_next().await {
            let stopped = stopped.unwrap_or_else(|error| Err(failed(error)));
            all = all.and_then(|all| Ok(stopped? && all));
        }
        all
    }

    /// Ends a fenced shard: nothing of it is answered or delivered any more.
    pub fn fence_off(&self, number: u16) {
        let task = locked(&self.tasks).remove(&number);
        if let Some(open_shard) = self.local.remove(number) {
            open_shard.shard.fence_off();
        }
        drop(task);
    }
}

fn failed(error: JoinError) -> Ended {
    cause("a shard", Err::<Result<(), Ended>, _>(error))
}

async fn run(
    mut open_shard: OpenShard,
    mut stop: watch::Receiver<bool>,
    ends: mpsc::UnboundedSender<EndedShard>,
) -> Result<bool, Ended> {
    let (shard, term) = (open_shard.local.shard.number(), open_shard.local.shard.outbox.term());
    tokio::select! {
        biased;
        () = stop.wait_true() => open_shard.stop().await,
        end = open_shard.ended() => {
            let _ = ends.send(EndedShard { shard, term, end }); // fails only if the process is ending
            Ok(false)
        }
    }
}

/// Opens shards, and ends them while posts go on.
pub(super) struct OpenShards {
    pub settings: Arc<Settings>,
    pub shared: Arc<Shared>,
    pub sink: Arc<dyn Sink>,
    pub reporter: Arc<Reporter>,
    /// Routes posts to shards.
    pub shards: Arc<Shards<Reported<Shard>>>,
    pub shard_tasks: Arc<ShardTasks>,
}

impl OpenShards {
    /// Opens a shard here.
    pub async fn open(&self, files: Files) -> Result<(), Ended> {
        let (settings, shared, shards) = (self.settings.clone(), self.shared.clone(), self.shards.count());
        self.begin(blocking(move || files.open(shards, &settings, &shared)).await?);
        Ok(())
    }

    /// Starts a shard that is open.
    pub fn begin(&self, opened: Opened) {
        let open_shard = OpenShard::begin(opened, &self.settings, &self.sink);
        let shard = &open_shard.local.shard;
        let outbox = shard.outbox.clone();
        let owner = move |series: &SeriesKey| outbox.owner(&series.digest());
        let taker = Reported::new(shard.clone(), owner, self.reporter.clone());
        self.shards.set(shard.number(), Some(taker)); // first, so that a shard that is fenced at once is removed again
        self.shard_tasks.start(open_shard);
    }

    /// Hands a shard over: stops its posts and brings what was taken into the outbox. False if that took too long; its
    /// journal has the rest.
    pub async fn hand_over(&self, number: u16) -> Result<bool, Ended> {
        self.shards.set(number, None);
        self.shard_tasks.stop(number).await
    }

    /// Ends a shard that another instance owns.
    pub fn fence_off(&self, number: u16) {
        self.shards.set(number, None);
        self.shard_tasks.fence_off(number);
    }
}

#[cfg(test)]
mod tests;
