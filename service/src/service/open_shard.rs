//! An open shard: its book with journal and outbox, its worker (`worker`) and its delivery. They start and end
//! together, while the process goes on.

use super::{Ended, Settings};
use crate::admin::{self, Undelivered};
use crate::book::SharedBook;
use crate::dead_letters::DeadLetters;
use crate::journal::Journal;
use crate::outbox::Outbox;
use crate::shard::{Shard, Shared};
use crate::sink::{self, Attempts, Sink};
use crate::storage::{Fault, Folder};
use crate::worker::{Seeding, ShardWorker, WorkerError};
use anyhow::{anyhow, Context};
use std::sync::Arc;
use std::time::Duration;
use tokio::sync::watch;
use tokio::task::{JoinError, JoinSet};
use tokio::time::Instant;

/// How long to wait for the last checkpoint. The journal has what was taken, so the next owner or start finishes the
/// rest.
const LAST_CHECKPOINT: Duration = Duration::from_secs(5);
/// How long to wait for a part that is changing a file: its fault would set the exit status.
const LAST_CHANGES: Duration = Duration::from_secs(2);

/// A shard has room for at least this many times its share of all series.
const UNEVEN: usize = 4;

/// The files of a shard.
pub(super) struct Files {
    number: u16,
    outbox: Arc<Outbox>,
    dead: Arc<DeadLetters>,
    has_posts: bool,
    journal: Box<dyn FnOnce() -> Result<Journal, Fault> + Send>,
}

impl Files {
    pub fn of_folder(folder: &Arc<Folder>) -> Result<Files, Fault> {
        let (outbox, left) = folder.begin_shard()?;
        let (outbox, dead) = (Arc::new(outbox), Arc::new(folder.dead()?));
        let (has_posts, folder, begun) = (left.has_posts(), folder.clone(), outbox.clone());
        let journal = Box::new(move || folder.journal(&begun, left));
        Ok(Files { number: 0, outbox, dead, has_posts, journal })
    }

    /// For a shard of a store, whose files are open.
    pub fn of_shard_store(number: u16, (journal, outbox, dead): (Journal, Outbox, DeadLetters)) -> Files {
        let has_posts = journal.size().1.is_some();
        let (outbox, dead) = (Arc::new(outbox), Arc::new(dead));
        Files { number, outbox, dead, has_posts, journal: Box::new(|| Ok(journal)) }
    }

    /// Opens one of `shards` shards: its posts get 503 until its book is recovered. Seeding runs in parallel with the
    /// rest.
    pub fn open(self, shards: u16, settings: &Settings, shared: &Shared) -> Result<Opened, Ended> {
        let Files { number, outbox, dead, has_posts, journal } = self;
        let room = room(settings.max_series, shards, outbox.series_count());
        let shared_book = SharedBook::apart(room, settings.across).with_context(|| {
            format!(
                "a book for --max-series {} can't be made: raise --max-memory, or lower --max-series",
                settings.max_series
            )
        })?;
        let seeding = Seeding::begin(&shared_book, &outbox, has_posts);
        let journal = journal()?;
        let reading = Arc::new(match settings.store {
            Some(_) => settings.reading.of_shard(),
            None => settings.reading.clone(),
        });
        reading.finer_units.know(&outbox, &journal)?;
        let shard = Shard::of(Some(reading), number, journal, outbox, shared_book, shared);
        shard.runs.set(settings.runs);
        Ok(Opened { shard, dead, seeding })
    }
}

/// A shard whose files are open and whose book is being seeded; nothing of it runs yet.
pub(super) struct Opened {
    pub shard: Arc<Shard>,
    dead: Arc<DeadLetters>,
    seeding: Option<Seeding>,
}

/// How a shard ended without being told to.
#[derive(Debug)]
pub(super) enum End {
    /// Another instance owns the shard; nothing else ends.
    Fenced,
    Failed(Ended),
}

/// An open shard. Dropping it ends all of its parts.
pub(super) struct OpenShard {
    pub local: Arc<admin::LocalShard>,
    /// Has one task.
    worker: JoinSet<Result<(), WorkerError>>,
    /// Has one task.
    delivery: JoinSet<Result<(), Fault>>,
    stop_worker: watch::Sender<bool>,
    stop_delivery: watch::Sender<bool>,
}

/// How many series a shard has room for. A book takes its memory from the start, and one instance may own all shards.
/// So a shard gets more than its share, because resources are uneven, and more than it has already.
fn room(max_series: usize, shards: u16, known: usize) -> usize {
    let share = (UNEVEN * max_series).div_ceil(usize::from(shards.max(1)));
    share.max(2 * known).min(max_series)
}

impl OpenShard {
    /// Starts its worker, and its delivery into this sink.
    pub fn begin(opened: Opened, settings: &Settings, sink: &Arc<dyn Sink>) -> OpenShard {
        let Opened { shard, dead, seeding } = opened;
        let number = shard.number();
        let (of_shard, orders) = ShardWorker::new(shard.clone(), settings.keeping());
        let (stop_worker, worker_stopped) = watch::channel(false);
        let (stop_delivery, delivery_stopped) = watch::channel(false);
        let (mut worker, mut delivery) = (JoinSet::new(), JoinSet::new());
        let (outbox, attempts) = (shard.outbox.clone(), Arc::<Attempts>::default());
        delivery.spawn(sink::deliver(
            number,
            outbox.clone(),
            dead.clone(),
            sink.clone(),
            shard.metrics.clone(),
            attempts.clone(),
            delivery_stopped,
        ));
        let undelivered = Undelivered { number, outbox, delivery: attempts };
        worker.spawn(of_shard.behind(seeding).run(worker_stopped));
        OpenShard {
            local: Arc::new(admin::LocalShard { shard, orders, undelivered, dead }),
            worker,
            delivery,
            stop_worker,
            stop_delivery,
        }
    }

    /// Returns when a part has ended without being told to.
    pub async fn ended(&mut self) -> End {
        let end = tokio::select! {
            Some(end) = self.worker.join_next() => End::of("the worker", end),
            Some(end) = self.delivery.join_next() => End::of("the delivery", end),
        };
        match (end, self.local.shard.journal.failure()) {
            (End::Fenced, Some(why)) => End::Failed(Ended::Other(anyhow!("{why}"))),
            (end, _) => end,
        }
    }

    /// Ends the shard: brings what was taken into the outbox. False if that took too long.
    pub async fn stop(mut self) -> Result<bool, Ended> {
        self.stop_worker.send_replace(true);
        let in_time = last(&mut self.worker, "the worker", Instant::now() + LAST_CHECKPOINT).await;
        // The next owner sends again what is being sent now. A late worker may be changing a file too.
        self.stop_delivery.send_replace(true);
        let until = Instant::now() + LAST_CHANGES;
        let (late, delivery) = tokio::join!(
            last(&mut self.worker, "the worker", until),
            last(&mut self.delivery, "the delivery", until)
        );
        let is_flushed = self.worker.is_empty();
        if !is_flushed {
            tracing::warn!("ended without a last checkpoint: the next start replays the journal");
        }
        in_time.and(late).and(delivery).map(|()| is_flushed)
    }
}

/// Waits for parts that were told to end, and returns the fault of one of them.
async fn last<E: Into<WorkerError> + 'static>(
    parts: &mut JoinSet<Result<(), E>>,
    part: &str,
    until: Instant,
) -> Result<(), Ended> {
    let mut ended = Ok(());
    while let Ok(Some(end)) = tokio::time::timeout_at(until, parts.join_next()).await {
        if matches!(end, Ok(Ok(()))) {
            continue;
        }
        if let End::Failed(why) = End::of(part, end) {
            ended = ended.and(Err(why));
        }
    }
    ended
}

impl End {
    fn of<E: Into<WorkerError>>(part: &str, end: Result<Result<(), E>, JoinError>) -> End {
        match end.map(|end| end.map_err(E::into)) {
            Ok(Err(WorkerError::Fenced(_))) => End::Fenced,
            end => End::Failed(cause(part, end)),
        }
    }
}

pub(super) fn cause<E: Into<Ended>>(part: &str, end: Result<Result<(), E>, JoinError>) -> Ended {
    match end {
        Ok(Err(why)) => why.into(),
        Ok(Ok(())) => Ended::Other(anyhow!("{part} ended unexpectedly: this is a bug of totxegun")),
        Err(error) => Ended::Other(anyhow!("{part} failed ({error}): this is a bug of totxegun")),
    }
}

#[cfg(test)]
pub(super) mod tests;
