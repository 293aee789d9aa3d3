//! A checkpoint moves everything pending in the book to the outbox, as one group of requests. `run` and `orders` make
//! them.
//!
//! Under the locks of the runs and of the book everything is flushed and the journal rolls over to a new segment. So a
//! group is exactly the posts of the segments before its commit. The rest happens while posts go on: the requests are
//! serialised and the flushes settled; the group is committed once all its posts are on the disk, whatever
//! `--durability` is; then the earlier segments are deleted.
//!
//! If there is no memory to flush everything at once, it is serialised in small parts under the lock; if there is none
//! for that either, the checkpoint is retried later. A flush that was taken is never given back, since points of a
//! later window may have come meanwhile: serialising it is retried, and at last the process ends.

use super::{Carried, ShardWorker, WorkerError};
use crate::book::{Book, BySeries, Changed, Flushed, Refused};
use crate::journal::Ticket;
use crate::log::shown;
use crate::otlp::series::SeriesKey;
use crate::outbox::{Committed, Runs};
use crate::post_reports::SERIES_SHOWN;
use crate::runs::State;
use crate::shard::Shard;
use crate::storage::Fault;
use crate::work::blocking;
use std::time::{Duration, Instant};

/// The pause before a checkpoint that lacked memory is retried, and the number of tries.
const BETWEEN_TRIES: Duration = Duration::from_secs(1);
const TRIES: u32 = 10;

/// The group of a checkpoint: all posts of the segments before `next` that are in no group yet.
pub(super) struct Group {
    posts: u64,
    next: u64,
    /// Durable once everything before the roll is.
    turned: Ticket,
    /// The runs that no commit has, as they were at the roll; likewise the last posts of each series.
    runs: Runs,
    recents: Changed,
}

impl ShardWorker {
    /// Moves everything pending to the outbox, as one group, and returns how many requests it has. If memory is short,
    /// the book keeps everything and the next checkpoint tries again.
    pub(super) async fn checkpoint(&mut self) -> Result<Result<u64, Refused>, WorkerError> {
        let (shard, carried) = (self.shard.clone(), std::mem::take(&mut self.carried));
        let (carried, done) = blocking(move || checkpoint(&shard, carried)).await?;
        self.carried = carried;
        match done {
            Ok(_) => {
                self.put_off = 0;
                self.next_checkpoint = Instant::now() + self.settings.every;
            }
            Err(refused) => self.put_off(refused)?,
        }
        self.released &= done.is_err();
        Ok(done)
    }

    /// Ends the worker after `TRIES` tries with a pause before each. A checkpoint that is ordered during a pause does
    /// not count.
    fn put_off(&mut self, refused: Refused) -> Result<(), WorkerError> {
        if self.put_off == 0 || Instant::now() >= self.next_checkpoint {
            self.put_off += 1;
            self.next_checkpoint = Instant::now() + self.settings.every.min(BETWEEN_TRIES);
        }
        tell_put_off(&self.shard, self.put_off, refused);
        match self.put_off < TRIES {
            true => Ok(()),
            false => Err(WorkerError::NoMemory),
        }
    }
}

fn checkpoint(shard: &Shard, carried: Vec<Vec<u8>>) -> Result<Carried<u64>, WorkerError> {
    let mut bodies = carried;
    let flushed = match flush(shard, &mut bodies)? {
        Err(Refused::NoMemory) => {
            let runs = shard.runs.lock();
            flush_in_parts(shard, &runs, &mut shard.shared_book.lock(), &mut bodies)
        }
        flushed => flushed,
    };
    match flushed {
        Ok(group) => {
            let requests = commit_and_note(shard, &bodies, group)?;
            shard.outbox.sync()?;
            Ok((Vec::new(), Ok(requests)))
        }
        Err(refused) => Ok((bodies, Err(refused))),
    }
}

/// Serialises what was flushed; retries while there is no memory.
fn written(shard: &Shard, flushed: &mut Flushed) -> Result<Vec<Vec<u8>>, WorkerError> {
    for tries in 1..TRIES {
        match flushed.texts() {
            Ok(texts) => return Ok(texts),
            Err(refused) => tell_put_off(shard, tries, refused),
        }
        std::thread::sleep(BETWEEN_TRIES);
    }
    flushed.texts().map_err(|_| WorkerError::NoMemory)
}

fn tell_put_off(shard: &Shard, tries: u32, refused: Refused) {
    let (number, reason) = (shard.number(), refused.to_string());
    shard.metrics.checkpoints.with_label_values(&["failed"]).inc();
    tracing::error!(
        shard = number,
        tries,
        reason,
        "a checkpoint failed and is retried: the journal has everything"
    );
}

/// Flushes everything at once and serialises it without the lock.
fn flush(shard: &Shard, bodies: &mut Vec<Vec<u8>>) -> Result<Result<Group, Refused>, WorkerError> {
    shard.journal.write_all()?; // so that a stalled disk is waited for without the lock
    let began = Instant::now();
    let runs = shard.runs.lock();
    let mut book = shard.shared_book.lock();
    let taken = book.take_all().map(|flushed| (flushed, roll_journal(shard, &runs, &mut book)));
    drop(book);
    drop(runs);
    let pause = &shard.metrics.checkpoint_pause_seconds;
    pause.observe(began.elapsed().as_secs_f64());
    let (mut flushed, group) = match taken {
        Ok(both) => both,
        Err(refused) => return Ok(Err(refused)),
    };
    bodies.extend(written(shard, &mut flushed)?);
    let settled = shard.shared_book.lock().settle(flushed);
    shard.landed.notify_waiters();
    settled.map_err(WorkerError::Broken)?;
    Ok(Ok(group))
}

/// The same with less memory, under the lock.
pub(super) fn flush_in_parts(
    shard: &Shard,
    runs: &State,
    book: &mut Book,
    bodies: &mut Vec<Vec<u8>>,
) -> Result<Group, Refused> {
    book.write_all(bodies)?;
    Ok(roll_journal(shard, runs, book))
}

/// Rolls the journal. The caller holds the locks under which the book was flushed, and that of the runs, so that the
/// runs match the posts of the group.
fn roll_journal(shard: &Shard, runs: &State, book: &mut Book) -> Group {
    let (next, turned) = shard.journal.roll();
    let (runs, recents) = (runs.changed(), book.changed_recents());
    Group { posts: shard.ungrouped(), next, turned, runs, recents }
}

/// Commits without holding a lock, and records what the outbox has now.
pub(super) fn commit_and_note(shard: &Shard, bodies: &[Vec<u8>], group: Group) -> Result<u64, Fault> {
    let (requests, saved, noted) = commit(shard, bodies, group)?;
    shard.runs.lock().saved(&saved);
    let (numbering, ids) = shard.outbox.ids(noted.digests());
    shard.shared_book.lock().note_ids(numbering, noted, ids);
    Ok(requests)
}

/// Commits a group: the journal is synced first, then the outbox. So a group is committed only once all its posts are
/// on the disk, including those that no flush takes. Returns the number of requests, the runs that were committed, and
/// the series whose ids are to be asked for. A store keeps this order by itself; then nothing waits here, so the caller
/// may hold a lock and settles the outbox after releasing it.
pub(super) fn commit(
    shard: &Shard,
    bodies: &[Vec<u8>],
    group: Group,
) -> Result<(u64, Runs, BySeries), Fault> {
    let Group { posts, next, turned, runs, recents } = group;
    let first = shard.outbox.journal();
    shard.journal.sync_up_to(turned);
    let held = shard.outbox.quarantined();
    if !held.is_empty() {
        // These senders post nothing meanwhile, so their order is kept although other posts go on.
        shard.journal.hold(&held, first, next)?;
    }
    let requests = bodies.len() as u64;
    let noted = recents.by_series(shard.outbox.numbering());
    let Committed { runs, unowned } = shard.outbox.commit_with(bodies, next, runs, &noted.recents)?;
    tell_unowned(shard, unowned);
    shard.count_grouped(posts);
    shard.metrics.forwarded_requests.inc_by(requests);
    shard.journal.truncate_before(next)?;
    shard.metrics.checkpoints.with_label_values(&["done"]).inc();
    Ok((requests, runs, noted))
}

/// Reports series without an owner: a bug of this program, by which a late repeat to such a series may be taken after a
/// start.
fn tell_unowned(shard: &Shard, (count, one): (usize, Option<SeriesKey>)) {
    if let Some(one) = one {
        shard.metrics.faults.with_label_values(&["owner"]).inc_by(count as u64);
        let (shard, series) = (shard.number(), shown(&one.0, SERIES_SHOWN));
        tracing::error!(
            shard,
            series_count = count,
            series,
            "series were forwarded but have no owner: this is a bug of totxegun"
        );
    }
}

#[cfg(test)]
mod tests {
    use super::super::tests::worker;
    use super::*;

    /// Otherwise the process would end before memory may be free again.
    #[test]
    fn checkpoints_that_are_ordered_while_there_is_no_memory_do_not_end_the_worker() {
        let place = tempfile::tempdir().unwrap();
        let mut worker = worker(place.path());
        for _ in 0..2 * TRIES {
            worker.put_off(Refused::NoMemory).unwrap();
        }
        for _ in 2..TRIES {
            worker.next_checkpoint = Instant::now();
            worker.put_off(Refused::NoMemory).unwrap();
        }
        worker.next_checkpoint = Instant::now();
        assert!(matches!(worker.put_off(Refused::NoMemory), Err(WorkerError::NoMemory)));
    }
}
