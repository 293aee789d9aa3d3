//! Forgets series that nobody posts to, if there are too many or an operator orders it, and rewinds the ends of series.
//! In each case a fresh book, which does not know what was removed, replaces the old one.
//!
//! All of it happens under the lock of the book, and posts wait meanwhile. Everything pending goes to the outbox first,
//! so the fresh book is filled from the files alone, as at a start. The change is durable before the fresh book is
//! filled: otherwise a post that it takes could be out of order for the next start.

use super::checkpoint::{commit, flush_in_parts};
use super::recovery::recover;
use super::run::AHEAD;
use super::series::SeriesOfPosts;
use super::{not_now, Amend, Carried, Done, ShardWorker, WorkerError};
use crate::book::Refused;
use crate::otlp::series::{Digest, SeriesKey};
use crate::outbox::{Recents, Runs};
use crate::shard::Shard;
use crate::sink::Rewind;
use crate::storage::{nanoseconds, Fault};
use crate::work::blocking;
use std::collections::HashSet;
use std::sync::Arc;
use std::time::{Duration, Instant};

impl ShardWorker {
    /// Forgets the series that nobody has posted to for `age`.
    pub(super) async fn forget_idle_series(&mut self, age: Duration) -> Result<(), WorkerError> {
        // A checkpoint before this leaves little to do under the lock.
        if self.checkpoint().await?.is_err() {
            return Ok(());
        }
        // Otherwise all posts would wait, at each look, for a fresh book that equals the old one.
        let shard = self.shard.clone();
        let helps = blocking(move || Ok::<_, Fault>(shard.outbox.has_any_of(age, &with_posts(&shard)?)));
        if !helps.await? {
            return Ok(());
        }
        let done = self.renew(move |shard| forget_series(shard, age)).await?;
        let shard = self.shard.number();
        match done {
            Ok(forgotten) => {
                tracing::info!(shard, series_count = forgotten, "series expired (--series-ttl)")
            }
            Err(refused) => {
                let reason = refused.to_string();
                tracing::error!(shard, reason, "expired series could not be removed: retried later");
            }
        }
        Ok(())
    }

    /// Changes what is known of series; durable when it returns.
    pub(super) async fn amend(&mut self, amend: Amend) -> Result<Done, WorkerError> {
        if let Err(refused) = self.checkpoint().await? {
            return Ok(not_now(refused));
        }
        let done = self.renew(move |shard| amended(shard, &amend)).await?;
        Ok(done.map_or_else(not_now, Done::Amended))
    }

    /// Changes what the outbox knows of series, and has a fresh book in the place of the one that is there. The error is why
    /// nothing was changed.
    pub(super) async fn renew<T: Send + 'static>(
        &mut self,
        change: impl FnOnce(&Shard) -> Result<T, Fault> + Send + 'static,
    ) -> Result<Result<T, Refused>, WorkerError> {
        let shard = self.shard.clone();
        let (carried, done) = blocking(move || renew(&shard, change)).await?;
        self.carried.extend(carried);
        Ok(done)
    }
}

fn renew<T>(
    shard: &Arc<Shard>,
    change: impl FnOnce(&Shard) -> Result<T, Fault>,
) -> Result<Carried<T>, WorkerError> {
    let began = Instant::now();
    let mut runs = shard.runs.lock();
    let mut book = shard.shared_book.lock();
    let mut bodies = Vec::new();
    // Made before anything is changed, since there has to be memory for two books.
    let fresh = shard.shared_book.fresh();
    let flushed = fresh.and_then(|fresh| Ok((fresh, flush_in_parts(shard, &runs, &mut book, &mut bodies)?)));
    let (mut fresh, group) = match flushed {
        Ok(both) => both,
        Err(refused) => return Ok((bodies, Err(refused))),
    };
    commit(shard, &bodies, group)?;
    let changed = change(shard)?;
    let filled = recover(shard, &mut fresh, || false).map_err(not_filled)?.unwrap_or_default();
    let old = std::mem::replace(&mut *book, fresh);
    shard.runs.put(&mut runs, filled.runs);
    shard.set_ungrouped(filled.posts);
    drop(book);
    drop(runs);
    drop(old); // without the lock, since freeing takes long
    shard.outbox.sync()?;
    let pause = &shard.metrics.checkpoint_pause_seconds;
    pause.observe(began.elapsed().as_secs_f64());
    Ok((filled.carried, Ok(changed)))
}

/// The book and the runs now differ from the files: only a start makes them equal again.
fn not_filled(trouble: WorkerError) -> WorkerError {
    match trouble {
        WorkerError::NotFilled(why) | WorkerError::NoMemoryToFill(why) => WorkerError::NotFilled(format!(
            "series were changed in the outbox, but no new book could be filled, so the service ends: {why}. The next start \
             fills one"
        )),
        other => other,
    }
}

/// Returns how many series were forgotten. Ages are measured by the clock, not by the times of points. A series stays
/// if the journal has points of it that are in no group.
fn forget_series(shard: &Shard, age: Duration) -> Result<u64, Fault> {
    let keep = with_posts(shard)?;
    let forgotten = shard.outbox.forget_series(age, &keep)?.len() as u64;
    shard.metrics.forgotten_series.inc_by(forgotten);
    Ok(forgotten)
}

/// The series with points in the journal that are in no group; after a checkpoint these are the parked posts of
/// quarantined senders.
fn with_posts(shard: &Shard) -> Result<HashSet<Digest>, Fault> {
    let mut found = HashSet::new();
    let mut series = SeriesOfPosts::default();
    shard.journal.posts(shard.outbox.journal(), u64::MAX, |post| {
        found.extend(series.of(&post).into_iter().flatten());
        true
    })?;
    Ok(found)
}

/// The inner error is a series that can't be changed; then none is.
fn amended(shard: &Shard, amend: &Amend) -> Result<Result<(), SeriesKey>, Fault> {
    let kept_back = with_posts(shard)?;
    let (Amend::Forget(series) | Amend::PutBack { series, .. }) = amend;
    if let Some(one) = series.iter().find(|one| kept_back.contains(&one.digest())) {
        return Ok(Err(one.clone()));
    }
    match amend {
        Amend::Forget(series) => {
            // Ends that a wrong clock has put ahead are set to now; the ends of others stay, so that no repeat is
            // added.
            let now = nanoseconds();
            let is_ahead = |one: &SeriesKey| shard.outbox.ends_after(one, now + AHEAD.as_nanos() as u64);
            let (ahead, others): (Vec<_>, Vec<_>) = series.iter().cloned().partition(is_ahead);
            for (some, to) in [(ahead, now), (others, u64::MAX)] {
                if !some.is_empty() {
                    tell_sink(shard, &some, to)?;
                }
            }
            shard.outbox.remove_series(series)?;
        }
        Amend::PutBack { series, to } => {
            tell_sink(shard, series, *to)?;
            shard.outbox.put_back(series, *to)?;
        }
    }
    Ok(Ok(()))
}

/// Tells the sink at which time the series end at the latest from now on. This comes after everything that was
/// forwarded of them, and before the book takes points that begin there. Otherwise the sink would leave out points that
/// begin before an end that a wrong clock had put ahead, and would add dead letters whose points were posted again
/// since.
fn tell_sink(shard: &Shard, series: &[SeriesKey], to: u64) -> Result<(), Fault> {
    let requests = Rewind::requests(series, to);
    shard.outbox.commit_with(&requests, shard.outbox.journal(), Runs::new(), &Recents::default())?;
    shard.metrics.forwarded_requests.inc_by(requests.len() as u64);
    Ok(())
}
