//! What is done beside deliveries: rows that are too old are deleted.
//!
//! Each step is a short transaction that is right by itself. So a delivery waits for one step at most, and after a kill
//! the next start goes on.

use super::cached;
use super::wide_integers::Unsigned;
use crate::sink::utc::{after_month, day_of, hour_of, month_of, HOUR_NS};
use crate::sink::Retention;
use rusqlite::{params, Connection, OptionalExtension, Transaction, TransactionBehavior};
use std::time::{Duration, Instant};

/// About how many rows a step changes: some milliseconds of work.
const STEP: usize = 5000;
/// The pause before the next look whether something is too old.
const EVERY: Duration = Duration::from_secs(10);

pub(super) struct Upkeep {
    retention: Retention,
    /// About how many rows a step changes.
    pub(super) step: usize,
    due: Instant,
}

impl Upkeep {
    pub(super) fn new(retention: Retention) -> Upkeep {
        Upkeep { retention, step: STEP, due: Instant::now() }
    }

    pub(super) fn is_due(&self) -> bool {
        Instant::now() >= self.due
    }

    /// Does one step. `now` is in nanoseconds since 1970. Returns whether another step is to follow; if not, the next
    /// one is due some time later.
    pub(super) fn go_on(&mut self, connection: &mut Connection, now: u64) -> rusqlite::Result<bool> {
        let more =
            connection.transaction_with_behavior(TransactionBehavior::Immediate).and_then(|transaction| {
                let more = self.of(&transaction, now)?;
                transaction.commit().map(|()| more)
            });
        let wait = if let Ok(true) = more { Duration::ZERO } else { EVERY };
        self.due = Instant::now() + wait;
        more
    }

    fn of(&mut self, transaction: &Transaction, now: u64) -> rusqlite::Result<bool> {
        let ago = |time: Duration| now.saturating_sub(u64::try_from(time.as_nanos()).unwrap_or(u64::MAX));
        if let Some(time) = self.retention.intervals {
            if intervals(transaction, ago(time), self.step)? {
                return Ok(true);
            }
        }
        match self.retention.hours {
            Some(time) => {
                come_back(transaction, now)?;
                hours(transaction, ago(time), self.step)
            }
            None => Ok(false),
        }
    }
}

/// Deletes the intervals of requests whose intervals all ended by `until`. The keys of the requests stay.
fn intervals(transaction: &Transaction, until: u64, step: usize) -> rusqlite::Result<bool> {
    let mut next = transaction
        .prepare_cached("select id from requests where last_end_ns <= ?1 order by last_end_ns limit 1")?;
    let mut delete = transaction.prepare_cached("delete from interval_rows where request = ?1")?;
    let mut note = transaction
        .prepare_cached("update requests set first_start_ns = null, last_end_ns = null where id = ?1")?;
    let mut done = 0;
    while done < step {
        let found: Option<i64> = next.query_row([Unsigned(until)], |row| row.get(0)).optional()?;
        let Some(id) = found else { break };
        done += delete.execute([id])? + note.execute([id])?;
    }
    Ok(done > 0)
}

const BY_TIME: [&str; 6] = [
    "delete from hours where (hour, metric, series) in
     (select hour, metric, series from hours where hour < ?1 limit ?2)",
    "delete from metric_hours where (hour, metric) in
     (select hour, metric from metric_hours where hour < ?1 order by hour, metric limit ?2)",
    "delete from days where (day, metric, series) in
     (select day, metric, series from days where day < ?1 limit ?2)",
    "delete from months where (month, metric, series) in
     (select month, metric, series from months where month < ?1 limit ?2)",
    "delete from late_hours where (series, of_hour, hour) in
     (select series, of_hour, hour from late_hours where hour < ?1 limit ?2)",
    "delete from long_intervals where id in (select id from long_intervals where hour < ?1 limit ?2)",
];

/// Deletes hours, days and months that ended by `until`: first from the views, then their rows. The last hour stays:
/// after a clock was ahead once, the horizon would otherwise hide all that comes until then.
fn hours(transaction: &Transaction, until: u64, step: usize) -> rusqlite::Result<bool> {
    let so_far = hours_from(transaction)?;
    let last: Option<i64> = transaction.query_row("select max(hour) from hours", [], |row| row.get(0))?;
    let mut from = last.map_or(0, |last| last.min((until / HOUR_NS) as i64));
    if from > so_far {
        from = from.min(last_hour_of_intervals(transaction)?);
    }
    if from > so_far {
        set_hours_from(transaction, from)?;
        let (day, month) = (day_of(from), month_of(day_of(from)));
        transaction.execute("delete from utc_hours where hour < ?1", [from])?;
        transaction.execute("delete from utc_days where day < ?1", [day])?;
        transaction.execute("delete from utc_months where month < ?1", [month])?;
    }
    let from = from.max(so_far);
    let (day, month) = (day_of(from), month_of(day_of(from)));
    for (delete, before) in BY_TIME.into_iter().zip([from, from, day, month, from, from]) {
        let few = params![before, step as i64];
        if cached::run(transaction, delete, few)? > 0 {
            return Ok(true);
        }
    }
    Ok(false)
}

/// After a clock was ahead once, the horizon is in the future, and until then the views would show nothing that is
/// right. It is moved back to the next month, which is whole: only such a clock could have counted in it.
fn come_back(transaction: &Transaction, now: u64) -> rusqlite::Result<()> {
    let next = after_month((now / HOUR_NS) as i64);
    match hours_from(transaction)? <= next {
        true => Ok(()),
        false => set_hours_from(transaction, next),
    }
}

/// Hours, days and months that ended by this hour are deleted.
pub(super) fn hours_from(transaction: &Transaction) -> rusqlite::Result<i64> {
    cached::one(transaction, "select hours_from from horizon", [], |row| row.get(0))
}

fn set_hours_from(transaction: &Transaction, hour: i64) -> rusqlite::Result<()> {
    cached::run(transaction, "update horizon set hours_from = ?1", [hour]).map(drop)
}

/// The hour in which the last interval ends. Late points and adjustments count in an hour by the clock, so they say
/// nothing of it.
fn last_hour_of_intervals(transaction: &Transaction) -> rusqlite::Result<i64> {
    let last = "select max(last_end_ns) from series_totals";
    let last: Option<Unsigned> = transaction.query_row(last, [], |row| row.get(0))?;
    Ok(last.map_or(0, |end| hour_of(end.0)))
}
