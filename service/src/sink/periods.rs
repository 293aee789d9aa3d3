//! Periods of a sink: which are closed, where later points of them count, and what is adjusted by hand.
//!
//! What a sink has of a closed hour does not change any more. A point that comes for it later counts in the first open
//! hour from now on, beside a row that says to which hour it belongs. So does an adjustment. Therefore the sums of
//! hours, days and months are always those of all accepted points. Reopening an hour moves nothing back, since it may
//! have been billed where it was counted.
//!
//! All of this is in the sink, and is read in the transaction that takes a request. So a close and a delivery come one
//! after the other, and a close is there or not.

mod period;
mod zone;

pub use period::{hour_shown, seconds_of, Period};
pub use zone::Zone;

use crate::log::utc;
use crate::sink::sql::totals::SeriesTotal;

/// What an operator does.
#[derive(Clone, Debug, PartialEq, Eq)]
pub enum PeriodAction {
    Close(Period),
    Open(Period),
    Adjust(Adjustment),
}

/// Adds to what a series counted in an hour, even if it counted nothing there; for a histogram, to its sum.
#[derive(Clone, Debug, PartialEq, Eq)]
pub struct Adjustment {
    pub series: Which,
    pub hour: Period,
    pub value: i64,
    pub reason: String,
    /// The key of the late data that this books, once. Empty if there is none.
    pub late_key: String,
    /// Only say what would be done.
    pub is_dry: bool,
}

/// A series of a sink.
#[derive(Clone, Debug, PartialEq, Eq)]
pub enum Which {
    /// Its number in the sink.
    Number(i64),
    Identified(Box<SeriesTotal>),
}

/// The longest reason, in bytes.
pub const MOST_REASON: usize = 1000;

/// The outcome of a deed, with what to tell the operator.
#[derive(Clone, Debug, PartialEq, Eq)]
pub enum PeriodOutcome {
    Done(String),
    Refused(String),
    /// The sink did not answer: the operator may ask again.
    Later(String),
}

/// A row of the table `closed`.
#[derive(Clone, Debug, PartialEq, Eq)]
pub(super) struct Row {
    /// The period as it was written.
    pub(super) period: String,
    /// The first hour since 1970, and the one after the last.
    pub(super) from: i64,
    pub(super) to: i64,
    pub(super) who: String,
    /// In seconds since 1970.
    pub(super) at: i64,
}

impl Row {
    fn has(&self, period: &Period) -> bool {
        self.from <= period.from && period.to <= self.to
    }

    fn overlaps(&self, period: &Period) -> bool {
        self.from < period.to && period.from < self.to
    }

    fn shown(&self) -> String {
        format!("{}, closed by {} at {}", self.period, self.who, utc(self.at.unsigned_abs()))
    }
}

/// All that is closed, and the current hour.
#[derive(Clone, Debug, Default, PartialEq, Eq)]
pub struct Closed {
    pub(super) rows: Vec<Row>,
    pub(super) now: i64,
}

impl Closed {
    /// The hour in which a point of this hour counts: the same hour if it is open, else the first open one from now on.
    /// If the clock was set back to before the hour, it is the first open one after the hour, since what is before may
    /// have been billed.
    pub(super) fn counted_in(&self, hour: i64) -> i64 {
        match self.end(hour) {
            None => hour,
            Some(_) => {
                let mut open = self.now.max(hour);
                while let Some(end) = self.end(open) {
                    open = end;
                }
                open
            }
        }
    }

    /// What to say of a closed period. None if it is open.
    pub fn of(&self, period: &Period) -> Option<String> {
        self.rows.iter().find(|row| row.has(period)).map(Row::shown)
    }

    /// The end of the closed period that has this hour.
    fn end(&self, hour: i64) -> Option<i64> {
        let has = |row: &&Row| row.from <= hour && hour < row.to;
        self.rows.iter().filter(has).map(|row| row.to).max()
    }

    /// Whether the period can be closed, or what to say instead: that it is closed already, or why it can't be.
    pub(super) fn close(&self, period: &Period) -> Result<(), PeriodOutcome> {
        if let Some(row) = self.rows.iter().find(|row| row.has(period)) {
            return Err(PeriodOutcome::Done(format!("{period} was closed before: {}", row.shown())));
        }
        if period.to > self.now {
            let (end, now) = (hour_shown(period.to), hour_shown(self.now));
            return Err(PeriodOutcome::Refused(format!(
                "{period} ends at {end} UTC, and it is {now}: what has not ended can't be closed"
            )));
        }
        Ok(())
    }

    /// Whether the period can be reopened, or what to say instead.
    pub(super) fn open(&self, period: &Period) -> Result<(), PeriodOutcome> {
        if self.rows.iter().any(|row| (row.from, row.to) == (period.from, period.to)) {
            return Ok(());
        }
        match self.rows.iter().find(|row| row.overlaps(period)) {
            None => Err(PeriodOutcome::Done(format!("{period} was open"))),
            Some(row) => Err(PeriodOutcome::Refused(format!(
                "{period} was not closed by itself: open what was, {}",
                row.shown()
            ))),
        }
    }

    /// What to say of a reopened period, with what else of it is still closed.
    pub(super) fn opened(&self, period: &Period) -> String {
        let is_it = |row: &Row| (row.from, row.to) == (period.from, period.to);
        let others = self.rows.iter().filter(|row| row.overlaps(period) && !is_it(row));
        let still: Vec<String> = others.map(Row::shown).collect();
        let rest = match still.is_empty() {
            true => String::new(),
            false => format!("; of it there still is {}", still.join("; ")),
        };
        format!("{period} is open: what came late meanwhile stays where it was counted{rest}")
    }
}

pub(super) fn closed(period: &Period) -> String {
    format!(
        "{period} is closed: what comes for it from now on is late, and counts in the hour in which it comes"
    )
}

/// Why a month or a day can't be exported if some of its hours, those before `from`, were deleted: a bill of the rest
/// would not say that something is missing.
pub(super) fn deleted(period: &Period, from: i64) -> String {
    format!(
        "hours before {} were deleted (--keep-hours), so there is no whole {period} any more",
        hour_shown(from)
    )
}

/// The limit for all adjustments together, without their signs. So the sum of any of them fits 64 bits.
const MAX_ADJUSTED: i64 = 1 << 62;

/// What a sink has of adjustments before this one.
pub(super) struct Adjusted {
    /// The sum of all, without their signs.
    pub(super) so_far: i64,
    /// The first hour that is not deleted.
    pub(super) hours_from: i64,
}

impl Which {
    fn shown(&self) -> String {
        match self {
            Which::Number(number) => format!("series {number}"),
            Which::Identified(series) => format!("a series {}", series.name),
        }
    }
}

impl Adjustment {
    /// Checks all that can be checked without the sink.
    pub fn check(&self) -> Result<(), String> {
        let Adjustment { hour, value, reason, .. } = self;
        if hour.to - hour.from > 1 {
            return Err(format!("{hour} is more than an hour: write one as 2026-11-05T13"));
        }
        if *value == 0 {
            return Err("an adjustment of 0 changes nothing".into());
        }
        let is_reason =
            !reason.is_empty() && reason.len() <= MOST_REASON && !reason.contains(char::is_control);
        match is_reason {
            true => Ok(()),
            false => Err(format!("an adjustment has a reason, in one line of up to {MOST_REASON} bytes")),
        }
    }

    /// The answer if the sink has no such series.
    pub(super) fn has_no_series(&self) -> PeriodOutcome {
        let series = self.series.shown();
        PeriodOutcome::Refused(format!(
            "the sink has nothing of {series} yet: the column `series` of its views has their numbers, and `totxegun totals` their names"
        ))
    }

    /// The hour in which it counts, or why it can't be made. A deleted hour is refused, since no view would show it.
    pub(super) fn counted_in(&self, adjusted: &Adjusted, closed: &Closed) -> Result<i64, PeriodOutcome> {
        let Adjustment { hour, value, .. } = self;
        let counted_in = closed.counted_in(hour.from);
        if hour.from > closed.now {
            let now = hour_shown(closed.now);
            return Err(PeriodOutcome::Refused(format!("{hour} has not begun: it is {now}")));
        }
        if counted_in < adjusted.hours_from {
            let from = hour_shown(adjusted.hours_from);
            return Err(PeriodOutcome::Refused(format!(
                "hours before {from} were deleted (--keep-hours), so no view would have it in {hour}: name a later one"
            )));
        }
        if value.unsigned_abs() > (MAX_ADJUSTED - adjusted.so_far).unsigned_abs() {
            let why = format!("adjustments may come to {MAX_ADJUSTED} together, without their signs");
            return Err(PeriodOutcome::Refused(why));
        }
        Ok(counted_in)
    }

    pub(super) fn made(&self, series: i64, counted_in: i64) -> PeriodOutcome {
        let Adjustment { hour, value, is_dry, .. } = self;
        let where_to = match counted_in == hour.from {
            true => String::new(),
            false => format!(", counted in {}, since its own hour is closed", hour_shown(counted_in)),
        };
        let has = if *is_dry { "nothing is done; it would be: series" } else { "series" };
        PeriodOutcome::Done(format!("{has} {series} has {value:+} in {hour}{where_to}"))
    }

    /// The answer if an earlier call made it, whose answer may have been lost.
    pub(super) fn was_there(&self, who: &str, at: i64) -> PeriodOutcome {
        let at = utc(at.unsigned_abs());
        PeriodOutcome::Done(match self.late_key.as_str() {
            "" => format!(
                "this adjustment is there already, by {who} at {at}: another one of the same value needs another reason"
            ),
            key => format!("late data {key} is booked already, by {who} at {at}"),
        })
    }
}

#[cfg(test)]
mod tests {
    use super::*;

    fn period(text: &str) -> Period {
        text.parse().expect(text)
    }

    fn closed_at(now: &str, periods: &[&str]) -> Closed {
        let row = |text: &&str| Row {
            period: text.to_string(),
            from: period(text).from,
            to: period(text).to,
            who: "alice".into(),
            at: 0,
        };
        Closed { rows: periods.iter().map(row).collect(), now: period(now).from }
    }

    #[test]
    fn what_is_closed_counts_in_the_first_open_hour_from_now_on() {
        let closed = closed_at("2026-12-03T05", &["2026-10", "2026-11", "2026-12-01"]);
        for (hour, counted) in [
            ("2026-11-05T13", "2026-12-03T05"),
            ("2026-12-01T00", "2026-12-03T05"),
            ("2026-12-02T00", "2026-12-02T00"),
            ("2026-09-30T23", "2026-09-30T23"),
        ] {
            assert_eq!(closed.counted_in(period(hour).from), period(counted).from, "{hour}");
        }
        // The clock was set back, also to before all that is closed.
        for now in ["2026-10-31T23", "2026-09-15T07", "1970-01-01T00"] {
            let back = Closed { now: period(now).from, ..closed.clone() };
            assert_eq!(back.counted_in(period("2026-10-01T00").from), period("2026-12-02T00").from, "{now}");
        }
    }

    #[test]
    fn only_what_has_ended_is_closed_and_once() {
        let closed = closed_at("2026-12-03T05", &["2026-11"]);
        assert_eq!(closed.close(&period("2026-12-02")), Ok(()));
        for (text, part) in [("2026-12", "2027-01-01 00:00"), ("2026-12-03T05", "it is 2026-12-03 05:00")] {
            let Err(PeriodOutcome::Refused(why)) = closed.close(&period(text)) else { panic!("{text}") };
            assert!(why.contains(part), "{why}");
        }
        for text in ["2026-11", "2026-11-05"] {
            let Err(PeriodOutcome::Done(said)) = closed.close(&period(text)) else { panic!("{text}") };
            assert!(said.contains("by alice"), "{said}");
        }
    }

    #[test]
    fn what_was_closed_is_opened_as_it_was() {
        let closed = closed_at("2026-12-03T05", &["2026-11", "2026-11-05"]);
        assert_eq!(closed.open(&period("2026-11")), Ok(()));
        assert!(closed.opened(&period("2026-11")).contains("2026-11-05"));
        assert!(matches!(closed.open(&period("2026-10")), Err(PeriodOutcome::Done(_))));
        let Err(PeriodOutcome::Refused(why)) = closed.open(&period("2026-11-06")) else { panic!() };
        assert!(why.contains("2026-11, closed by alice"), "{why}");
    }
}
