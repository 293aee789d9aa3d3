//! A month or a day of a time zone: whole days of UTC, and the hours before and after them, added up by series.

use super::export::{Each, Line};
use crate::sink::periods::{hour_shown, Period};
use anyhow::{Context, Result};
use serde_json::value::RawValue;
use std::ops::Range;

/// The rows of a period, those of one series together: each has its number, name and sums.
pub(super) fn rows(period: &Period) -> String {
    let (from, to) = (period.from, period.to);
    let days = (from + 23).div_euclid(24)..to.div_euclid(24);
    let parts = match days.is_empty() {
        true => vec![of_hours(from..to)],
        false => vec![of_hours(from..24 * days.start), of_days(&days), of_hours(24 * days.end..to)],
    };
    format!("({})", parts.join(" union all "))
}

fn of_hours(hours: Range<i64>) -> String {
    of("by_hour", "hour", &hour_shown(hours.start), &hour_shown(hours.end))
}

fn of_days(days: &Range<i64>) -> String {
    let day = |day: i64| hour_shown(24 * day)[..10].to_string();
    of("by_day", "day", &day(days.start), &day(days.end))
}

fn of(view: &str, time: &str, from: &str, to: &str) -> String {
    format!(
        "select series, name, points, total, adjustments, total_adjusted, count, buckets from {view}
        where {time} >= '{from}' and {time} < '{to}'"
    )
}

/// Adds up the lines that follow one another of one series.
pub(super) struct Adding<'e> {
    each: Each<'e>,
    last: Option<Line>,
}

impl<'e> Adding<'e> {
    pub(super) fn new(each: Each<'e>) -> Adding<'e> {
        Adding { each, last: None }
    }

    pub(super) fn add(&mut self, line: Line) -> Result<()> {
        match &mut self.last {
            Some(last) if last.series == line.series => add(last, &line),
            last => last.replace(line).map_or(Ok(()), &mut *self.each),
        }
    }

    pub(super) fn end(self) -> Result<()> {
        self.last.map_or(Ok(()), self.each)
    }
}

fn add(to: &mut Line, line: &Line) -> Result<()> {
    to.points += line.points;
    for (sum, more) in [
        (&mut to.total, &line.total),
        (&mut to.adjustments, &line.adjustments),
        (&mut to.total_adjusted, &line.total_adjusted),
    ] {
        *sum = added(sum, more)?;
    }
    to.count = to.count.iter().zip(&line.count).map(|(sum, more)| added(sum, more)).next().transpose()?;
    if let Some(more) = &line.buckets {
        let sum = match &to.buckets {
            Some(sum) => with_buckets(sum, more)?,
            None => more.clone(),
        };
        to.buckets = Some(sum);
    }
    Ok(())
}

fn added(sum: &str, more: &str) -> Result<String> {
    let number = |text: &str| text.parse::<i128>().with_context(|| format!("{text} is no whole number"));
    let sum = number(sum)?.checked_add(number(more)?);
    Ok(sum.context("a sum is past 128 bits")?.to_string())
}

/// A series that was only adjusted in a part has no buckets there.
fn with_buckets(sum: &RawValue, more: &RawValue) -> Result<Box<RawValue>> {
    let list = |list: &RawValue| serde_json::from_str::<Vec<i128>>(list.get());
    let (mut sum, more) = (list(sum)?, list(more)?);
    sum.resize(sum.len().max(more.len()), 0);
    sum.iter_mut().zip(more).for_each(|(sum, more)| *sum += more);
    Ok(RawValue::from_string(serde_json::to_string(&sum)?)?)
}

#[cfg(test)]
mod tests {
    use super::*;

    fn period(text: &str, zone: &str) -> Period {
        let period: Period = text.parse().unwrap();
        period.in_zone(&zone.parse().unwrap()).unwrap()
    }

    #[test]
    fn whole_days_are_read_as_days_and_the_rest_by_hours() {
        let times = |period: &Period| {
            let rows = rows(period);
            let wheres = rows.split("where ").skip(1).map(|part| part.split([')', '\n']).next().unwrap());
            wheres.map(|part| part.replace(" union all select series, name", "")).collect::<Vec<String>>()
        };
        let hour = |from: &str, to: &str| format!("hour >= '{from}' and hour < '{to}'");
        let begins = |texts: Vec<String>, wanted: &[String]| {
            assert_eq!(texts.len(), wanted.len(), "{texts:?}");
            texts
                .iter()
                .zip(wanted)
                .for_each(|(text, wanted)| assert!(text.starts_with(wanted), "{text}: {wanted}"));
        };
        begins(
            times(&period("2026-10", "Europe/Berlin")),
            &[
                hour("2026-09-30 22:00", "2026-10-01 00:00"),
                "day >= '2026-10-01' and day < '2026-10-31'".into(),
                hour("2026-10-31 00:00", "2026-10-31 23:00"),
            ],
        );
        begins(
            times(&period("2026-10-25", "Europe/Berlin")),
            &[hour("2026-10-24 22:00", "2026-10-25 23:00")],
        );
        begins(
            times(&period("2026-11", "UTC")),
            &[
                hour("2026-11-01 00:00", "2026-11-01 00:00"),
                "day >= '2026-11-01' and day < '2026-12-01'".into(),
                hour("2026-12-01 00:00", "2026-12-01 00:00"),
            ],
        );
    }

    #[test]
    fn sums_are_exact_past_64_bits() {
        assert_eq!(added("9223372036854775807", "9223372036854775807").unwrap(), "18446744073709551614");
        assert_eq!(added("-5", "3").unwrap(), "-2");
        assert!(added("1", "1.5").is_err() && added(&i128::MAX.to_string(), "1").is_err());
        let list = |text: &str| RawValue::from_string(text.into()).unwrap();
        assert_eq!(
            with_buckets(&list("[1,2]"), &list("[3,18446744073709551615]")).unwrap().get(),
            "[4,18446744073709551617]"
        );
        assert_eq!(with_buckets(&list("[]"), &list("[3,4]")).unwrap().get(), "[3,4]");
    }
}
