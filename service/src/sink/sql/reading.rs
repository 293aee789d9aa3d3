//! Reads a database while a service may write to it. Both kinds of database are read by the same queries, as of one
//! moment.

use super::exact::Exact;
use super::export::{Each, Line, Times, What};
use super::local;
use super::periods::{closed_of, CLOSED, NO_HORIZON};
use super::totals::{Histogram, Hour, SeriesTotal};
use super::BegunBefore;
use crate::otlp::series::{Digest, SeriesKey};
use crate::sink::periods::{deleted, hour_shown, seconds_of, Closed, Period};
use crate::sink::{postgres, sqlite, Address};
use anyhow::{anyhow, bail, Context, Result};
use serde_json::value::{to_raw_value, RawValue};
use std::collections::HashSet;
use std::str::FromStr;
use std::time::Duration;

/// How long a page of the service waits for the database, in each step.
const PATIENCE: Duration = Duration::from_secs(20);
/// How long an export waits.
const LONG: Duration = Duration::from_secs(3600);

/// A database to read. All of its queries see the moment at which it was opened.
pub(in crate::sink) trait Reader {
    /// Hands on each row of a query.
    fn each(&mut self, query: &str, each: &mut dyn FnMut(Row) -> Result<()>) -> Result<()>;

    /// The query of all totals, by name and attributes.
    fn totals(&self) -> String;

    /// Bytes as a query writes them.
    fn bytes(&self, bytes: &[u8]) -> String;

    /// Whether the views still have all of a period after hours before `hours_from` were deleted.
    fn has(&self, period: &Period, hours_from: i64) -> bool;
}

/// A value of a statement.
#[derive(Clone, Copy, Debug)]
pub(in crate::sink) enum Cell<'a> {
    Number(i64),
    Text(&'a str),
    Bytes(&'a [u8]),
}

/// Values as text, by column. None if a value is null.
#[derive(Debug)]
pub(in crate::sink) struct Row(pub(in crate::sink) Vec<Option<String>>);

impl Row {
    pub(super) fn text(&self, place: usize) -> Result<&str> {
        self.some(place).with_context(|| format!("column {place} of a row of the sink is null"))
    }

    pub(super) fn some(&self, place: usize) -> Option<&str> {
        self.0.get(place)?.as_deref()
    }

    pub(super) fn number<T: FromStr>(&self, place: usize) -> Result<T> {
        let text = self.text(place)?;
        text.parse().map_err(|_| anyhow!("column {place} of a row of the sink is no whole number: {text}"))
    }

    /// A list of numbers as JSON. PostgreSQL has it in braces.
    fn list(&self, place: usize) -> Option<String> {
        self.some(place).map(|list| list.replace('{', "[").replace('}', "]"))
    }

    /// A time in seconds since 1970, or as `2026-11-27 13:00:00`.
    pub(super) fn time(&self, place: usize) -> Result<i64> {
        let text = self.text(place)?;
        let seconds = || seconds_of(text.get(..19).unwrap_or(text)).map(u64::cast_signed);
        text.parse().ok().or_else(seconds).with_context(|| format!("a row of the sink has no time: {text}"))
    }
}

/// An open database.
struct Opened {
    /// The file or the server.
    place: String,
    reader: Box<dyn Reader>,
}

impl Opened {
    /// None if nothing was written yet.
    fn of(sink: &Address, patience: Duration) -> Result<Option<Opened>> {
        let (place, reader): (String, Option<Box<dyn Reader>>) = match sink {
            Address::Sqlite(path) => {
                let reader = sqlite::reading::open(path)?;
                (path.display().to_string(), reader.map(|reader| Box::new(reader) as _))
            }
            Address::Postgres(server) => {
                let reader = postgres::reading::open(server, patience)?;
                (server.to_string(), reader.map(|reader| Box::new(reader) as _))
            }
            Address::Otlp { .. } => {
                bail!("only a SQLite or PostgreSQL sink can be read: ask the sink itself")
            }
        };
        Ok(reader.map(|reader| Opened { place, reader }))
    }

    /// Makes something of each row of a query, and hands it on.
    fn each<T>(
        &mut self,
        query: &str,
        made: impl Fn(Row) -> Result<T>,
        mut each: impl FnMut(T) -> Result<()>,
    ) -> Result<()> {
        let place = &self.place;
        self.reader.each(query, &mut |row| each(of_place(place, made(row))?))
    }

    fn all<T>(&mut self, query: &str, made: impl Fn(Row) -> Result<T>) -> Result<Vec<T>> {
        let mut all = Vec::new();
        self.each(query, made, |one| {
            all.push(one);
            Ok(())
        })?;
        Ok(all)
    }
}

/// Adds the name of the database to an error.
fn of_place<T>(place: &str, made: Result<T>) -> Result<T> {
    made.map_err(|odd| anyhow!("{place}: {odd:#}"))
}

/// The totals of a database, by name and attributes.
pub fn totals(sink: &Address) -> Result<Vec<SeriesTotal>> {
    let Some(mut opened) = Opened::of(sink, PATIENCE)? else { return Ok(Vec::new()) };
    let query = opened.reader.totals();
    opened.all(&query, |row| total(&row))
}

fn total(row: &Row) -> Result<SeriesTotal> {
    let mut series = series(row, 0)?;
    (series.points, series.start_ns, series.end_ns) = (row.number(1)?, row.number(2)?, row.number(3)?);
    series.total = Exact(row.number(4)?);
    series.sender = row.some(8).map(String::from);
    if let Some(histogram) = &mut series.histogram {
        let buckets: Vec<i128> = serde_json::from_str(&row.list(7).unwrap_or_default())?;
        *histogram = Histogram {
            count: Exact(row.number(5)?),
            points_without_sum: row.number(6)?,
            buckets: buckets.into_iter().map(Exact).collect(),
            bounds: std::mem::take(&mut histogram.bounds),
        };
    }
    Ok(series)
}

/// A series by its identity, without totals. The identity is exact even if other columns are not.
fn series(row: &Row, place: usize) -> Result<SeriesTotal> {
    let of = SeriesTotal::of_none(&SeriesKey(row.text(place)?.into()));
    of.context("a row of the table `series` is not as it was written")
}

/// The hours of a series from hour `from` since 1970 on, in order. None if the database does not have the series.
pub fn hours(sink: &Address, series: &Digest, from: u64) -> Result<Option<Vec<Hour>>> {
    let Some(mut opened) = Opened::of(sink, PATIENCE)? else { return Ok(None) };
    let query = format!("select id from series where digest = {}", opened.reader.bytes(series));
    let Some(id) = opened.all(&query, |row| row.number::<i64>(0))?.pop() else { return Ok(None) };
    let from = hour_shown(from.cast_signed());
    let query = format!(
        "select hour, total, count from by_hour where series = {id} and hour >= '{from}' order by hour"
    );
    opened.all(&query, |row| hour(&row)).map(Some)
}

fn hour(row: &Row) -> Result<Hour> {
    let seconds = seconds_of(row.text(0)?.get(..16).unwrap_or_default()).context("an hour is none")?;
    let count = row.some(2).map(|_| row.number(2)).transpose()?;
    Ok(Hour { hour: seconds / 3600, total: Exact(row.number(1)?), count: count.map(Exact) })
}

/// The keys of late data that is booked. Empty while there is no file.
pub fn booked(sink: &Address) -> Result<HashSet<String>> {
    if matches!(sink, Address::Sqlite(path) if !path.exists()) {
        return Ok(HashSet::new());
    }
    let Some(mut opened) = Opened::of(sink, PATIENCE)? else { return Ok(HashSet::new()) };
    let query = "select late_key from adjustments where late_key <> ''";
    Ok(opened.all(query, |row| row.text(0).map(String::from))?.into_iter().collect())
}

/// The intervals that count in a period, and began before it; none while there is no file.
pub fn begun_before(sink: &Address, period: &Period) -> Result<Vec<BegunBefore>> {
    if matches!(sink, Address::Sqlite(path) if !path.exists()) {
        return Ok(Vec::new());
    }
    let Some(mut opened) = Opened::of(sink, LONG)? else { return Ok(Vec::new()) };
    opened.all(&BegunBefore::query(period), |row| BegunBefore::of(&row))
}

/// Each line, in one order, so that the same rows are the same bytes; and what is closed.
pub fn read(sink: &Address, what: &What, each: Each<'_>) -> Result<Closed> {
    let Some(mut opened) = Opened::of(sink, LONG)? else { return Ok(Closed::default()) };
    if let What::Of(period) = what {
        let found = opened.all("select hours_from from horizon", |row| row.number(0))?.pop();
        let hours_from = of_place(&opened.place, found.context(NO_HORIZON))?;
        if !opened.reader.has(period, hours_from) {
            bail!("{}: {}", opened.place, deleted(period, hours_from));
        }
    }
    let (times, view, order) = match what {
        What::Totals => {
            let order = "order by of.name, cast(of.attributes as text), cast(of.resource as text), of.series";
            ("first_start, last_end", "totals".to_string(), order.to_string())
        }
        What::Of(period) if period.zone().is_some() => {
            ("null, null", local::rows(period), "order by of.name, of.series".to_string())
        }
        What::Of(period) => {
            let (view, time, at) = match period.is_month() {
                true => ("by_month", "month", format!("{}-01", period.date())),
                false => ("by_day", "day", period.date().to_string()),
            };
            ("null, null", view.to_string(), format!("where {time} = '{at}' order by of.name, of.series"))
        }
    };
    let query = format!(
        "select of.series, identity, points, total, adjustments, total_adjusted, count, of.buckets, {times}, sender
        from {view} as of join series on series.id = of.series {order}"
    );
    let mut adding = local::Adding::new(each);
    opened.each(&query, |row| line(&row), |line| adding.add(line))?;
    adding.end()?;
    let rows = opened.all(CLOSED, Ok)?;
    of_place(&opened.place, closed_of(&rows))
}

fn line(row: &Row) -> Result<Line> {
    let of = series(row, 1)?;
    let number = |place| row.number::<i128>(place).map(|number| number.to_string());
    let time =
        |place| row.some(place).and_then(|time| time.get(..19)).map(|time| time.replace(' ', "T") + "Z");
    Ok(Line {
        series: row.number(0)?,
        name: of.name,
        kind: of.kind,
        unit: of.unit,
        attributes: to_raw_value(&of.attributes)?,
        resource: to_raw_value(&of.resource)?,
        scope_name: of.scope_name,
        scope_version: of.scope_version,
        scope_attributes: to_raw_value(&of.scope_attributes)?,
        sender: row.some(10).map(String::from),
        points: row.number(2)?,
        total: number(3)?,
        adjustments: number(4)?,
        total_adjusted: number(5)?,
        count: row.some(6).map(|_| number(6)).transpose()?,
        bounds: of.histogram.map(|histogram| to_raw_value(&histogram.bounds)).transpose()?,
        buckets: row.list(7).map(RawValue::from_string).transpose()?,
        times: time(8).zip(time(9)).map(|(first_start, last_end)| Times { first_start, last_end }),
    })
}
