//! Adds the points of a request to the rows of hours, days and months.

use super::cached;
use super::series_row::SeriesIds;
use super::wide_integers::{list, numbers, parts_of};
use super::writing::Row;
use crate::sink::sql::{by_metric, Adding, Sums};
use crate::sink::utc::{day_of, month_of};
use rusqlite::{params, Transaction};
use std::collections::{BTreeMap, BTreeSet};
use std::sync::LazyLock;

/// The statements of a table with a row for each series and time.
struct Table {
    buckets: String,
    add: String,
    adjust: String,
    /// Notes how a time is written.
    name: String,
}

impl Table {
    fn of(time: &str, written: &str) -> Table {
        let table = format!("{time}s");
        Table {
            buckets: format!("select buckets from {table} where {time} = ?1 and metric = ?2 and series = ?3"),
            add: add(&table, &[time, "metric", "series"]),
            adjust: adjust_in(&table, time, ", series, without_sum", ", series.id, 0"),
            name: format!("insert or ignore into utc_{table} values (?1, {written})"),
        }
    }
}

/// Adds to a row with this key. If the key has a third column, the row has buckets.
fn add(table: &str, key: &[&str]) -> String {
    let (more, values, set) = match key.get(2) {
        Some(third) => (
            format!(", {third}, without_sum, buckets"),
            ", ?8, ?9, ?10",
            ", without_sum = old.without_sum + excluded.without_sum, buckets = excluded.buckets",
        ),
        None => (String::new(), "", ""),
    };
    let key = key[..2].join(", ");
    format!(
        "insert into {table} as old ({key}, points, total_high, total_low, count_high, count_low{more})
         values (?1, ?2, ?3, ?4, ?5, ?6, ?7{values})
         on conflict do update set points = old.points + excluded.points,
         total_high = old.total_high + excluded.total_high + (old.total_low + excluded.total_low) / 1000000000000,
         total_low = (old.total_low + excluded.total_low) % 1000000000000,
         count_high = old.count_high + excluded.count_high + (old.count_low + excluded.count_low) / 1000000000000,
         count_low = (old.count_low + excluded.count_low) % 1000000000000{set}"
    )
}

/// Adds an adjustment (?3) of a series (?2). The row is made if nothing was counted there.
fn adjust_in(table: &str, time: &str, more: &str, values: &str) -> String {
    format!(
        "insert into {table} as old ({time}, metric, points, total_high, total_low, count_high, count_low{more}, adjustments)
         select ?1, metrics.id, 0, 0, 0, 0, 0{values}, ?3 from series join metrics
            on metrics.name = series.name and metrics.kind = series.kind
                and metrics.is_monotonic = series.is_monotonic and metrics.unit = series.unit
         where series.id = ?2
         on conflict do update set adjustments = old.adjustments + excluded.adjustments"
    )
}

static HOUR: LazyLock<Table> =
    LazyLock::new(|| Table::of("hour", "strftime('%Y-%m-%d %H:00Z', ?1 * 3600, 'unixepoch')"));
static DAY: LazyLock<Table> = LazyLock::new(|| Table::of("day", "date(?1 * 86400, 'unixepoch')"));
static MONTH: LazyLock<Table> =
    LazyLock::new(|| Table::of("month", "date('1970-01-01', '+' || ?1 || ' months')"));
static METRIC_HOUR: LazyLock<String> = LazyLock::new(|| add("metric_hours", &["hour", "metric"]));

/// Late points: by series, the hour to which they belong, and the hour in which they count.
const LATE_BUCKETS: &str = "select buckets from late_hours where series = ?1 and of_hour = ?2 and hour = ?3";
static LATE: LazyLock<String> = LazyLock::new(|| add("late_hours", &["series", "of_hour", "hour"]));

/// By time, metric and series; for late points by series, the hour to which they belong, and the hour in which they
/// count.
type Rows = BTreeMap<(i64, i64, i64), Sums>;

/// The sums of points, by hours.
#[derive(Default)]
pub(super) struct Hours {
    series: Rows,
    metrics: BTreeMap<(i64, i64), Sums>,
    /// The part that belongs to closed hours.
    late: Rows,
}

impl Hours {
    pub(super) fn of(all: &[Adding<'_, Row>]) -> Hours {
        let mut hours = Hours { metrics: by_metric(all, |row| row.ids().metric), ..Hours::default() };
        for adding in all {
            let SeriesIds { series, metric } = adding.stored.row.ids();
            for one in &adding.hours {
                hours.series.entry((one.hour, metric, series)).or_default().merge(&one.sums());
            }
            for late in adding.late() {
                hours.late.entry((series, late.of, late.hour)).or_default().merge(&late.sums());
            }
        }
        hours
    }

    /// Adds it to the rows in the file, except for deleted times: those that ended by `hours_from`.
    pub(super) fn write(self, transaction: &Transaction, hours_from: i64) -> rusqlite::Result<()> {
        let days = grouped(&self.series, day_of);
        let months = grouped(&days, month_of);
        let day = day_of(hours_from);
        write(transaction, &HOUR, self.series, hours_from)?;
        write(transaction, &DAY, days, day)?;
        write(transaction, &MONTH, months, month_of(day))?;
        write_rows(transaction, LATE_BUCKETS, &LATE, self.late)?;
        let mut add = transaction.prepare_cached(&METRIC_HOUR)?;
        for ((metric, hour), sums) in self.metrics.iter().filter(|((_, hour), _)| *hour >= hours_from) {
            let [total, count] = parts(sums);
            add.execute(params![hour, metric, sums.points, total.0, total.1, count.0, count.1])?;
        }
        Ok(())
    }
}

/// Adds up to longer times.
fn grouped(rows: &Rows, longer: fn(i64) -> i64) -> Rows {
    let mut all = Rows::new();
    for ((time, metric, series), sums) in rows {
        all.entry((longer(*time), *metric, *series)).or_default().merge(sums);
    }
    all
}

/// Writes the rows of times from `from` on.
fn write(transaction: &Transaction, table: &Table, mut rows: Rows, from: i64) -> rusqlite::Result<()> {
    rows.retain(|(time, ..), _| *time >= from);
    let times: BTreeSet<i64> = rows.keys().map(|(time, ..)| *time).collect();
    let mut name = transaction.prepare_cached(&table.name)?;
    for time in times {
        name.execute([time])?;
    }
    write_rows(transaction, &table.buckets, &table.add, rows)
}

fn write_rows(transaction: &Transaction, found: &str, add: &str, rows: Rows) -> rusqlite::Result<()> {
    let mut add = transaction.prepare_cached(add)?;
    for ((first, second, third), mut sums) in rows {
        add_found(transaction, found, [first, second, third], &mut sums)?;
        let [total, count] = parts(&sums);
        let buckets = sums.buckets.as_deref().map(list);
        add.execute(params![
            first,
            second,
            sums.points,
            total.0,
            total.1,
            count.0,
            count.1,
            third,
            sums.without_sum,
            buckets
        ])?;
    }
    Ok(())
}

/// Adds the buckets that the row has so far.
fn add_found(transaction: &Transaction, found: &str, key: [i64; 3], sums: &mut Sums) -> rusqlite::Result<()> {
    if sums.buckets.is_none() {
        return Ok(());
    }
    let found = cached::find(transaction, found, key, |row| numbers(row, 0))?;
    let before = found.flatten().unwrap_or_default();
    sums.add_buckets(before.into_iter());
    Ok(())
}

/// Adds an adjustment to an hour, its day and its month. The rows are made if nothing was counted there.
pub(super) fn adjust(transaction: &Transaction, series: i64, hour: i64, value: i64) -> rusqlite::Result<()> {
    let day = day_of(hour);
    for (table, time) in [(&HOUR, hour), (&DAY, day), (&MONTH, month_of(day))] {
        transaction.execute(&table.adjust, [time, series, value])?;
        transaction.execute(&table.name, [time])?;
    }
    let of_metric = adjust_in("metric_hours", "hour", "", "");
    transaction.execute(&of_metric, [hour, series, value]).map(drop)
}

/// The parts of total and count. A request has too few points for sums that need more than two integers.
fn parts(sums: &Sums) -> [(i64, i64); 2] {
    parts_of(sums).unwrap_or_default()
}
