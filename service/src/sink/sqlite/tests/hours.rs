//! Tests that hours, days and months are the sums of intervals, in the file and in its views.

use super::super::wide_integers::Unsigned;
use super::*;
use rusqlite::Connection;
use std::collections::BTreeMap;

/// By time and series: points, total, count and buckets; only histograms have the last two.
pub(super) type Rows = BTreeMap<(String, i64), (i64, String, Option<String>, Option<String>)>;

const FORMATS: [(&str, &str); 3] = [("hour", "%Y-%m-%d %H:00Z"), ("day", "%Y-%m-%d"), ("month", "%Y-%m-01")];

/// xorshift64: the same draws in each run.
struct Random(u64);

impl Random {
    fn below(&mut self, most: u64) -> u64 {
        self.0 ^= self.0 << 13;
        self.0 ^= self.0 >> 7;
        self.0 ^= self.0 << 17;
        self.0 % most
    }
}

struct Span {
    series: i64,
    at: [String; 3],
    value: Option<i64>,
    count: Option<i128>,
    sum: Option<i128>,
    buckets: Option<Vec<i128>>,
}

/// Each interval, with the times in which it counts as SQLite writes them.
fn spans(trial: &Trial) -> Vec<Span> {
    let file = Connection::open(trial.path()).expect("a file");
    let mut query = file
        .prepare(
            "select series, value, cast(count as text), cast(sum as text), buckets, first_start_ns, after_ns, length_ns
             from requests join interval_rows on interval_rows.request = requests.id",
        )
        .expect("a query");
    let at = |end: u64| {
        let seconds = (end - 1) / 1_000_000_000;
        FORMATS.map(|(_, format)| {
            file.query_row("select strftime(?1, ?2, 'unixepoch')", (format, seconds), |row| row.get(0))
                .expect("a time")
        })
    };
    let number = |text: Option<String>| text.map(|text| text.parse().expect("a number"));
    query
        .query_map([], |row| {
            let times: [Unsigned; 3] = [row.get(5)?, row.get(6)?, row.get(7)?];
            Ok(Span {
                series: row.get(0)?,
                at: at(times.iter().map(|time| time.0).sum()),
                value: row.get(1)?,
                count: number(row.get(2)?),
                sum: number(row.get(3)?),
                buckets: row
                    .get::<_, Option<String>>(4)?
                    .map(|text| serde_json::from_str(&text).expect("buckets")),
            })
        })
        .and_then(Iterator::collect)
        .expect("spans")
}

/// Plain sums of the intervals in the file.
pub(super) fn sums(trial: &Trial, unit: usize) -> Rows {
    type Sums = (i64, i128, Option<i128>, Option<Vec<i128>>);
    let mut all: BTreeMap<(String, i64), Sums> = BTreeMap::new();
    for span in spans(trial) {
        let row = all.entry((span.at[unit].clone(), span.series)).or_default();
        row.0 += 1;
        row.1 += span.value.map_or(span.sum.unwrap_or(0), i128::from);
        if let (Some(count), Some(buckets)) = (span.count, span.buckets) {
            *row.2.get_or_insert(0) += count;
            let found = row.3.get_or_insert(vec![0; buckets.len()]);
            found.iter_mut().zip(buckets).for_each(|(all, one)| *all += one);
        }
    }
    let text = |buckets: Vec<i128>| format!("{buckets:?}").replace(' ', "");
    all.into_iter()
        .map(|(key, (points, total, count, buckets))| {
            let count = count.map(|count| count.to_string());
            (key, (points, total.to_string(), count, buckets.map(text)))
        })
        .collect()
}

/// The rows of a unit's view.
pub(super) fn view(trial: &Trial, unit: &str) -> Rows {
    let file = Connection::open(trial.path()).expect("a file");
    let query = format!(
        "select {unit}, series, points, cast(total as text), cast(count as text), buckets from by_{unit}"
    );
    let mut query = file.prepare(&query).expect("a view");
    query
        .query_map([], |row| {
            let sums = (row.get(2)?, row.get(3)?, row.get(4)?, row.get(5)?);
            Ok(((row.get(0)?, row.get(1)?), sums))
        })
        .and_then(Iterator::collect)
        .expect("rows")
}

/// Points, total and count by hour and name.
fn names(trial: &Trial, view: &str) -> BTreeMap<(String, String), (i64, i128, i128)> {
    let file = Connection::open(trial.path()).expect("a file");
    let query = format!(
        "select hour, name, points, cast(total as text), cast(coalesce(count, 0) as text) from {view}"
    );
    let mut query = file.prepare(&query).expect("a view");
    let mut rows = query.query([]).expect("rows");
    let mut all = BTreeMap::new();
    while let Some(row) = rows.next().expect("a row") {
        let number =
            |column| row.get::<_, String>(column).expect("a text").parse::<i128>().expect("a number");
        let key = (row.get(0).expect("an hour"), row.get(1).expect("a name"));
        let sums: &mut (i64, i128, i128) = all.entry(key).or_default();
        sums.0 += row.get::<_, i64>(2).expect("points");
        sums.1 += number(3);
        sums.2 += number(4);
    }
    all
}

pub(super) fn agree(trial: &Trial) {
    for (unit, (name, _)) in FORMATS.iter().enumerate() {
        assert_eq!(view(trial, name), sums(trial, unit), "by_{name}");
    }
    assert_eq!(names(trial, "totals_by_hour"), names(trial, "by_hour"));
    let without = |table: &str| trial.ask(&format!("select sum(without_sum) from {table}"));
    for table in ["hours", "days", "months"] {
        assert_eq!(without(table), without("series_totals"), "{table}");
    }
}

/// A point for each of some series, around the end of a month, of a leap day and of a year, in and out of order, some
/// with ends at full hours.
fn random_points(random: &mut Random) -> Vec<String> {
    const MIDNIGHTS: [u64; 4] = [1_793_491_200, 1_709_164_800, 1_709_251_200, 1_798_761_600];
    let mut points = Vec::new();
    for (name, code) in [("orders", 1), ("orders", 2), ("visits", 1), ("visits", 2), ("wait", 0)] {
        if random.below(2) == 0 {
            continue;
        }
        let midnight = MIDNIGHTS[random.below(4) as usize] * 1_000_000_000;
        let hour = 3_600_000_000_000;
        let at = midnight - 2 * hour + random.below(16) * hour / 4;
        let (start, end) = (at - random.below(5) * 7, at + hour / 4 - random.below(2) * 7);
        points.push(match name {
            "wait" => {
                let buckets = [random.below(9), random.below(9), u64::MAX >> (random.below(60) + 2)];
                let sum = (random.below(3) > 0).then(|| random.below(u64::MAX));
                let whole = histogram(name, start, end, sum, buckets);
                let begin = whole.find(r#""metrics":["#).expect("metrics") + 11;
                whole[begin..whole.find(r#"],"scope""#).expect("a scope")].to_string()
            }
            name => {
                let value = random.below(u64::MAX) as i64 >> random.below(60);
                sum_of(name, &[sum_point(code, start, end, value)])
            }
        });
    }
    points
}

/// The fate without its reason, which differs if it was given before.
fn bare(fate: DeliveryOutcome) -> DeliveryOutcome {
    match fate {
        DeliveryOutcome::TakenPartly { rejected, left, .. } => {
            DeliveryOutcome::TakenPartly { rejected, reason: String::new(), left }
        }
        DeliveryOutcome::Refused { .. } => DeliveryOutcome::Refused { reason: String::new() },
        other => other,
    }
}

#[test]
fn hours_days_and_months_are_the_sums_of_intervals() {
    for seed in 1..=6u64 {
        let mut trial = Trial::new();
        let mut random = Random(0x9e37_79b9_7f4a_7c15 ^ seed);
        let mut taken = 0;
        trial.taken(1000, metrics(&sum_of("first", &[])));
        for number in 1..=60 {
            // Most are sent as dead letters, in any order of their times.
            let number = if random.below(8) == 0 { 1000 + number } else { number };
            let points = random_points(&mut random);
            if points.is_empty() {
                continue;
            }
            let body = metrics(&points.join(","));
            let fate = trial.take(number, body.clone());
            taken += u64::from(!matches!(fate, DeliveryOutcome::Refused { .. }));
            for _ in 0..random.below(3) {
                if random.below(4) == 0 {
                    trial.reopen();
                }
                assert_eq!(bare(trial.take(number, body.clone())), bare(fate.clone()), "again");
            }
        }
        assert!(taken > 20, "{taken}");
        agree(&trial);
    }
}

/// The expected times are those of a calendar.
#[test]
fn a_span_counts_where_it_ends() {
    let mut trial = Trial::new();
    // 2017-01-01 00:00, before which there was a leap second, which times since 1970 don't count; 2024-02-29 00:00,
    // 2026-11-01 00:00, 2027-01-01 00:00 and 2100-03-01 00:00.
    let midnights = [1_483_228_800, 1_709_164_800, 1_793_491_200, 1_798_761_600, 4_107_542_400]
        .map(|at: u64| at * 1_000_000_000);
    for (number, midnight) in (1..).zip(midnights) {
        let name = format!("n{number}");
        trial.taken(number * 2, sum(&name, midnight - 10, midnight, 1));
        trial.taken(number * 2 + 1, sum(&name, midnight, midnight + 1, 2));
    }
    let rows =
        |unit: &str| trial.ask(&format!("select group_concat({unit} || ' ' || total, ', ') from by_{unit}"));
    assert_eq!(
        rows("hour"),
        "2016-12-31 23:00Z 1, 2017-01-01 00:00Z 2, 2024-02-28 23:00Z 1, 2024-02-29 00:00Z 2, 2026-10-31 23:00Z 1, 2026-11-01 00:00Z 2, \
         2026-12-31 23:00Z 1, 2027-01-01 00:00Z 2, 2100-02-28 23:00Z 1, 2100-03-01 00:00Z 2"
    );
    assert_eq!(
        rows("day"),
        "2016-12-31 1, 2017-01-01 2, 2024-02-28 1, 2024-02-29 2, 2026-10-31 1, 2026-11-01 2, 2026-12-31 1, 2027-01-01 2, 2100-02-28 1, 2100-03-01 2"
    );
    assert_eq!(
        rows("month"),
        "2016-12-01 1, 2017-01-01 2, 2024-02-01 3, 2026-10-01 1, 2026-11-01 2, 2026-12-01 1, 2027-01-01 2, 2100-02-01 1, 2100-03-01 2"
    );
}

#[test]
fn views_of_hours_are_exact_past_64_bits() {
    let mut trial = Trial::new();
    for number in 1..=5 {
        trial.taken(number, sum("up", number * 10, number * 10 + 10, i64::MAX));
        trial.taken(number + 10, sum("down", number * 10, number * 10 + 10, -i64::MAX));
        trial.taken(
            number + 20,
            histogram("wait", number * 10, number * 10 + 10, Some(u64::MAX), [u64::MAX, 0, 0]),
        );
    }
    let total = 5 * i128::from(i64::MAX);
    let count = 5 * i128::from(u64::MAX);
    for view in ["by_hour", "by_day", "by_month", "totals_by_hour"] {
        assert_eq!(
            trial.ask(&format!("select name, total, count from {view} order by name")),
            format!("down|-{total}|\nup|{total}|\nwait|{count}|{count}"),
            "{view}"
        );
    }
    assert_eq!(
        trial.ask(
            "select lower_bound, upper_bound, count from buckets order by upper_bound is null, upper_bound"
        ),
        format!("|-5|{count}\n-5|10|0\n10||0")
    );
}

#[test]
fn each_table_view_and_column_says_what_it_is() {
    let mut trial = Trial::new();
    trial.taken(1, sum("a", 1, 2, 3));
    let unsaid = "select name, column from (
        select name, '' as column from sqlite_schema where type in ('table', 'view') and name not like 'sqlite_%'
        union all
        select s.name, c.name from sqlite_schema s join pragma_table_info(s.name) c
        where s.type in ('table', 'view') and s.name not like 'sqlite_%')";
    let said = "select name, column from about where what <> ''";
    assert_eq!(trial.ask(&format!("{unsaid} except {said}")), "");
    assert_eq!(trial.ask(&format!("{said} except {unsaid}")), "");
}

/// The series differ in the type of an attribute, and one has more than 64 bits hold.
#[test]
fn the_hours_of_one_series_are_read() {
    const HOUR: u64 = 3_600_000_000_000;
    let mut trial = Trial::new();
    let text = |start, end| {
        sum("m", start, end, i64::MAX).replace(r#"{"intValue":"200"}"#, r#"{"stringValue":"200"}"#)
    };
    trial.taken(1, sum("m", 4 * HOUR, 5 * HOUR, 6));
    trial.taken(2, sum("m", 5 * HOUR, 6 * HOUR, 5));
    trial.taken(3, text(5 * HOUR, 5 * HOUR + 1));
    trial.taken(4, text(5 * HOUR + 1, 6 * HOUR));
    trial.taken(5, histogram("h", 5 * HOUR, 6 * HOUR, Some(3), [1, 2, 1]));
    let sink = Address::Sqlite(trial.path());
    let hours = |series, from| {
        let found = reading::hours(&sink, &series, from).expect("hours")?.into_iter();
        Some(found.map(|it| (it.hour, it.total.0, it.count.map(|count| count.0))).collect::<Vec<_>>())
    };
    let found = |series: &SeriesTotal| hours(series.digest, 5).expect("it is there");
    let all = read(&trial.path()).expect("rows");
    let mut found: Vec<_> = all.iter().map(found).collect();
    found.sort();
    assert_eq!(found, [vec![(5, 3, Some(4))], vec![(5, 5, None)], vec![(5, 2 * i128::from(i64::MAX), None)]]);
    assert_eq!(all.iter().filter_map(|one| hours(one.digest, 0)).map(|hours| hours.len()).max(), Some(2));
    let after_all = all.iter().map(|one| hours(one.digest, 6));
    assert!(
        after_all.eq(vec![Some(Vec::new()); 3]),
        "a series that has no hour from then on is there all the same"
    );
    assert_eq!(hours([0; 32], 0), None, "a series that the file does not have");
}
