//! A plain list of what was done to a sink, and what the sink's views have to show.

use crate::points::{Point, Value};
use crate::server::Server;
use std::collections::{BTreeMap, BTreeSet};
use std::process::Command;
use totxegun::sink::periods::{hour_shown, Period};

/// How many places for intervals an hour has.
pub const PLACES: u64 = 6;
pub const NAMES: [&str; 4] = ["a", "b", "h", "hh"];

pub enum Database<'a> {
    Lite(tempfile::TempDir),
    Postgres(&'a Server, &'static str),
}

/// A SQLite file, and a database of the server if there is one.
pub fn both(server: &Option<Server>) -> Vec<Database<'_>> {
    let lite = Database::Lite(tempfile::tempdir().unwrap());
    let postgres = server.as_ref().map(|server| Database::Postgres(server, "postgres"));
    std::iter::once(lite).chain(postgres).collect()
}

impl Database<'_> {
    pub fn address(&self) -> String {
        match self {
            Database::Lite(folder) => format!("sqlite:{}/m.db", folder.path().display()),
            Database::Postgres(server, name) => server.by_socket(name),
        }
    }

    /// Runs a query on either database. `HOUR(x)` stands for the hour since 1970 of a view's time, `t.` for the schema,
    /// and `LIST(x)` for a list as JSON.
    pub fn ask(&self, query: &str) -> String {
        match self {
            Database::Lite(folder) => {
                let query = query
                    .replace("HOUR(", "strftime('%s', ")
                    .replace("/H", " / 3600")
                    .replace("LIST(", "(")
                    .replace("t.", "");
                let file = folder.path().join("m.db");
                let output = Command::new("sqlite3").arg(file).arg(&query).output().expect("sqlite3");
                let error = String::from_utf8_lossy(&output.stderr);
                assert!(output.status.success(), "{query}: {error}");
                String::from_utf8(output.stdout).unwrap().trim().into()
            }
            Database::Postgres(server, name) => {
                let query = query
                    .replace("HOUR(", "extract(epoch from ")
                    .replace("/H", "::bigint / 3600")
                    .replace("LIST(", "to_json(")
                    .replace("t.", "totxegun.");
                server.ask_of(name, &query)
            }
        }
    }
}

/// What counts in one place.
#[derive(Clone, Debug, Default, PartialEq, Eq)]
pub struct Counted {
    pub points: u64,
    pub total: i128,
    pub adjustments: i64,
    pub buckets: Option<[u64; 3]>,
}

impl Counted {
    pub fn add(&mut self, point: &Point) {
        self.points += 1;
        match &point.value {
            Value::Sum(value) => self.total += i128::from(*value),
            Value::Histogram { sum, buckets } => {
                self.total += i128::from(sum.unwrap_or(0));
                let all = self.buckets.get_or_insert([0; 3]);
                all.iter_mut().zip(buckets).for_each(|(all, one)| *all += one);
            }
        }
    }

    pub fn merge(&mut self, other: &Counted) {
        self.points += other.points;
        self.total += other.total;
        self.adjustments += other.adjustments;
        if let Some(buckets) = &other.buckets {
            let all = self.buckets.get_or_insert([0; 3]);
            all.iter_mut().zip(buckets).for_each(|(all, one)| *all += one);
        }
    }

    pub fn line(&self, key: &str) -> String {
        let Counted { points, total, adjustments, buckets } = self;
        let total_adjusted = total + i128::from(*adjustments);
        let buckets = buckets.map_or(String::new(), |buckets| format!("{buckets:?}").replace(' ', ""));
        format!("{key}|{points}|{total}|{adjustments}|{total_adjusted}|{buckets}")
    }
}

/// What was done so far, by name and hour.
#[derive(Default)]
pub struct Model {
    pub hours: BTreeMap<(&'static str, u64), Counted>,
    /// By name, the hour to which a point belongs, and the hour in which it counts.
    pub late: BTreeMap<(&'static str, u64, u64), Counted>,
    pub closed: BTreeSet<(u64, u64)>,
    pub taken: BTreeSet<(&'static str, u64)>,
    pub requests: Vec<(u64, String)>,
    pub refused: u64,
    pub corrected: u64,
}

impl Model {
    pub fn counted_in(&self, hour: u64, now: u64) -> u64 {
        let end = |hour| {
            let has = |period: &&(u64, u64)| period.0 <= hour && hour < period.1;
            self.closed.iter().find(has).map(|period| period.1)
        };
        match end(hour) {
            None => hour,
            Some(_) => {
                let mut open = now;
                while let Some(end) = end(open) {
                    open = end;
                }
                open
            }
        }
    }

    pub fn add(&mut self, name: &'static str, of: u64, now: u64, counted: &Counted) {
        let hour = self.counted_in(of, now);
        self.hours.entry((name, hour)).or_default().merge(counted);
        if hour != of {
            self.late.entry((name, of, hour)).or_default().merge(counted);
        }
    }

    /// The hours added up to longer times.
    pub fn by(&self, longer: impl Fn(u64) -> u64) -> BTreeMap<(&'static str, u64), Counted> {
        let mut all = BTreeMap::<_, Counted>::new();
        for ((name, hour), counted) in &self.hours {
            all.entry((*name, longer(*hour))).or_default().merge(counted);
        }
        all
    }

    pub fn agree(&self, database: &Database, what: &str) {
        let lines = |rows: BTreeMap<(&str, u64), Counted>| {
            let line =
                |((name, time), counted): ((&str, u64), Counted)| counted.line(&format!("{name}|{time}"));
            rows.into_iter().map(line).collect::<Vec<String>>().join("\n")
        };
        let ask = |view: &str| {
            let query = format!(
                "select name, HOUR({view}) /H, points, total, adjustments, total_adjusted, LIST(buckets) from t.by_{view} order by 1, 2"
            );
            database.ask(&query)
        };
        assert_eq!(ask("hour"), lines(self.by(|hour| hour)), "{what}");
        assert_eq!(ask("day"), lines(self.by(|hour| hour / 24 * 24)), "{what}");
        let month = |hour: u64| {
            let text = hour_shown(hour as i64);
            text[..7].parse::<Period>().unwrap().from as u64
        };
        assert_eq!(ask("month"), lines(self.by(month)), "{what}");
        let no_buckets = |(key, counted): (_, Counted)| (key, Counted { buckets: None, ..counted });
        let metrics = self.by(|hour| hour).into_iter().map(no_buckets).collect();
        let found = "select name, HOUR(hour) /H, points, total, adjustments, total_adjusted, '' from t.totals_by_hour order by 1, 2";
        assert_eq!(database.ask(found), lines(metrics), "{what}");
        let all = self.by(|_| 0);
        let found =
            "select name, 0, points, total, adjustments, total_adjusted, LIST(buckets) from t.totals order by 1";
        assert_eq!(database.ask(found), lines(all), "{what}");
        self.late_agrees(database, what);
    }

    pub fn late_agrees(&self, database: &Database, what: &str) {
        let found = "select name, HOUR(belongs_to) /H, HOUR(hour) /H, sum(points), sum(total), sum(adjustments), sum(total_adjusted), ''
            from t.late group by 1, 2, 3 order by 1, 2, 3";
        let line = |((name, of, hour), counted): (&(&str, u64, u64), &Counted)| {
            Counted { buckets: None, ..counted.clone() }.line(&format!("{name}|{of}|{hour}"))
        };
        let wanted: Vec<String> = self.late.iter().map(line).collect();
        assert_eq!(database.ask(found), wanted.join("\n"), "{what}");
    }
}
