//! Tests closing a period, and what follows, with kills in between. In which hour what counts is tested for both sinks
//! in `service/tests/postgres/periods.rs`.

use super::*;
use crate::sink::periods::{Adjustment, Which};

const HOUR: u64 = 3_600_000_000_000;
/// 2024-02-29 22:00.
const OLD: u64 = 1_709_244_000_000_000_000;

const A_DAY: Retention = Retention { intervals: None, hours: Some(Duration::from_secs(86_400)) };

impl Trial {
    fn done(&mut self, deed: PeriodAction) {
        let told = self.writer.apply("alice", &deed);
        assert!(matches!(told, PeriodOutcome::Done(_)), "{told:?}");
    }
}

fn by_hand(series: i64, hour: &str, value: i64) -> Adjustment {
    Adjustment {
        series: Which::Number(series),
        hour: hour.parse().expect("an hour"),
        value,
        reason: "by hand".into(),
        late_key: String::new(),
        is_dry: false,
    }
}

fn now() -> u64 {
    let since = SystemTime::now().duration_since(UNIX_EPOCH);
    since.expect("a clock").as_secs() / 3600
}

fn steps(trial: &mut Trial) {
    let leap_day = || "2024-02-29".parse().expect("a day");
    trial.taken(1, sum("a", OLD, OLD + 9, 5));
    trial.done(PeriodAction::Close(leap_day()));
    trial.taken(2, sum("a", OLD + HOUR, OLD + 2 * HOUR, 7));
    trial.taken(3, sum("a", OLD + 2 * HOUR, OLD + 3 * HOUR, 11));
    let adjustment = |hour: &str, value| PeriodAction::Adjust(by_hand(1, hour, value));
    trial.done(adjustment("2024-02-29T22", -2));
    trial.done(adjustment("2024-03-01T00", 3));
    trial.taken(6, histogram("h", OLD, OLD + 9, Some(5), [1, 2, 3]));
    trial.done(PeriodAction::Open(leap_day()));
    // Sent as a dead letter.
    trial.taken(5, sum("a", OLD + 9, OLD + 10, 13));
    trial.done(PeriodAction::Close("2024-02-28".parse().expect("a day")));
}

/// All rows, without the times at which they were made.
fn found(trial: &Trial) -> String {
    let tables = [
        "hours",
        "days",
        "months",
        "metric_hours",
        "late_hours",
        "series_totals",
        "by_day",
        "totals_by_hour",
    ];
    let rows = tables.map(|table| format!("select * from {table};")).join(" ");
    let closed = "select from_hour, to_hour, period, who from closed_periods;";
    let adjustments = "select series, of_hour, hour, value, reason, who from adjustments;";
    trial.ask(&format!("{rows} {closed} {adjustments}"))
}

/// Opens the file as it is on disk after each of the log's commits, and repeats all requests: the result has to be the
/// same.
fn tried() -> bool {
    let hour = now();
    let mut trial = Trial::new();
    trial.taken(0, sum("a", 1, 2, 1));
    trial.writer.store = None; // so the file has all of it
    let file = std::fs::read(trial.path()).expect("the file");
    let store = trial.writer.store().expect("it is open");
    let log = "pragma wal_autocheckpoint = 0";
    store.connection.query_row(log, [], |_| Ok(())).expect("a pragma");
    steps(&mut trial);
    let whole = found(&trial);
    let log = std::fs::read(trial.folder.path().join("totals.db-wal")).expect("the log");
    let ends = commits(&log);
    assert!(ends.len() >= 10, "{}", ends.len());
    for end in ends {
        let copy = tempfile::tempdir().expect("a folder");
        std::fs::write(copy.path().join("totals.db"), &file).expect("a copy");
        std::fs::write(copy.path().join("totals.db-wal"), &log[..end]).expect("a torn log");
        let mut killed = Trial { writer: writer(&copy.path().join("totals.db")), folder: copy };
        steps(&mut killed);
        if now() != hour {
            return false;
        }
        assert_eq!(found(&killed), whole, "{end}");
    }
    true
}

#[test]
fn a_kill_at_any_point_leaves_a_deed_whole_or_not_at_all() {
    while !tried() {}
}

/// Where the transactions of a log end. SQLite ignores what follows the last whole one.
fn commits(log: &[u8]) -> Vec<usize> {
    let frame = 24 + 4096;
    let is_commit = |end: &usize| log[end - frame + 4..end - frame + 8] != [0; 4];
    let ends = (32 + frame..=log.len()).step_by(frame).filter(is_commit);
    ends.collect()
}

#[test]
fn what_came_late_is_in_one_hour_and_says_whose_it_is() {
    let mut trial = Trial::new();
    steps(&mut trial);
    for (query, wanted) in [
        ("select day, total, adjustments, total_adjusted from by_day where day < '2025' and name = 'a' order by 1",
            "2024-02-29|18|0|18\n2024-03-01|11|3|14"),
        ("select belongs_to, name, sum(total), sum(adjustments), max(buckets) from late group by 1, 2 order by 1, 2",
            "2024-02-29 22:00Z|a|0|-2|\n2024-02-29 22:00Z|h|5|0|[1,2,3]\n2024-02-29 23:00Z|a|7|0|"),
        ("select count(distinct hour) from late", "1"),
        ("select name, total, adjustments, total_adjusted from totals_by_name order by 1", "a|36|1|37\nh|5|0|5"),
        ("select sum(total_adjusted) from by_month", "42"),
        ("select instance is null, series, last_end from resources_seen", "1|2|2024-03-01 01:00:00Z"),
        ("select name, last_end from series_seen order by 1", "a|2024-03-01 01:00:00Z\nh|2024-02-29 22:00:00Z"),
    ] {
        assert_eq!(trial.ask(query), wanted, "{query}");
    }
}

/// Otherwise an adjustment would be confirmed and be on no bill: its hour is in no view any more, nor is its month.
#[test]
fn an_hour_that_is_deleted_is_adjusted_only_while_it_is_closed() {
    let mut trial = Trial::new();
    let day = || "2024-02-29".parse().expect("a day");
    trial.taken(1, sum("a", OLD, OLD + 9, 5));
    trial.done(PeriodAction::Close(day()));
    trial.taken(2, sum("a", OLD + HOUR, OLD + 2 * HOUR, 7));
    trial.done(PeriodAction::Open(day()));
    trial.taken(3, sum("b", now() * HOUR - 1, now() * HOUR, 0));
    trial.keep(A_DAY);
    trial.keep_up(now() * HOUR);
    let adjust = || PeriodAction::Adjust(by_hand(1, "2024-02-29T23", -2));
    let told = trial.writer.apply("alice", &adjust());
    let part = "were deleted (--keep-hours), so no view would have it in 2024-02-29 23:00";
    assert!(matches!(&told, PeriodOutcome::Refused(why) if why.contains(part)), "{told:?}");
    let of_all = "select count(distinct name), sum(total), sum(adjustments) from by_";
    for view in ["hour", "day", "month"] {
        assert_eq!(trial.ask(&format!("{of_all}{view}")), "2|7|0", "{view}");
    }
    // A closed hour is adjusted in the hour in which it counts.
    trial.done(PeriodAction::Close(day()));
    trial.done(adjust());
    for view in ["hour", "day", "month"] {
        assert_eq!(trial.ask(&format!("{of_all}{view}")), "2|7|-2", "{view}");
    }
}

/// As after a clock was ahead once: late points then count in an hour long after all intervals.
#[test]
fn what_came_late_is_no_reason_to_leave_out_what_comes() {
    let mut trial = Trial::new();
    trial.taken(1, sum("a", OLD, OLD + 9, 5));
    trial.done(PeriodAction::Close("2024-02-29".parse().expect("a day")));
    trial.taken(2, sum("a", OLD + HOUR, OLD + 2 * HOUR, 7));
    trial.keep(A_DAY);
    trial.keep_up(now() * HOUR);
    trial.taken(3, sum("a", OLD + 2 * HOUR, OLD + 3 * HOUR, 11));
    for view in ["hour", "day", "month"] {
        let found = trial.ask(&format!("select sum(total) from by_{view} where {view} like '2024-03%'"));
        assert_eq!(found, "11", "{view}");
    }
}

/// The rows of the hour are deleted one after another.
#[test]
fn what_came_late_in_an_hour_that_is_being_deleted_is_there_whole_or_not_at_all() {
    let mut trial = Trial::new();
    trial.done(PeriodAction::Close("2024-02-29".parse().expect("a day")));
    for number in 1..=10 {
        trial.taken(number, sum(&format!("m{number}"), OLD, OLD + 9, 5));
    }
    let later = (now() + 72) * HOUR;
    trial.taken(11, sum("m1", later, later + 1, 1));
    let count = |trial: &Trial, table| trial.ask(&format!("select count(*) from {table}"));
    assert_eq!(count(&trial, "late"), "10");
    trial.keep(A_DAY);
    let mut rows = Vec::new();
    while trial.step(later) {
        assert_eq!(count(&trial, "late"), "0");
        rows.push(count(&trial, "late_hours"));
    }
    assert!(["10", "3", "0"].iter().all(|number| rows.iter().any(|found| found == number)), "{rows:?}");
}

/// For totals that no integer of SQLite holds.
#[test]
fn what_is_billed_is_exact() {
    let mut trial = Trial::new();
    for (number, value) in [(1, i64::MAX), (2, i64::MAX), (3, i64::MIN)] {
        trial.taken(number, sum(&format!("m{number}"), OLD, OLD + 1, value));
        trial.taken(10 + number, sum(&format!("m{number}"), OLD + 1, OLD + 2, value));
        let value = [1, -(1 << 60), -7_000_000_000_001][number as usize - 1];
        trial.done(PeriodAction::Adjust(by_hand(number as i64, "2024-02-29T22", value)));
    }
    let wanted = [
        2 * i128::from(i64::MAX) + 1,
        2 * i128::from(i64::MAX) - (1 << 60),
        2 * i128::from(i64::MIN) - 7_000_000_000_001,
    ];
    for view in ["by_hour", "by_day", "by_month", "totals", "totals_by_name", "totals_by_hour"] {
        let found = trial.ask(&format!("select total_adjusted from {view} order by name"));
        assert_eq!(found, wanted.map(|total| total.to_string()).join("\n"), "{view}");
    }
}
