//! Tests what is deleted, and whether it can come again.

use super::hours::view;
use super::*;
use crate::sink::sql::export::What;

pub(super) const HOUR: u64 = 3_600_000_000_000;
const DAY: u64 = 24 * HOUR;
/// 2026-11-01 00:00.
pub(super) const NOVEMBER: u64 = 1_793_491_200_000_000_000;

fn days(days: u64) -> Option<Duration> {
    Some(Duration::from_secs(days * 86_400))
}

impl Trial {
    pub(super) fn keep(&mut self, keep: Retention) {
        self.writer.upkeep = Upkeep::new(keep);
    }

    /// One step, which changes few rows.
    pub(super) fn step(&mut self, now: u64) -> bool {
        self.writer.store().expect("it is open");
        self.writer.upkeep.step = 7;
        self.step_at(now).expect("a step")
    }

    /// Does steps until there is nothing left to do. Returns how many.
    pub(super) fn keep_up(&mut self, now: u64) -> usize {
        (0..).find(|_| !self.step(now)).expect("an end")
    }
}

/// A point of `a` each hour, 48 of them.
fn two_days(trial: &mut Trial) {
    for hour in 0..48 {
        let start = NOVEMBER + hour * HOUR;
        trial.taken(hour + 1, sum("a", start, start + HOUR, 1 + hour as i64));
    }
}

#[test]
fn intervals_that_are_too_old_are_deleted_and_counted_once() {
    let mut trial = Trial::new();
    two_days(&mut trial);
    trial.keep(Retention { intervals: days(1), ..Retention::default() });
    let (before, total) = (view(&trial, "hour"), trial.totals());
    // The first 24 have ended, the last of them at this very moment.
    assert!(trial.keep_up(NOVEMBER + 2 * DAY) >= 3);
    assert_eq!(trial.ask("select count(*), min(start_ns) from intervals"), format!("24|{}", NOVEMBER + DAY));
    assert_eq!((view(&trial, "hour"), trial.totals()), (before, total.clone()));
    trial.reopen();
    // Under its own key each is taken; under another key it is refused, even if it overlaps only in part.
    let again = |hour: u64, by: u64| {
        sum("a", NOVEMBER + hour * HOUR + by, NOVEMBER + (hour + 1) * HOUR, 1 + hour as i64)
    };
    for hour in 0..48 {
        trial.taken(hour + 1, again(hour, 0));
    }
    trial.refused(1, again(1, 0), "key is that of another request");
    for (number, (hour, by)) in (100..).zip([(3, 0), (23, 5), (24, 0)]) {
        trial.refused(number, again(hour, by), "is not added");
    }
    assert_eq!(trial.totals(), total);
    trial.taken(104, sum("a", NOVEMBER + 2 * DAY, NOVEMBER + 2 * DAY + 1, 1000));
    trial.taken(105, sum("b", NOVEMBER, NOVEMBER + 1, 1000));
    assert_eq!(trial.totals()[0], ("a".into(), 48 * 49 / 2 + 1000, 49));
}

/// Even after no interval is left.
#[test]
fn what_was_left_of_a_request_is_known_for_ever() {
    let mut trial = Trial::new();
    trial.taken(1, sum("a", 100, 200, 1));
    let one = |name: &str, start: u64| sum_of(name, &[sum_point(200, start, start + 10, 8)]);
    let both = metrics(&[one("a", 150), one("b", 150)].join(","));
    let fate = trial.take(2, both.clone());
    let left = |fate: DeliveryOutcome| match fate {
        DeliveryOutcome::TakenPartly { rejected: 1, left: Some(left), .. } => left,
        other => panic!("{other:?}"),
    };
    trial.keep(Retention { intervals: days(1), ..Retention::default() });
    trial.keep_up(DAY + 1000);
    assert_eq!(trial.ask("select count(*) from intervals"), "0");
    assert_eq!(left(trial.take(2, both)), left(fate));
    trial.taken(1, sum("a", 100, 200, 1));
    trial.refused(2, metrics(&one("a", 151)), "key is that of another request");
}

#[test]
fn hours_that_are_too_old_are_deleted_and_stay_away() {
    let mut trial = Trial::new();
    let october = NOVEMBER - 40 * DAY;
    for hour in [0, 1, 24 * 39 + 23, 24 * 40, 24 * 40 + 5, 24 * 41] {
        trial.taken(hour + 1, sum("a", october + hour * HOUR, october + (hour + 1) * HOUR, 1));
    }
    trial.keep(Retention { hours: days(10), ..Retention::default() });
    let rows =
        |trial: &Trial, unit: &str| trial.ask(&format!("select {unit}, total from by_{unit} order by 1"));
    // Until 2026-11-01 05:30.
    let now = NOVEMBER + 10 * DAY + 5 * HOUR + HOUR / 2;
    assert!(trial.keep_up(now) > 1);
    let (hours, day, month) =
        ("2026-11-01 05:00Z|1\n2026-11-02 00:00Z|1", "2026-11-01|2\n2026-11-02|1", "2026-11-01|3");
    let all = |trial: &Trial| [rows(trial, "hour"), rows(trial, "day"), rows(trial, "month")];
    assert_eq!(all(&trial), [hours, day, month]);
    assert_eq!(trial.ask("select hour, total from totals_by_hour"), hours);
    for table in ["hours", "metric_hours"] {
        assert_eq!(trial.ask(&format!("select count(*) from {table}")), "2");
    }
    // Late points of a deleted hour, whose day and month are not deleted yet.
    trial.taken(2001, sum("b", NOVEMBER + 7, NOVEMBER + 8, 10));
    trial.taken(2000, sum("b", october + 7, october + 8, 10));
    assert_eq!(rows(&trial, "hour"), hours);
    assert_eq!(rows(&trial, "day"), "2026-11-01|2\n2026-11-01|10\n2026-11-02|1");
    assert_eq!(rows(&trial, "month"), "2026-11-01|3\n2026-11-01|10");
    assert_eq!(trial.totals()[1], ("b".into(), 20, 2));
    assert_eq!(trial.ask("select count(*) from intervals"), "8");
}

/// Otherwise a bill that is made again would say that nothing was counted, with the status of a complete one.
#[test]
fn a_month_or_a_day_that_is_deleted_is_not_exported_as_one_without_points() {
    let mut trial = Trial::new();
    for (number, start) in [(1, NOVEMBER - DAY), (2, NOVEMBER), (3, NOVEMBER + 2 * DAY)] {
        trial.taken(number, sum("a", start, start + HOUR, 1));
    }
    trial.keep(Retention { hours: days(1), ..Retention::default() });
    trial.keep_up(NOVEMBER + 2 * DAY + 5 * HOUR);
    let exported = |text: &str| {
        let (what, mut points) = (What::Of(text.parse().expect(text)), 0);
        let read = reading::read(&Address::Sqlite(trial.path()), &what, &mut |line| {
            points += line.points;
            Ok(())
        });
        read.map(|_| points).map_err(|why| why.to_string())
    };
    for gone in ["2026-10", "2026-10-31", "2026-11-01"] {
        let why = exported(gone).expect_err(gone);
        let part =
            format!("hours before 2026-11-02 05:00 were deleted (--keep-hours), so there is no whole {gone}");
        assert!(why.contains(&part), "{why}");
    }
    // These were deleted as a whole, or not at all.
    let whole = ["2026-11", "2026-11-02", "2026-11-03"].map(exported);
    assert_eq!(whole, [Ok(2), Ok(0), Ok(1)]);
}

/// Deleting follows the clock, but points after the last hour that is there are not left out.
#[test]
fn a_clock_that_was_ahead_leaves_out_nothing_that_comes() {
    let mut trial = Trial::new();
    two_days(&mut trial);
    trial.keep(Retention { hours: days(10), ..Retention::default() });
    trial.keep_up(NOVEMBER + 4000 * DAY);
    let hours = "select hour, total from by_hour order by 1";
    assert_eq!(trial.ask(hours), "2026-11-02 23:00Z|48");
    let (start, end) = (NOVEMBER + 2 * DAY, NOVEMBER + 2 * DAY + HOUR);
    trial.taken(100, sum("a", start, end, 1000));
    trial.keep_up(end);
    assert_eq!(trial.ask(hours), "2026-11-02 23:00Z|48\n2026-11-03 00:00Z|1000");
}

/// All senders shared the clock, so there are hours of its time. A month of which a part was deleted is left out.
#[test]
fn a_clock_that_all_shared_and_was_ahead_leaves_out_nothing_of_the_next_month() {
    let mut trial = Trial::new();
    two_days(&mut trial);
    let far = NOVEMBER + 4000 * DAY;
    trial.taken(100, sum("a", far, far + 1, 1000));
    trial.keep(Retention { hours: days(10), ..Retention::default() });
    trial.keep_up(far + DAY);
    let now = NOVEMBER + 3 * DAY;
    trial.keep_up(now);
    let (late, december) = (NOVEMBER + 29 * DAY, NOVEMBER + 30 * DAY);
    for (number, start) in [(101, late), (102, december)] {
        trial.taken(number, sum("b", start, start + 1, 7));
        trial.keep_up(now);
    }
    for (unit, first) in [("hour", "2026-12-01 00:00Z"), ("day", "2026-12-01"), ("month", "2026-12-01")] {
        let found = trial.ask(&format!("select {unit}, total from by_{unit} where name = 'b'"));
        assert_eq!(found, format!("{first}|7"));
    }
    assert_eq!(trial.totals()[1], ("b".into(), 14, 2));
}

/// A delivery waits for one step, however much there is to delete.
#[tokio::test]
async fn deliveries_go_on_while_much_is_deleted() {
    let trial = much();
    let keep = Retention { intervals: days(35), ..Retention::default() };
    let sink = SqliteSink::open(&trial.path(), keep, Arc::new(())).expect("a sink");
    let left = || {
        let count = trial.ask("select count(*) from intervals where end_ns < 1000");
        count.parse::<u64>().expect("a count")
    };
    let now = SystemTime::now().duration_since(UNIX_EPOCH).expect("a clock");
    let now = now.as_nanos() as u64;
    let (mut meanwhile, mut taken) = (0, 0);
    while left() > 0 {
        taken += 1;
        let one = forwarded(1000 + taken, sum("b", now + taken, now + taken + 1, 1));
        assert_eq!(sink.deliver(&one).await, DeliveryOutcome::Taken);
        meanwhile += u64::from((1..80_000).contains(&left()));
    }
    assert!(meanwhile > 2, "{meanwhile}");
    drop(sink);
    let sums = "select name, sum(points), sum(total) from totals group by name order by name";
    let wanted = format!("a|80000|80000\nb|{taken}|{taken}");
    assert_eq!(trial.ask(sums), wanted);
    assert_eq!(trial.ask(&sums.replace("from totals", "from by_day")), wanted);
    assert_eq!(trial.ask("select count(*) from intervals"), taken.to_string());
}

/// 80,000 old intervals of 2,000 series. The file is closed.
fn much() -> Trial {
    let mut trial = Trial::new();
    for number in 1..=40 {
        let points: Vec<String> =
            (0..2000).map(|code| sum_point(code, number * 10, number * 10 + 1, 1)).collect();
        trial.taken(number, metrics(&sum_of("a", &points)));
    }
    trial.writer.store = None;
    trial
}
