//! Tests what is made ahead and deleted in the background while deliveries go on.

use crate::points::HOUR;
use crate::server::{sum, sums, Server};
use crate::{open, open_with, refused, taken};
use std::time::Duration;
use totxegun::sink::sql::export::What;
use totxegun::sink::sql::reading;
use totxegun::sink::Retention;

const DAY: u64 = 24 * HOUR;

pub fn now() -> u64 {
    let now = std::time::SystemTime::now();
    now.duration_since(std::time::UNIX_EPOCH).unwrap().as_nanos() as u64
}

fn days(days: u64) -> Option<Duration> {
    Some(Duration::from_nanos(days * DAY))
}

pub async fn until(server: &Server, query: &str, answer: &str) {
    for _ in 0..1500 {
        if server.ask(query) == answer {
            return;
        }
        tokio::time::sleep(Duration::from_millis(20)).await;
    }
    panic!("{query}: {} and not {answer}", server.ask(query));
}

/// Makes an old day's partition, as it was made at the time.
fn make_day(server: &Server, ns: u64) -> String {
    let name = server.ask(&format!(
        "select 'interval_' || to_char(to_timestamp({}) at time zone 'UTC', 'YYYYMMDD')",
        ns / 1_000_000_000
    ));
    let from = ns / DAY * DAY + 1;
    server.ask(&format!(
        "create table totxegun.{name} (like totxegun.interval_rows); alter table totxegun.interval_rows attach partition totxegun.{name} \
         for values from ({from}) to ({})",
        from + DAY
    ));
    name
}

/// Deleted intervals stay in totals and hours, and are never counted again.
#[tokio::test(flavor = "multi_thread")]
async fn old_intervals_are_deleted_and_not_counted_again() {
    let Some(server) = Server::start() else { return };
    let address = server.by_socket("postgres");
    let before = open(&address);
    let (old, older) = (now() - 3 * DAY, now() - 40 * DAY);
    let name = make_day(&server, old);
    // The second request lies within the series' time in that hour; so does a gap.
    let edges = [("a", old, old + 10, 1), ("a", old + 30, old + 40, 4)];
    taken(&*before, 2, sums(&edges)).await;
    taken(&*before, 1, sum("a", old + 20, old + 30, 2)).await;
    taken(&*before, 3, sum("b", older, older + 9, 8)).await;
    taken(&*before, 4, sum("a", now() - 10, now(), 16)).await;
    assert_eq!(server.ask(&format!("select count(*) from totxegun.{name}")), "3");
    let hours = server.ask("select * from totxegun.hours order by series, hour");
    drop(before);
    let sink = open_with(&address, Retention { intervals: days(2), ..Retention::default() });
    until(&server, "select count(*) from totxegun.intervals", "1").await;
    assert_eq!(server.ask(&format!("select to_regclass('totxegun.{name}') is null")), "t");
    // The same requests, under their own keys and under others; and a point that was never sent before.
    taken(&*sink, 1, sum("a", old + 20, old + 30, 2)).await;
    refused(&*sink, 12, sum("a", old + 20, old + 30, 2), "is not added").await;
    refused(&*sink, 13, sum("a", old + 10, old + 20, 2), "is not added").await;
    refused(&*sink, 14, sum("b", older, older + 9, 8), "is not added").await;
    let found = server.ask("select name, points, total from totxegun.totals order by 1");
    assert_eq!(found, "a|4|23\nb|1|8");
    assert_eq!(server.ask("select * from totxegun.hours order by series, hour"), hours);
}

#[tokio::test(flavor = "multi_thread")]
async fn old_hours_are_deleted_and_not_counted_again() {
    let Some(server) = Server::start() else { return };
    let address = server.by_socket("postgres");
    let before = open(&address);
    let old = now() - 3 * DAY;
    taken(&*before, 1, sum("a", old, old + 9, 1)).await;
    taken(&*before, 2, sum("a", now() - 10, now(), 2)).await;
    taken(&*before, 3, sum("b", old, old + 9, 4)).await;
    drop(before);
    let sink = open_with(&address, Retention { hours: days(2), ..Retention::default() });
    until(&server, "select name, total from totxegun.by_hour", "a|2").await;
    until(&server, "select name, total from totxegun.totals_by_hour", "a|2").await;
    refused(&*sink, 11, sum("a", old, old + 9, 1), "is not added").await;
    refused(&*sink, 12, sum("a", old + HOUR, old + HOUR + 9, 1), "is not added").await;
    refused(&*sink, 13, sum("b", old + 1, old + 2, 1), "is not added").await;
    taken(&*sink, 14, sum("b", old + 9, old + 19, 8)).await;
    assert_eq!(server.ask("select name, total from totxegun.totals order by 1"), "a|3\nb|12");
    assert_eq!(server.ask("select count(*) from totxegun.intervals"), "4");
}

/// How many points of a period are exported, or why it is not.
async fn exported(address: &str, period: &str) -> Result<i64, String> {
    let (address, what) = (address.parse().unwrap(), What::Of(period.parse().unwrap()));
    let read = move || {
        let mut points = 0;
        let read = reading::read(&address, &what, &mut |line| {
            points += line.points;
            Ok(())
        });
        read.map(|_| points).map_err(|why| why.to_string())
    };
    tokio::task::spawn_blocking(read).await.unwrap()
}

/// Otherwise a bill that is made again would say that nothing was counted, with the status of a complete one.
#[tokio::test(flavor = "multi_thread")]
async fn a_month_or_a_day_of_which_hours_were_deleted_is_not_exported_as_one_without_points() {
    let Some(server) = Server::start() else { return };
    let address = server.by_socket("postgres");
    let before = open(&address);
    let (old, new) = (now() - 3 * DAY, now());
    taken(&*before, 1, sum("a", old, old + 9, 1)).await;
    taken(&*before, 2, sum("a", new, new + 9, 2)).await;
    let day = |ns: u64| {
        let seconds = ns / 1_000_000_000;
        server.ask(&format!("select to_char(to_timestamp({seconds}) at time zone 'UTC', 'YYYY-MM-DD')"))
    };
    let (old, new) = (day(old), day(new));
    for gone in [&old[..], &old[..7]] {
        assert!(exported(&address, gone).await.unwrap() > 0);
    }
    drop(before);
    let _sink = open_with(&address, Retention { hours: days(2), ..Retention::default() });
    until(&server, "select hours_from > 0 from totxegun.horizon", "t").await;
    for gone in [&old[..], &old[..7]] {
        let why = exported(&address, gone).await.unwrap_err();
        assert!(why.contains(&format!("so there is no whole {gone} any more")), "{why}");
    }
    assert_eq!(exported(&address, &new).await, Ok(1));
}

/// Deleting follows the clock, but points after the last hour that is there are not left out.
#[tokio::test(flavor = "multi_thread")]
async fn a_clock_that_was_ahead_leaves_out_nothing_that_comes() {
    let Some(server) = Server::start() else { return };
    let address = server.by_socket("postgres");
    let before = open(&address);
    let old = (now() / DAY - 400) * DAY; // so the database's clock is 400 days ahead
    taken(&*before, 1, sum("a", old, old + 9, 1)).await;
    taken(&*before, 2, sum("a", old + HOUR, old + HOUR + 9, 2)).await;
    drop(before);
    let sink = open_with(&address, Retention { hours: days(2), ..Retention::default() });
    let last = (old / HOUR + 1).to_string();
    until(&server, "select hours_from from totxegun.horizon", &last).await;
    until(&server, "select total from totxegun.by_hour", "2").await;
    taken(&*sink, 3, sum("a", old + 40 * DAY, old + 40 * DAY + 9, 4)).await;
    assert_eq!(server.ask("select total from totxegun.by_hour order by hour"), "2\n4");
    assert_eq!(server.ask("select total from totxegun.by_day"), "4");
}

/// A long reader holds up the deletion. No delivery waits longer than a step, which is a second.
#[tokio::test(flavor = "multi_thread")]
async fn deliveries_go_on_while_a_reader_holds_up_a_deletion() {
    let Some(server) = Server::start() else { return };
    let address = server.by_socket("postgres");
    drop(open(&address));
    let name = make_day(&server, now() - 9 * DAY);
    let held = server.hold("begin; select count(*) from totxegun.intervals; select pg_sleep(60)");
    let sink = open_with(&address, Retention { intervals: days(2), ..Retention::default() });
    let mut longest = Duration::ZERO;
    for number in 0..300 {
        let began = std::time::Instant::now();
        taken(&*sink, number, sum("a", now() - 5, now(), 1)).await;
        longest = longest.max(began.elapsed());
        tokio::time::sleep(Duration::from_millis(10)).await;
    }
    assert!(longest < Duration::from_secs(5), "{longest:?}");
    assert_eq!(server.ask(&format!("select to_regclass('totxegun.{name}') is null")), "f");
    drop((held, sink));
    let waits =
        "select count(*) from pg_stat_activity where query like '%pg_sleep(60)' and pid <> pg_backend_pid()";
    server.ask("select pg_terminate_backend(pid) from pg_stat_activity where query = 'select pg_sleep(60)'");
    until(&server, waits, "0").await;
    let _sink = open_with(&address, Retention { intervals: days(2), ..Retention::default() });
    until(&server, &format!("select to_regclass('totxegun.{name}') is null"), "t").await;
}

/// Intervals that came before their day was made are moved into it. After a kill in between none of them is moved.
#[tokio::test(flavor = "multi_thread")]
async fn days_are_made_ahead() {
    let Some(server) = Server::start() else { return };
    let address = server.by_socket("postgres");
    let sink = open(&address);
    let last = "select max(relname) from pg_class where relname ~ '^interval_[0-9]{8}$'";
    let today =
        server.ask("select to_char(now() at time zone 'UTC' + interval '3 days', '\"interval_\"YYYYMMDD')");
    assert_eq!(server.ask(last), today);
    taken(&*sink, 1, sum("a", now() - 10, now(), 1)).await;
    assert_eq!(server.ask("select count(*) from totxegun.interval_other"), "0");
    // Whatever makes the step fail, nothing of it is there.
    server.run_file(
        "postgres",
        "create function public.fails() returns event_trigger language plpgsql as $$ begin
            if current_query() like '%attach partition%' then raise exception 'killed'; end if; end $$;
        create event trigger killed on ddl_command_end when tag in ('ALTER TABLE') execute function public.fails()",
    );
    server.ask(&format!("drop table totxegun.{today}"));
    // The day's first and last nanosecond, and those beside.
    let day = (now() / DAY + 3) * DAY;
    for (number, end) in [day, day + 1, day + DAY, day + DAY + 1].into_iter().enumerate() {
        taken(&*sink, 10 + number as u64, sum("b", end - 1, end, 1)).await;
    }
    let there = "select tableoid::regclass, count(*) from totxegun.interval_rows group by 1 order by 1";
    let before = server.ask(there);
    assert!(before.contains("totxegun.interval_other|3"), "{before}");
    drop(sink);
    let killed = open(&address);
    let log = server.folder.path().join("log");
    while !std::fs::read_to_string(&log).unwrap().contains("ERROR:  killed") {
        tokio::time::sleep(Duration::from_millis(20)).await;
    }
    assert_eq!(server.ask(there), before);
    drop(killed);
    server.ask("drop event trigger killed");
    let sink = open(&address);
    until(&server, &format!("select count(*) from pg_class where relname = '{today}'"), "1").await;
    until(&server, "select count(*) from totxegun.interval_other", "1").await;
    assert_eq!(server.ask(&format!("select count(*) from totxegun.{today}")), "2");
    refused(&*sink, 30, sum("b", day, day + 1, 1), "is not added").await;
    assert_eq!(server.ask("select sum(points) from totxegun.hours"), "5");
}

/// Days that such a clock has made far ahead do not keep the next days from being made.
#[tokio::test(flavor = "multi_thread")]
async fn days_are_made_behind_a_clock_that_was_ahead() {
    let Some(server) = Server::start() else { return };
    let address = server.by_socket("postgres");
    drop(open(&address));
    let last =
        server.ask("select to_char(now() at time zone 'UTC' + interval '3 days', '\"interval_\"YYYYMMDD')");
    server.ask(&format!("drop table totxegun.{last}"));
    make_day(&server, now() + 4000 * DAY);
    let _sink = open(&address);
    until(&server, &format!("select count(*) from pg_class where relname = '{last}'"), "1").await;
}
