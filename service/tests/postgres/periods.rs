//! Tests closed periods, late points and adjustments in both sinks, against a plain list of what was done.

use crate::adjust::{adjust, by_hand};
use crate::kept::until;
use crate::model::{both, Counted, Database, Model, NAMES, PLACES};
use crate::points::{body, value, Point, Random, Value, HOUR};
use crate::server::{sum, Server};
use crate::{open, open_with, refused, request, taken};
use std::collections::BTreeSet;
use std::sync::Arc;
use std::time::Duration;
use totxegun::sink::periods::{hour_shown, Period, PeriodAction, PeriodOutcome, Which};
use totxegun::sink::{DeliveryOutcome, Retention, Sink};

pub fn now() -> u64 {
    let since = std::time::SystemTime::now().duration_since(std::time::UNIX_EPOCH);
    since.unwrap().as_secs() / 3600
}

pub fn period(from: u64, hours: u64) -> Period {
    let text = hour_shown(from as i64);
    let text = if hours == 1 { &text[..13] } else { &text[..10] };
    text.replace(' ', "T").parse().unwrap()
}

pub async fn done(sink: &dyn Sink, deed: PeriodAction) -> String {
    match sink.apply("alice", &deed).await {
        PeriodOutcome::Done(told) => told,
        other => panic!("{deed:?}: {other:?}"),
    }
}

pub async fn not_done(sink: &dyn Sink, deed: PeriodAction, part: &str) {
    match sink.apply("alice", &deed).await {
        PeriodOutcome::Refused(why) => assert!(why.contains(part), "{why}"),
        other => panic!("{deed:?}: {other:?}"),
    }
}

/// Draws a place of a series in the hours around now, some of which are to come.
fn place(random: &mut Random, now: u64) -> (&'static str, u64) {
    let hour = now - 60 + random.below(63);
    (NAMES[random.below(4) as usize], hour * PLACES + random.below(PLACES))
}

fn point(name: &str, place: u64, value: Value) -> Point {
    let length = HOUR / PLACES;
    Point { name: name.into(), start: place * length, end: (place + 1) * length, value }
}

/// Does one random step.
async fn step(model: &mut Model, sink: &dyn Sink, database: &Database<'_>, random: &mut Random, now: u64) {
    match random.below(20) {
        0..=9 => {
            let places: BTreeSet<_> = (0..1 + random.below(8)).map(|_| place(random, now)).collect();
            let new: Vec<_> = places.difference(&model.taken).copied().collect();
            if new.is_empty() {
                return;
            }
            let mut points = Vec::new();
            for (name, place) in new {
                let point = point(name, place, value(name, random));
                let mut counted = Counted::default();
                counted.add(&point);
                model.add(name, place / PLACES, now, &counted);
                model.taken.insert((name, place));
                points.push(point);
            }
            let number = model.requests.len() as u64;
            taken(sink, number, body(&points)).await;
            model.requests.push((number, body(&points)));
        }
        10 | 11 => {
            if let Some((number, body)) = model.requests.get(random.below(1000) as usize) {
                taken(sink, *number, body.clone()).await;
            }
        }
        12 | 13 => overlap(model, sink, random).await,
        14 => {
            let hours = [1, 24][random.below(2) as usize];
            let from = (now - 60 + random.below(60)) / hours * hours;
            if from + hours <= now {
                done(sink, PeriodAction::Close(period(from, hours))).await;
                let is_in = model.closed.iter().any(|one| one.0 <= from && from + hours <= one.1);
                if !is_in {
                    model.closed.insert((from, from + hours));
                }
            }
        }
        15 => {
            if let Some((from, to)) = model.closed.iter().next().copied() {
                done(sink, PeriodAction::Open(period(from, to - from))).await;
                model.closed.remove(&(from, to));
            }
        }
        _ => adjust(model, sink, database, random, now).await,
    }
}

/// Sends, in order, an interval that is half of an existing one.
async fn overlap(model: &mut Model, sink: &dyn Sink, random: &mut Random) {
    let all: Vec<_> = model.taken.iter().collect();
    let Some((name, place)) = all.get(random.below(200) as usize) else {
        return;
    };
    let whole = point(name, *place, value(name, random));
    let half = Point { end: whole.start + HOUR / PLACES / 2, ..whole };
    model.refused += 1;
    refused(sink, (1 << 40) + model.refused, body(&[half]), "is not added").await;
}

/// Returns whether all of it was done within one hour.
async fn tried(database: &Database<'_>, seed: u64) -> bool {
    let (mut model, mut random, now_) = (Model::default(), Random(seed), now());
    let address = database.address();
    let mut sink = open(&address);
    // After this the others are dead letters, and may come in any order of their times.
    taken(&*sink, 1 << 39, body(&[])).await;
    for count in 0..80 {
        if count == 20 {
            // So that each seed has late points.
            let day = (now_ - 40) / 24 * 24;
            done(&*sink, PeriodAction::Close(period(day, 24))).await;
            model.closed.insert((day, day + 24));
        }
        step(&mut model, &*sink, database, &mut random, now_).await;
        if now() != now_ {
            return false;
        }
        if count % 20 == 19 {
            model.agree(database, &format!("seed {seed}, {count} steps"));
            drop(sink);
            sink = open(&address);
        }
    }
    assert!(!model.late.is_empty() && model.corrected > 5);
    true
}

#[tokio::test(flavor = "multi_thread")]
async fn what_counts_where_is_right_over_closes_late_points_and_adjustments() {
    let server = Server::start();
    for seed in 1..4 {
        let lite = || Database::Lite(tempfile::tempdir().unwrap());
        while !tried(&lite(), seed).await {}
        let Some(server) = &server else { continue };
        let database = Database::Postgres(server, "postgres");
        server.ask("drop schema if exists totxegun cascade");
        while !tried(&database, seed).await {
            server.ask("drop schema if exists totxegun cascade");
        }
    }
}

/// If its wait for a standby is cancelled, a close can be read. Yet it would be lost with this server, after the bill.
#[tokio::test(flavor = "multi_thread")]
async fn what_no_standby_has_is_not_closed() {
    let Some(server) = Server::start() else { return };
    let sink = open(&server.by_socket("postgres"));
    // The first round of the upkeep writes too.
    tokio::time::sleep(Duration::from_secs(3)).await;
    let standbys = |what: &str| {
        server.ask(&format!("alter system {what}"));
        server.ask("select pg_reload_conf()");
        std::thread::sleep(Duration::from_secs(1));
    };
    let waiting = "from pg_stat_activity where wait_event = 'SyncRep'";
    for (hour, cut) in [(100, "pg_terminate_backend"), (101, "pg_cancel_backend")] {
        standbys("set synchronous_standby_names = 'nobody'");
        let deed = PeriodAction::Close(period(hour, 1));
        let (to, first) = (sink.clone(), deed.clone());
        let closing = tokio::spawn(async move { to.apply("alice", &first).await });
        while server.ask(&format!("select count(*) {waiting}")) == "0" {
            tokio::time::sleep(Duration::from_millis(20)).await;
        }
        server.ask(&format!("select {cut}(pid) {waiting}"));
        let told = closing.await.unwrap();
        assert!(matches!(told, PeriodOutcome::Later(_)), "{cut}: {told:?}");
        let closed = format!("select count(*) from totxegun.closed_periods where from_hour = {hour}");
        assert_eq!(server.ask(&closed), "1", "it can be read");
        let soon = tokio::time::timeout(Duration::from_secs(3), sink.apply("alice", &deed)).await;
        assert!(soon.is_err(), "{cut}: {soon:?}");
        standbys("reset synchronous_standby_names");
        let told = done(&*sink, deed).await;
        assert!(told.contains("was closed before"), "{told}");
    }
}

#[tokio::test(flavor = "multi_thread")]
async fn what_can_t_be_done_is_named_and_changes_nothing() {
    let server = Server::start();
    for database in both(&server) {
        let sink = open(&database.address());
        let (now, old) = (now(), 100);
        taken(&*sink, 1, sum("a", old * HOUR, old * HOUR + 1, 5)).await;
        not_done(&*sink, PeriodAction::Close(period(now + 1, 1)), "has not ended").await;
        let told = done(&*sink, PeriodAction::Open(period(old, 1))).await;
        assert!(told.ends_with("was open"), "{told}");
        for _ in 0..2 {
            let told = done(&*sink, PeriodAction::Close(period(96, 24))).await;
            assert!(told.contains("1970-01-05"), "{told}");
        }
        not_done(&*sink, PeriodAction::Open(period(old, 1)), "1970-01-05, closed by alice").await;
        let adjustment = |series, hour, value, reason: &str| {
            PeriodAction::Adjust(by_hand(Which::Number(series), hour, value, reason))
        };
        not_done(&*sink, adjustment(1, now + 1, 1, "x"), "has not begun").await;
        not_done(&*sink, adjustment(2, old, 1, "x"), "the sink has nothing of series 2 yet").await;
        done(&*sink, adjustment(1, old, i64::MAX / 2, "x")).await;
        not_done(&*sink, adjustment(1, old, i64::MIN, "y"), "may come to").await;
        let told = done(&*sink, adjustment(1, old, i64::MAX / 2, "x")).await;
        assert!(told.contains("is there already, by alice"), "{told}");
        assert_eq!(database.ask("select count(*) from t.adjustments"), "1");
        let half = i64::MAX / 2;
        assert_eq!(
            database.ask("select total, adjustments, total_adjusted from t.totals"),
            format!("5|{half}|{}", half + 5)
        );
    }
    let otlp = open("http://127.0.0.1:1/v1/metrics");
    not_done(
        &*otlp,
        PeriodAction::Close(period(1, 1)),
        "otlp http://127.0.0.1:1/v1/metrics keeps no periods",
    )
    .await;
}

/// Otherwise an adjustment would be confirmed and be on no bill.
#[tokio::test(flavor = "multi_thread")]
async fn an_hour_that_is_deleted_is_adjusted_only_while_it_is_closed() {
    let Some(server) = Server::start() else { return };
    let address = server.by_socket("postgres");
    let before = open(&address);
    let hour = now() - 72;
    taken(&*before, 1, sum("a", hour * HOUR, hour * HOUR + 9, 1)).await;
    done(&*before, PeriodAction::Close(period(hour, 1))).await;
    taken(&*before, 2, sum("a", hour * HOUR + 9, hour * HOUR + 19, 2)).await;
    done(&*before, PeriodAction::Open(period(hour, 1))).await;
    taken(&*before, 3, sum("b", now() * HOUR - 1, now() * HOUR, 0)).await;
    drop(before);
    let two_days = Some(Duration::from_secs(2 * 86_400));
    let sink = open_with(&address, Retention { hours: two_days, ..Retention::default() });
    let of_all = "select sum(total), sum(adjustments) from totxegun.by_hour";
    until(&server, of_all, "2|0").await;
    let adjust = || PeriodAction::Adjust(by_hand(Which::Number(1), hour, -1, "by hand"));
    not_done(&*sink, adjust(), "were deleted (--keep-hours)").await;
    assert_eq!(server.ask(of_all), "2|0");
    // A closed hour is adjusted in the hour in which it counts.
    done(&*sink, PeriodAction::Close(period(hour, 1))).await;
    done(&*sink, adjust()).await;
    assert_eq!(server.ask(of_all), "2|-1");
}

/// As after a clock was ahead once: late points then count in an hour long after all intervals.
#[tokio::test(flavor = "multi_thread")]
async fn what_came_late_is_no_reason_to_leave_out_what_comes() {
    let Some(server) = Server::start() else { return };
    let address = server.by_socket("postgres");
    let before = open(&address);
    let hour = now() - 72;
    taken(&*before, 1, sum("a", hour * HOUR, hour * HOUR + 9, 1)).await;
    done(&*before, PeriodAction::Close(period(hour, 1))).await;
    taken(&*before, 2, sum("a", hour * HOUR + 9, hour * HOUR + 19, 2)).await;
    drop(before);
    let two_days = Some(Duration::from_secs(2 * 86_400));
    let _sink = open_with(&address, Retention { hours: two_days, ..Retention::default() });
    until(&server, "select hours_from from totxegun.horizon", &hour.to_string()).await;
}

/// Deliveries that were answered before a close are in the period, and those that begin after it are late.
#[tokio::test(flavor = "multi_thread")]
async fn a_close_comes_between_two_deliveries() {
    let Some(server) = Server::start() else { return };
    let address = server.by_socket("postgres");
    let hour = now() - 5;
    let of_hour = |what: &str| {
        server.ask(&format!("select coalesce(sum(total), 0) from totxegun.{what} where hour = {hour}"))
    };
    let stop = Arc::new(std::sync::atomic::AtomicBool::new(false));
    let services: Vec<_> = (0..3u64)
        .map(|service| {
            let (sink, stop) = (open(&address), stop.clone());
            tokio::spawn(async move {
                let mut count = 0;
                while !stop.load(std::sync::atomic::Ordering::Relaxed) {
                    let start = hour * HOUR + (count * 3 + service) * 1000;
                    let name = format!("n{service}{}", count % 7);
                    let mut one = request(count, sum(&name, start, start + 1000, 1));
                    one.shard = service as u16;
                    assert_eq!(sink.deliver(&one).await, DeliveryOutcome::Taken);
                    count += 1;
                }
                count
            })
        })
        .collect();
    let sink = open(&address);
    tokio::time::sleep(std::time::Duration::from_millis(700)).await;
    done(&*sink, PeriodAction::Close(period(hour, 1))).await;
    let closed = of_hour("hours");
    tokio::time::sleep(std::time::Duration::from_millis(700)).await;
    stop.store(true, std::sync::atomic::Ordering::Relaxed);
    let mut all = 0;
    for service in services {
        all += service.await.unwrap();
    }
    assert_eq!(of_hour("hours"), closed);
    let late = server.ask("select coalesce(sum(total), 0) from totxegun.late");
    assert_eq!(
        closed.parse::<u64>().unwrap() + late.parse::<u64>().unwrap(),
        all,
        "{closed} in time, {late} late"
    );
    assert_ne!((closed.as_str(), late.as_str()), ("0", "0"));
}

/// Whichever connection is cut, a deed is there wholly or not at all, and a repeat has the same result.
#[tokio::test(flavor = "multi_thread")]
async fn deeds_and_late_points_over_cut_connections() {
    let Some(server) = Server::start() else { return };
    let address = server.by_socket("postgres");
    let sink = open(&address);
    let hour = now() - 30;
    taken(&*sink, 0, sum("a", hour * HOUR, hour * HOUR + 1, 1)).await;
    let cut = "select pg_terminate_backend(pid) from pg_stat_activity where application_name = 'totxegun'";
    let mut number = 0;
    for round in 0..12u64 {
        let deed = match round % 3 {
            0 => PeriodAction::Close(period(hour, 1)),
            1 => PeriodAction::Adjust(by_hand(Which::Number(1), hour, 1, &format!("{round}"))),
            _ => PeriodAction::Open(period(hour, 1)),
        };
        let mut tries = 0;
        loop {
            tries += 1;
            if tries < 4 {
                let wait = std::time::Duration::from_millis(3 * tries + round);
                let (told, ()) = tokio::join!(sink.apply("alice", &deed), async {
                    tokio::time::sleep(wait).await;
                    server.ask(cut);
                });
                if !matches!(told, PeriodOutcome::Done(_) | PeriodOutcome::Later(_)) {
                    panic!("{told:?}");
                }
            } else if matches!(sink.apply("alice", &deed).await, PeriodOutcome::Done(_)) {
                break;
            }
        }
        number += 1;
        let start = hour * HOUR + number * 10;
        let one = request(number, sum("a", start, start + 10, 100));
        while sink.deliver(&one).await != DeliveryOutcome::Taken {}
    }
    // Four adjustments of 1, and twelve intervals of 100, eight of which came while the hour was closed.
    let found = "select sum(total), sum(adjustments), sum(total_adjusted) from totxegun.";
    assert_eq!(server.ask(&format!("{found}totals")), "1201|4|1205");
    assert_eq!(server.ask(&format!("{found}by_hour")), "1201|4|1205");
    assert_eq!(server.ask(&format!("{found}by_month")), "1201|4|1205");
    assert_eq!(server.ask(&format!("{found}late")), "800|4|804");
}
