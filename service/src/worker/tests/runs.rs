//! Cumulative points over checkpoints, kills, quarantines and forgotten series: the outbox gets what a plain count of
//! the same posts gives.

use super::cumulative::{copy, killed, point, rejected, text, Plain, Point, Program, BEGIN};
use super::*;
use crate::book::Refused;
use crate::otlp::Outcome;
use crate::runs::{InitialValue, Options, Reset};
use crate::storage::test_random::TestRandom;
use std::collections::BTreeMap;

#[tokio::test(flavor = "multi_thread")]
async fn runs_over_kills_and_quarantines_come_to_the_sum_of_their_last_values() {
    let options = Options { initial_value: InitialValue::Keep, reset: Reset::Refuse };
    for seed in 1..=4 {
        let place = tempfile::tempdir().unwrap();
        let (mut chance, mut now, mut kills) = (TestRandom(seed), BEGIN + 10, 0);
        let mut run = Run::begin_runs(&place.path().join("data0"), options).await;
        let (mut plain, mut sums) = (Plain::default(), BTreeMap::<String, (i128, i128)>::new());
        let mut programs = ["A", "B"].map(Program::new);
        programs.iter_mut().for_each(|program| program.overlap = 60);
        let mut quarantined = false;
        for _ in 0..150 {
            now += 1 + chance.below(20);
            match chance.below(12) {
                0 => drop(run.flush().await),
                1 => {
                    run = killed(run, place.path(), kills, options).await;
                    kills += 1;
                }
                2 => {
                    let order = if quarantined { Order::Lift } else { Order::Quarantine };
                    let done = run.orders.send(order("B".into())).await;
                    assert_eq!(done, Some(Done::Answered(Outcome::taken(0))));
                    quarantined = !quarantined;
                }
                3 => {
                    for (name, sum) in run.forwarded().await {
                        let known = sums.entry(name).or_default();
                        *known = (known.0 + sum.0, known.1 + sum.1);
                    }
                }
                _ => {
                    let program = &mut programs[chance.below(2) as usize];
                    let Some(points) = program.next(now, &mut chance) else {
                        continue;
                    };
                    let outcome = run.cumulative(program.sender, &points).await;
                    match outcome {
                        Outcome::Refused(_) if outcome.status() == 403 => assert!(quarantined),
                        Outcome::Taken { .. } => points.iter().for_each(|point| plain.take(point)),
                        other => panic!("{other:?}"),
                    }
                }
            }
        }
        if quarantined {
            run.orders.send(Order::Lift("B".into())).await;
        }
        run.flush().await;
        for (name, sum) in run.forwarded().await {
            let known = sums.entry(name).or_default();
            *known = (known.0 + sum.0, known.1 + sum.1);
        }
        assert_eq!(sums, plain.sums(), "seed {seed}");
        assert!(kills > 3 && sums.len() == 6, "{kills} kills");
        for kind in ["replay", "owner"] {
            assert_eq!(run.shard.metrics.faults.with_label_values(&[kind]).get(), 0, "{kind}");
        }
        run.end().await;
    }
}

/// Some of the cumulative points are lost, and some come twice.
#[tokio::test(flavor = "multi_thread")]
async fn the_same_counts_in_delta_and_cumulative_come_to_the_same() {
    let (place, options) = (tempfile::tempdir().unwrap(), Options::default());
    let mut run = Run::begin_runs(&place.path().join("data0"), options).await;
    let (mut chance, mut start, mut now, mut kills) = (TestRandom(7), BEGIN, BEGIN, 0);
    let mut come_to = [(0, 0); 3];
    for step in 0..150 {
        let before = now;
        now += 1 + chance.below(20);
        let (mut deltas, mut all) = (Vec::new(), Vec::new());
        for (kind, sums) in ["m", "u", "h"].into_iter().zip(&mut come_to) {
            let value = chance.below(9) as i64 - if kind == "u" { 4 } else { 0 };
            let more = value + chance.below(5) as i64;
            *sums = (sums.0 + value, sums.1 + more);
            let point = |name: &str, start, value, all| Point {
                name: format!("{kind}-{name}"),
                start,
                time: now,
                value,
                all,
            };
            deltas.push(point("delta", before, value, more));
            all.push(point("cumulative", start, sums.0, sums.1));
        }
        let taken = run.shard.post("A".into(), text(&deltas, 1).into()).await;
        assert_eq!(taken, Outcome::taken(0));
        let times = if step == 149 { 1 } else { chance.below(3) };
        for _ in 0..times {
            assert_eq!(run.cumulative("A", &all).await, Outcome::taken(0));
        }
        // The last point of a run comes before the run ends.
        if chance.below(15) == 0 && times > 0 {
            (start, come_to) = (now, [(0, 0); 3]);
        }
        match chance.below(10) {
            0 => drop(run.flush().await),
            1 => {
                run = killed(run, place.path(), kills, options).await;
                kills += 1;
            }
            _ => {}
        }
    }
    run.flush().await;
    let sums = run.forwarded().await;
    for kind in ["m", "u", "h"] {
        let [delta, cumulative] = ["delta", "cumulative"].map(|name| sums[&format!("{kind}-{name}")]);
        assert_eq!(delta, cumulative, "{kind}");
    }
    assert!(kills > 3, "{kills} kills");
    run.end().await;
}

/// A run that continues after its series was forgotten has not begun anew.
#[tokio::test(flavor = "multi_thread")]
async fn a_run_whose_series_was_forgotten_counts_from_there_on() {
    let place = tempfile::tempdir().unwrap();
    let run = Run::begin_runs(&place.path().join("data"), Options::default()).await;
    assert_eq!(run.cumulative("A", &[point("m", BEGIN, BEGIN + 10, 5)]).await, Outcome::taken(0));
    run.flush().await;
    assert_eq!(run.shard.outbox.series_count(), 1);
    run.shard.outbox.remove_series(&run.keys()).unwrap();
    run.end().await;
    let run = Run::begin_runs(&place.path().join("data"), Options::default()).await;
    run.forwarded().await;
    // It is late, since it was counted.
    let late = run.cumulative("A", &[point("m", BEGIN, BEGIN + 9, 4)]).await;
    let why = "1 cumulative point from before series were forgotten".to_string();
    assert_eq!(rejected(&late), (1, why));
    assert_eq!(run.cumulative("A", &[point("m", BEGIN, BEGIN + 20, 9)]).await, Outcome::taken(0));
    assert_eq!(run.shard.metrics.noted_runs.get(), 1);
    assert_eq!(run.cumulative("A", &[point("m", BEGIN, BEGIN + 30, 11)]).await, Outcome::taken(0));
    // Other series of that time were not forgotten.
    let others = [point("n", BEGIN + 9, BEGIN + 30, 4), point("o", BEGIN + 10, BEGIN + 30, 3)];
    assert_eq!(run.cumulative("A", &others).await, Outcome::taken(0));
    assert_eq!(run.shard.metrics.noted_runs.get(), 1);
    run.flush().await;
    let sums = run.forwarded().await;
    assert_eq!((sums["m"].0, sums["n"].0, sums["o"].0), (2, 4, 3));
    run.end().await;
}

/// Everything else of a post with refused points is taken, and another sender's series stays its own.
#[tokio::test(flavor = "multi_thread")]
async fn what_is_refused_has_its_name() {
    let place = tempfile::tempdir().unwrap();
    let run = Run::begin_runs(&place.path().join("data"), Options::default()).await;
    let old = point("m", 10, BEGIN, 5);
    assert_eq!(
        run.cumulative("A", &[old.clone(), point("m2", BEGIN, BEGIN + 1, 3)]).await,
        Outcome::taken(0)
    );
    assert_eq!(run.shard.metrics.noted_runs.get(), 1);
    // The same point again adds nothing; a point of another sender is refused.
    assert_eq!(run.cumulative("A", std::slice::from_ref(&old)).await, Outcome::taken(0));
    let other = run.cumulative("B", &[point("m", 10, BEGIN + 5, 7)]).await;
    assert_eq!(other, Refused::OtherWriter { point: 0 }.into());
    let down = [point("m", 10, BEGIN + 5, 7), point("m2", BEGIN, BEGIN + 5, 1)];
    let said = rejected(&run.cumulative("A", &down).await);
    assert_eq!(said, (1, "1 cumulative point that went down".into()));
    let earlier = [point("m", 11, BEGIN + 6, 8)];
    let said = rejected(&run.cumulative("A", &earlier).await);
    assert_eq!(said, (1, "1 point of a run that began before the last point of another".into()));
    run.flush().await;
    // A point of another sender's series that is no later than the run is no repeat: it is named, even if another point
    // was left out.
    let other = [point("m3", BEGIN, BEGIN + 1, 1), point("m", 10, BEGIN, 5)];
    let outcome = run.cumulative("B", &other).await;
    let Outcome::Taken { rejected: 1, parts, .. } = &outcome else { panic!("{outcome:?}") };
    assert!(
        parts[0].1.message.starts_with("other writer: point 1: `m` {} is another sender's"),
        "{outcome:?}"
    );
    run.flush().await;
    let sums = run.forwarded().await;
    assert_eq!((sums["m"].0, sums["m2"].0, sums["m3"].0), (2, 3, 1));
    run.end().await;
}

/// For many series with unflushed delta points, each point is refused by name, and the others of the post are taken.
#[tokio::test(flavor = "multi_thread")]
async fn a_post_learns_at_once_where_all_of_its_series_end() {
    let place = tempfile::tempdir().unwrap();
    let run = Run::begin_runs(&place.path().join("data"), Options::default()).await;
    let points = |names: std::ops::Range<u64>, start, time| -> Vec<Point> {
        names.map(|name| point(&format!("m{name}"), start, time, 1)).collect()
    };
    let deltas = text(&points(0..600, BEGIN, BEGIN + 20), 1);
    assert_eq!(run.shard.post("A".into(), deltas.into()).await, Outcome::taken(0));
    let said = rejected(&run.cumulative("A", &points(0..700, BEGIN + 10, BEGIN + 30)).await);
    assert_eq!(said, (600, "600 cumulative points of series with delta points".into()));
    run.flush().await;
    let sums = run.forwarded().await;
    assert!(sums.len() == 700 && sums.values().all(|sum| sum.0 == 1), "{sums:?}");
    run.end().await;
}

/// A request with both kinds of points.
fn mixed(deltas: &[Point], all: &[Point]) -> String {
    let [deltas, all] = [text(deltas, 1), text(all, 2)];
    let resource = all.strip_prefix(r#"{"resourceMetrics":["#).unwrap();
    format!("{},{resource}", deltas.strip_suffix("]}").unwrap())
}

impl Run {
    async fn mixed(&self, sender: &str, deltas: &[Point], all: &[Point]) -> Outcome {
        let by = self.shard.numbered_text(&mixed(deltas, all).into()).unwrap().unwrap();
        self.shard.request(sender.into(), by.into()).await
    }
}

/// Otherwise a post with delta and cumulative points of many series would be tried once for each series.
#[tokio::test(flavor = "multi_thread")]
async fn a_post_is_tried_once_whatever_delta_points_are_ahead_of_its_cumulative_ones() {
    const SERIES: u64 = 60;
    let place = tempfile::tempdir().unwrap();
    let run = Run::begin_runs(&place.path().join("data"), Options::default()).await;
    let points = |start, time| -> Vec<Point> {
        (0..SERIES).map(|name| point(&format!("m{name}"), start, time, 1)).collect()
    };
    let (deltas, all) = (points(BEGIN, BEGIN + 20), points(BEGIN, BEGIN + 30));
    let before = run.shard.shared_book.lock().came();
    let said = rejected(&run.mixed("A", &deltas, &all).await);
    assert_eq!(said, (SERIES, format!("{SERIES} cumulative points of series with delta points")));
    let tries = run.shard.shared_book.lock().came() - before;
    assert!(tries < 2 * SERIES, "{tries} tries");
    run.flush().await;
    let sums = run.forwarded().await;
    assert!(sums.len() == SERIES as usize && sums.values().all(|sum| sum.0 == 1), "{sums:?}");
    run.end().await;
}

/// A late, a duplicate and a foreign-owned delta point are treated as in any other post, even beside cumulative points.
#[tokio::test(flavor = "multi_thread")]
async fn delta_points_beside_cumulative_ones_are_refused_alone_and_repeated() {
    let place = tempfile::tempdir().unwrap();
    let run = Run::begin_runs(&place.path().join("data"), Options::default()).await;
    let theirs = text(&[point("b", BEGIN, BEGIN + 10, 1)], 1);
    assert_eq!(run.shard.post("B".into(), theirs.into()).await, Outcome::taken(0));
    let deltas = [point("d", BEGIN, BEGIN + 10, 2), point("e", BEGIN, BEGIN + 10, 3)];
    let all = [point("m", BEGIN, BEGIN + 10, 5)];
    for _ in 0..2 {
        assert_eq!(run.mixed("A", &deltas, &all).await, Outcome::taken(0), "also a repeat");
    }
    let deltas = [
        point("d", BEGIN, BEGIN + 10, 2), // a duplicate
        point("b", BEGIN + 10, BEGIN + 20, 4),
        point("e", BEGIN + 1, BEGIN + 10, 7),
        point("f", BEGIN, BEGIN + 10, 8),
    ];
    let all = [point("m", BEGIN, BEGIN + 20, 6), point("b2", BEGIN, BEGIN + 10, 9)];
    let outcome = run.mixed("A", &deltas, &all).await;
    let Outcome::Taken { rejected: 2, parts, .. } = &outcome else { panic!("{outcome:?}") };
    let begins =
        ["other writer: point 1: `b` {} is another sender's", "duplicate or late: point 2, frontier "];
    assert_eq!(parts.len(), 2, "{outcome:?}");
    for begin in begins {
        assert!(
            parts.iter().any(|(points, why)| *points == 1 && why.message.starts_with(begin)),
            "{outcome:?}"
        );
    }
    run.flush().await;
    let sums = run.forwarded().await;
    let sum = |name: &str| sums[name].0;
    assert_eq!(["b", "d", "e", "f", "m", "b2"].map(sum), [1, 2, 3, 8, 6, 9]);
    // No point of it is taken.
    let late = [point("e", BEGIN + 1, BEGIN + 10, 7)];
    let outcome = run.mixed("A", &late, &[point("b", BEGIN, BEGIN + 30, 4)]).await;
    assert_eq!(outcome.status(), 400, "{outcome:?}");
    run.end().await;
}

/// Delta points that were refused with their post end no run.
#[tokio::test(flavor = "multi_thread")]
async fn a_run_goes_on_behind_a_refused_post_with_delta_points_of_its_series() {
    let place = tempfile::tempdir().unwrap();
    let run = Run::begin_runs(&place.path().join("data"), Options::default()).await;
    assert_eq!(run.cumulative("B", &[point("m2", BEGIN, BEGIN + 10, 1)]).await, Outcome::taken(0));
    assert_eq!(run.cumulative("A", &[point("m", BEGIN, BEGIN + 10, 5)]).await, Outcome::taken(0));
    let large = [point("x", BEGIN, BEGIN + 1, i64::MAX), point("x", BEGIN + 1, BEGIN + 2, 5)];
    let deltas = [&[point("m", BEGIN + 10, BEGIN + 20, 2)][..], &large].concat();
    let all = [point("m", BEGIN, BEGIN + 30, 9)];
    assert_eq!(run.mixed("A", &deltas, &all).await.status(), 413);
    assert_eq!(run.cumulative("A", &[point("m", BEGIN, BEGIN + 30, 9)]).await, Outcome::taken(0));
    run.flush().await;
    let sums = run.forwarded().await;
    assert_eq!((sums["m"].0, sums["m2"].0), (9, 1));
    run.end().await;
}

/// Delta points that begin where a run has come to are taken, and then the run's points are not: no span counts twice.
#[tokio::test(flavor = "multi_thread")]
async fn delta_and_cumulative_points_of_a_series_never_count_one_span_twice() {
    let place = tempfile::tempdir().unwrap();
    let path = place.path().join("data");
    let mut run = Run::begin_runs(&path, Options::default()).await;
    let delta = |name: &str, start, end, value| text(&[point(name, start, end, value)], 1);
    let mixed = "1 cumulative point of a series with delta points".to_string();
    for (name, flushes) in [("m", false), ("n", true)] {
        assert_eq!(run.cumulative("A", &[point(name, BEGIN, BEGIN + 10, 5)]).await, Outcome::taken(0));
        let body = delta(name, BEGIN + 10, BEGIN + 20, 2);
        assert_eq!(run.shard.post("A".into(), body.into()).await, Outcome::taken(0));
        if flushes {
            run.end().await;
            run = Run::begin_runs(&path, Options::default()).await;
        }
        let beside = format!("m-{name}");
        let points = [point(&beside, BEGIN, BEGIN + 20, 4), point(name, BEGIN, BEGIN + 20, 7)];
        assert_eq!(rejected(&run.cumulative("A", &points).await), (1, mixed.clone()));
        // A run that began after them is another run.
        let anew = [point(name, BEGIN + 20, BEGIN + 30, 1)];
        assert_eq!(run.cumulative("A", &anew).await, Outcome::taken(0));
    }
    // A series that had only delta points.
    let body = delta("d", BEGIN, BEGIN + 10, 5);
    assert_eq!(run.shard.post("A".into(), body.into()).await, Outcome::taken(0));
    let all = [point("d", BEGIN, BEGIN + 20, 7)];
    assert_eq!(rejected(&run.cumulative("A", &all).await), (1, mixed.clone()));
    run.flush().await;
    assert_eq!(rejected(&run.cumulative("A", &all).await), (1, mixed));
    assert_eq!(run.cumulative("A", &[point("d", BEGIN + 10, BEGIN + 30, 3)]).await, Outcome::taken(0));
    run.flush().await;
    let sums = run.forwarded().await;
    let sum = |name: &str| sums[name].0;
    assert_eq!(["m", "n", "d", "m-m", "m-n"].map(sum), [8, 8, 8, 4, 4]);
    run.end().await;
}

/// Wherever a kill has cut the journal: a start has the posts before the cut, and posts that are sent again are added
/// once.
#[tokio::test(flavor = "multi_thread")]
async fn a_journal_that_is_cut_anywhere_goes_on_with_what_is_posted_again() {
    const HEADER: usize = 64; // and the durable watermark before it
    let place = tempfile::tempdir().unwrap();
    let path = place.path().join("data0");
    let options = Options { initial_value: InitialValue::Keep, reset: Reset::Refuse };
    let run = Run::begin_runs(&path, options).await;
    let (mut chance, mut plain, mut program) = (TestRandom(7), Plain::default(), Program::new("A"));
    let mut posts = Vec::new();
    while posts.len() < 12 {
        posts.extend(program.next(BEGIN + 100 * (1 + posts.len() as u64), &mut chance));
    }
    for points in &posts {
        assert_eq!(run.cumulative("A", points).await, Outcome::taken(0));
        points.iter().for_each(|point| plain.take(point));
    }
    let name = "shard-0/journal/000000000001.seg";
    let whole = std::fs::read(path.join(name)).unwrap();
    for end in (HEADER..whole.len()).step_by(97) {
        let cut = place.path().join(format!("cut{end}"));
        copy(&path, &cut);
        std::fs::write(cut.join(name), &whole[..end]).unwrap();
        let run = Run::begin_runs(&cut, options).await;
        for points in &posts {
            assert_eq!(run.cumulative("A", points).await, Outcome::taken(0), "cut at {end}");
        }
        run.flush().await;
        assert_eq!(run.forwarded().await, plain.sums(), "cut at {end}");
        run.end().await;
    }
    run.end().await;
}
