//! An operator rewinds the ends of series, or has series forgotten.

use super::cumulative::{copy, text, Point, BEGIN};
use super::*;
use crate::otlp::series::SeriesKey;
use crate::otlp::Outcome;
use crate::runs::Options;
use std::sync::atomic::AtomicUsize;

impl Run {
    pub(super) fn keys(&self) -> Vec<SeriesKey> {
        self.shard.outbox.series().into_keys().collect()
    }

    async fn amend(&self, amend: Amend) -> Result<(), SeriesKey> {
        match self.orders.send(Order::Amend(amend)).await {
            Some(Done::Amended(done)) => done,
            other => panic!("{other:?}"),
        }
    }
}

pub(super) async fn begin(path: &Path) -> Run {
    Run::begin_in(Folder::open(path, Durability::Process).unwrap(), settings()).await
}

pub(super) fn refusal(outcome: Outcome) -> String {
    outcome.refusal().unwrap_or_default().to_string()
}

#[tokio::test(flavor = "multi_thread")]
async fn a_series_that_is_put_back_goes_on_from_there() {
    let place = tempfile::tempdir().unwrap();
    let run = begin(&place.path().join("data")).await;
    for number in [5, 1_000] {
        assert_eq!(run.post(number).await, Outcome::taken(0));
        run.flush().await;
    }
    assert_eq!(refusal(run.post(20).await), "duplicate or late: point 0, frontier 1001");
    let series = run.keys();
    assert_eq!(run.amend(Amend::PutBack { series: series.clone(), to: 10 }).await, Ok(()));
    assert_eq!(refusal(run.post(5).await), "duplicate or late: point 0, frontier 10");
    assert_eq!(run.post(20).await, Outcome::taken(0));
    assert_eq!(refusal(run.shard.post("B".into(), point("a", 30).into()).await), "other writer: point 0");
    // It never moves the end forward.
    assert_eq!(run.amend(Amend::PutBack { series, to: 900 }).await, Ok(()));
    assert_eq!(run.shard.outbox.series().into_values().next().unwrap().frontier, 21);
    assert_eq!(run.post(21).await, Outcome::taken(0));
    run.flush().await;
    assert_eq!(run.forwarded().await["a"], (4, 0));
    run.end().await;
    let run = begin(&place.path().join("data")).await;
    assert_eq!(run.post(21).await, Outcome::taken(0), "a repeat");
    assert_eq!(run.post(20).await, Outcome::taken(0), "a repeat of the one before");
    assert_eq!(
        refusal(run.post(5).await),
        "duplicate or late: point 0, frontier 22",
        "its end was put back since"
    );
    assert_eq!(run.post(22).await, Outcome::taken(0));
    run.end().await;
}

#[tokio::test(flavor = "multi_thread")]
async fn a_series_that_is_forgotten_is_whose_it_is_posted_by_next() {
    let place = tempfile::tempdir().unwrap();
    let run = begin(&place.path().join("data")).await;
    assert_eq!(run.post(5).await, Outcome::taken(0));
    run.flush().await;
    assert_eq!(run.amend(Amend::Forget(run.keys())).await, Ok(()));
    assert_eq!(run.shard.outbox.series_count(), 0);
    let by_b = |number| run.shard.post("B".into(), point("a", number).into());
    assert_eq!(by_b(7).await, Outcome::taken(0));
    assert_eq!(refusal(run.post(9).await), "other writer: point 0");
    run.flush().await;
    assert_eq!(run.forwarded().await["a"], (2, 0));
    run.end().await;
}

/// Its points are put in again at each start, and so is its end.
#[tokio::test(flavor = "multi_thread")]
async fn a_series_with_points_that_are_kept_back_is_left_as_it_was() {
    let place = tempfile::tempdir().unwrap();
    let run = begin(&place.path().join("data")).await;
    assert_eq!(run.post(5).await, Outcome::taken(0));
    run.flush().await;
    assert_eq!(run.post(1_000).await, Outcome::taken(0));
    let order = |order| run.orders.send(order);
    order(Order::Quarantine("A".into())).await;
    let series = run.keys();
    let put_back = Amend::PutBack { series: series.clone(), to: 3 };
    for amend in [put_back.clone(), Amend::Forget(series.clone())] {
        assert_eq!(run.amend(amend).await, Err(series[0].clone()));
    }
    assert_eq!(run.shard.outbox.series()[&series[0]].frontier, 6);
    order(Order::Lift("A".into())).await;
    assert_eq!(run.amend(put_back).await, Ok(()));
    assert_eq!(run.post(4).await, Outcome::taken(0));
    run.flush().await;
    assert_eq!(run.forwarded().await["a"], (3, 0));
    run.end().await;
}

fn cumulative(start: u64, time: u64, value: i64) -> Point {
    Point { name: "m".into(), start: BEGIN + start, time: BEGIN + time, value, all: 0 }
}

/// What the run has come to stays known, so nothing of it is lost or counted again.
#[tokio::test(flavor = "multi_thread")]
async fn the_run_of_a_series_that_is_put_back_goes_on() {
    let place = tempfile::tempdir().unwrap();
    let path = place.path().join("data");
    let mut run = Run::begin_runs(&path, Options::default()).await;
    for (time, value) in [(10, 5), (1_000_000, 7)] {
        assert_eq!(run.cumulative("A", &[cumulative(0, time, value)]).await, Outcome::taken(0));
    }
    run.flush().await;
    let series = run.keys();
    assert_eq!(run.amend(Amend::PutBack { series, to: BEGIN + 20 }).await, Ok(()));
    for (start, time, value) in [(0, 10, 5), (0, 30, 9), (40, 50, 3), (40, 60, 4)] {
        assert_eq!(run.cumulative("A", &[cumulative(start, time, value)]).await, Outcome::taken(0));
        run.end().await;
        run = Run::begin_runs(&path, Options::default()).await;
    }
    assert_eq!(run.forwarded().await["m"], (13, 0));
    run.end().await;
}

/// A run that is older than what was counted by deltas counts from here on, after that was forgotten.
#[tokio::test(flavor = "multi_thread")]
async fn a_series_goes_from_delta_to_cumulative_once_it_is_forgotten() {
    let place = tempfile::tempdir().unwrap();
    let run = Run::begin_runs(&place.path().join("data"), Options::default()).await;
    let delta = text(&[cumulative(10, 20, 5)], 1);
    assert_eq!(run.shard.post("A".into(), delta.into()).await, Outcome::taken(0));
    run.flush().await;
    let left_out = run.cumulative("A", &[cumulative(0, 30, 8)]).await;
    assert!(matches!(left_out, Outcome::Taken { rejected: 1, .. }), "{left_out:?}");
    assert_eq!(run.amend(Amend::Forget(run.keys())).await, Ok(()));
    for (time, value) in [(40, 9), (50, 11)] {
        assert_eq!(run.cumulative("A", &[cumulative(0, time, value)]).await, Outcome::taken(0));
    }
    run.flush().await;
    assert_eq!(run.forwarded().await["m"], (7, 0));
    run.end().await;
}

/// Copies of the folder from before each call of the disk, with how many posts had been answered, and whether the order
/// had.
#[derive(Default)]
pub(super) struct Kills {
    pub at: Mutex<Vec<(usize, bool)>>,
    pub are_made: AtomicBool,
    pub posts: AtomicUsize,
    pub is_answered: AtomicBool,
}

impl Kills {
    pub fn make(&self, data: &Path) {
        if !self.are_made.load(SeqCst) {
            return;
        }
        let mut at = self.at.lock().unwrap();
        let known = (self.posts.load(SeqCst), self.is_answered.load(SeqCst));
        copy(data, &data.with_file_name(format!("kill{}", at.len())));
        at.push(known);
    }
}

#[tokio::test(flavor = "multi_thread")]
async fn an_order_is_carried_out_or_not_over_kills_and_no_point_is_lost() {
    let place = tempfile::tempdir().unwrap();
    let (data, kills) = (place.path().join("data"), Arc::new(Kills::default()));
    let (making, of) = (kills.clone(), data.clone());
    let disk = Disk::failing(move |_, _| {
        making.make(&of);
        Ok(())
    });
    let run = Run::begin_in(Folder::open_on(disk, &data, Durability::Process).unwrap(), settings()).await;
    assert_eq!(run.post(1_000).await, Outcome::taken(0));
    run.flush().await;
    kills.are_made.store(true, SeqCst);
    assert_eq!(run.amend(Amend::PutBack { series: run.keys(), to: 10 }).await, Ok(()));
    kills.is_answered.store(true, SeqCst);
    for number in [20, 21] {
        assert_eq!(run.post(number).await, Outcome::taken(0));
        kills.posts.fetch_add(1, SeqCst);
        run.flush().await;
    }
    kills.are_made.store(false, SeqCst);
    run.end().await;
    let kills = kills.at.lock().unwrap().clone();
    assert!(kills.len() > 10, "{kills:?}");
    for (number, (posts, is_answered)) in kills.into_iter().enumerate() {
        let run = begin(&place.path().join(format!("kill{number}"))).await;
        let more = i128::from(run.post(100).await == Outcome::taken(0));
        assert!(more == 1 || !is_answered, "kill {number}");
        run.flush().await;
        let (sum, _) = run.forwarded().await["a"];
        let least = 1 + posts as i128 + more;
        assert!(sum == least || sum == least + 1, "kill {number}: {sum} of {least}");
        let faults = run.shard.metrics.faults.with_label_values(&["replay"]).get();
        assert_eq!(faults, 0, "kill {number}");
        run.end().await;
    }
}
