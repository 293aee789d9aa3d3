//! Cumulative points of several processes with the same series, or with series that others had: what each has counted
//! is counted once, or refused by name.

use super::cumulative::{killed, point, rejected, Point, BEGIN};
use super::*;
use crate::otlp::Outcome;
use crate::runs::Options;
use std::sync::atomic::AtomicUsize;
use tracing::{Event, Subscriber};
use tracing_subscriber::layer::{Context, Layer, SubscriberExt};

const EARLIER: &str = "1 point of a run that began before the last point of another";

async fn begin(place: &Path) -> Run {
    Run::begin_runs(&place.join("data0"), Options::default()).await
}

async fn posted(run: &Run, start: u64, time: u64, value: i64) -> Outcome {
    run.cumulative("A", &[point("m", start, time, value)]).await
}

/// Whether all of a post was taken, now or before; otherwise it is refused by the name of an earlier run.
async fn is_taken(run: &Run, start: u64, time: u64, value: i64) -> bool {
    let outcome = posted(run, start, time, value).await;
    if outcome == Outcome::taken(0) {
        return true;
    }
    assert_eq!(rejected(&outcome), (1, EARLIER.into()));
    false
}

/// A process of B ran long before the end of a series of A, and that end is ahead of the clock.
#[tokio::test(flavor = "multi_thread")]
async fn a_series_counts_from_its_start_where_others_were_forgotten() {
    let place = tempfile::tempdir().unwrap();
    let run = begin(place.path()).await;
    assert_eq!(posted(&run, BEGIN, BEGIN + 540, 5).await, Outcome::taken(0));
    run.flush().await;
    run.shard.outbox.remove_series(&run.keys()).unwrap();
    run.end().await;
    for start in 0..2 {
        let run = begin(place.path()).await;
        let of_b = |time, value| [point(&format!("n{start}"), BEGIN, BEGIN + time, value)];
        assert_eq!(run.cumulative("B", &of_b(20, 37)).await, Outcome::taken(0));
        assert_eq!(run.cumulative("B", &of_b(30, 40)).await, Outcome::taken(0));
        assert_eq!(run.shard.metrics.noted_runs.get(), 0);
        run.flush().await;
        assert_eq!(run.forwarded().await[&format!("n{start}")].0, 40);
        run.end().await;
    }
}

/// Also after a start, for which the snapshot says what was forgotten.
#[tokio::test(flavor = "multi_thread")]
async fn what_was_forgotten_of_a_series_counts_no_second_time() {
    let place = tempfile::tempdir().unwrap();
    let run = begin(place.path()).await;
    assert_eq!(posted(&run, BEGIN, BEGIN + 10, 5).await, Outcome::taken(0));
    run.flush().await;
    assert_eq!(run.forwarded().await["m"].0, 5);
    run.shard.outbox.remove_series(&run.keys()).unwrap();
    run.end().await;
    for _ in 0..2 {
        begin(place.path()).await.end().await;
    }
    let run = begin(place.path()).await;
    let late = posted(&run, BEGIN, BEGIN + 10, 5).await;
    assert_eq!(rejected(&late), (1, "1 cumulative point from before series were forgotten".into()));
    assert_eq!(posted(&run, BEGIN, BEGIN + 20, 9).await, Outcome::taken(0));
    assert_eq!(posted(&run, BEGIN, BEGIN + 30, 11).await, Outcome::taken(0));
    run.flush().await;
    assert_eq!((run.forwarded().await["m"].0, run.shard.metrics.noted_runs.get()), (2, 1));
    run.end().await;
}

/// Each point of the second process is a moment older than the last one of the first.
#[tokio::test(flavor = "multi_thread")]
async fn a_late_point_of_another_process_is_refused_by_name() {
    let place = tempfile::tempdir().unwrap();
    let mut run = begin(place.path()).await;
    for turn in 1..=3 {
        assert!(is_taken(&run, BEGIN, BEGIN + 60 * turn, 10 * turn as i64).await);
        assert!(!is_taken(&run, BEGIN + 7, BEGIN + 60 * turn - 1, 30 * turn as i64).await, "{turn}");
        run = killed(run, place.path(), turn as usize - 1, Options::default()).await;
    }
    // Even with the start and time of an earlier point it is no repeat, since its value differs.
    assert!(!is_taken(&run, BEGIN, BEGIN + 180, 31).await);
    run.flush().await;
    assert_eq!(run.forwarded().await["m"].0, 30);
    run.end().await;
}

/// Its sender did not get the answer and went on, or has begun anew.
#[tokio::test(flavor = "multi_thread")]
async fn a_repeat_is_known_behind_the_next_run() {
    let place = tempfile::tempdir().unwrap();
    let mut run = begin(place.path()).await;
    for (start, time, value) in [(0, 60, 3), (0, 120, 5), (125, 180, 2)] {
        assert!(is_taken(&run, BEGIN + start, BEGIN + time, value).await);
    }
    for kill in 0..3 {
        for (start, time, value) in [(0, 60, 3), (0, 120, 5), (125, 180, 2)] {
            assert!(is_taken(&run, BEGIN + start, BEGIN + time, value).await, "{start} {time}");
        }
        // What was added to the first run after its last point was never taken.
        assert!(!is_taken(&run, BEGIN, BEGIN + 130, 6).await);
        if kill == 1 {
            run.flush().await;
        }
        run = killed(run, place.path(), kill, Options::default()).await;
    }
    run.flush().await;
    assert_eq!(run.forwarded().await["m"].0, 7);
    run.end().await;
}

/// A rolling restart: the old process reports its count after the new one has begun.
#[tokio::test(flavor = "multi_thread")]
async fn a_process_counts_from_where_the_one_before_it_was_silent_for_three_intervals() {
    for kills in [false, true] {
        let place = tempfile::tempdir().unwrap();
        let mut run = begin(place.path()).await;
        for turn in 1..=10 {
            assert!(is_taken(&run, BEGIN, BEGIN + 60 * turn, 5 * turn as i64).await);
        }
        assert!(is_taken(&run, BEGIN, BEGIN + 610, 51).await, "as it ends");
        let mut taken = Vec::new();
        for turn in 1..=10 {
            if kills {
                if turn == 3 {
                    run.flush().await;
                }
                run = killed(run, place.path(), turn as usize - 1, Options::default()).await;
            }
            taken.push(is_taken(&run, BEGIN + 605, BEGIN + 605 + 60 * turn, 360 * turn as i64).await);
        }
        // The last interval was ten, less than half of the one before, so it is taken for thirty.
        assert_eq!(taken, [&[false; 1][..], &[true; 9]].concat());
        // Whatever the old process still reports is late and refused.
        assert!(!is_taken(&run, BEGIN, BEGIN + 700, 52).await);
        run.flush().await;
        assert_eq!(run.forwarded().await["m"].0, 51 + 3_600 - 720);
        // If it comes back, nothing of it counts twice.
        for (time, value) in [(9_000, 53), (9_060, 55)] {
            assert!(is_taken(&run, BEGIN, BEGIN + time, value).await);
        }
        run.flush().await;
        assert_eq!(run.forwarded().await["m"].0, 2);
        run.end().await;
    }
}

/// What it had counted before the series was forgotten may have been counted.
#[tokio::test(flavor = "multi_thread")]
async fn a_process_from_before_its_series_was_forgotten_goes_on_from_where_it_is() {
    let place = tempfile::tempdir().unwrap();
    let run = begin(place.path()).await;
    assert!(is_taken(&run, BEGIN + 10, BEGIN + 60, 7).await);
    run.flush().await;
    assert_eq!(run.forwarded().await["m"].0, 7);
    run.shard.outbox.remove_series(&run.keys()).unwrap();
    run.end().await;
    let run = begin(place.path()).await;
    // Another run that began before it, and then falls silent.
    assert!(is_taken(&run, BEGIN, BEGIN + 70, 100).await);
    assert!(is_taken(&run, BEGIN, BEGIN + 80, 101).await);
    assert!(!is_taken(&run, BEGIN + 10, BEGIN + 81, 8).await);
    for (time, value) in [(900, 9), (960, 12)] {
        assert!(is_taken(&run, BEGIN + 10, BEGIN + time, value).await);
    }
    run.flush().await;
    assert_eq!(run.forwarded().await["m"].0, 1 + 3);
    run.end().await;
}

struct Lines(Arc<AtomicUsize>);

impl<S: Subscriber> Layer<S> for Lines {
    fn on_event(&self, _: &Event<'_>, _: Context<'_, S>) {
        self.0.fetch_add(1, SeqCst);
    }
}

/// One connection can post several thousand a second.
#[tokio::test(flavor = "multi_thread")]
async fn posts_whose_points_begin_where_they_end_fill_no_log() {
    let place = tempfile::tempdir().unwrap();
    let run = begin(place.path()).await;
    let lines = Arc::new(AtomicUsize::new(0));
    let counting = tracing_subscriber::registry().with(Lines(lines.clone()));
    let _guard = tracing::subscriber::set_default(counting);
    let instant = |name: &str, at| -> Vec<Point> { vec![point(name, BEGIN + at, BEGIN + at, 5)] };
    for at in 0..200 {
        assert_eq!(run.cumulative("A", &instant("m", at)).await, Outcome::taken(0));
        assert_eq!(run.cumulative("A", &instant(&format!("n{at}"), at)).await, Outcome::taken(0));
    }
    assert_eq!(run.shard.metrics.noted_runs.get(), 400);
    assert!((1..=2).contains(&lines.load(SeqCst)), "{lines:?}"); // a slow machine may need over ten seconds
    run.end().await;
}
