//! Series are forgotten only if there are too many, and only for their age.

use super::*;
use crate::book::tests::points;
use crate::otlp::Outcome;

const MOST: usize = 10_000;

fn names(range: std::ops::Range<usize>) -> Vec<String> {
    range.map(|number| format!("s{number}")).collect()
}

fn refused(outcome: &Outcome) -> &str {
    outcome.refusal().unwrap_or_default()
}

async fn post(run: &Run, sender: &str, names: &[String], start: u64) -> Outcome {
    run.shard.post(sender.into(), points(names, start, 1).into()).await
}

async fn until_taken(run: &Run, sender: &str, names: &[String], start: u64) {
    for _ in 0..2_000 {
        if post(run, sender, names, start).await == Outcome::taken(0) {
            return;
        }
        tokio::time::sleep(Duration::from_millis(10)).await;
    }
    panic!("it was never taken");
}

/// A later run, in which everything posted before is old enough to be forgotten, except the series of B, whose point
/// stays in the journal and in no group.
async fn with_old_and_held(run: Run, folder: impl Fn() -> Folder) -> Run {
    assert_eq!(post(&run, "B", &["held".into()], 10).await, Outcome::taken(0));
    run.end().await;
    tokio::time::sleep(Duration::from_millis(4_100)).await;
    let forget = Some(Duration::from_secs(3));
    let run = Run::begin_in(folder(), Settings { forget, ..settings() }).await;
    assert_eq!(post(&run, "B", &["held".into()], 20).await, Outcome::taken(0));
    let quarantined = run.orders.send(Order::Quarantine("B".into())).await;
    assert_eq!(quarantined, Some(Done::Answered(Outcome::taken(0))));
    run
}

#[tokio::test(flavor = "multi_thread")]
async fn series_are_forgotten_where_there_are_too_many() {
    let place = tempfile::tempdir().unwrap();
    let folder = || Folder::open(&place.path().join("data"), Durability::Process).unwrap();
    let run = Run::begin_in(folder(), settings()).await;
    for part in names(0..MOST - 1).chunks(1_000) {
        assert_eq!(post(&run, "A", part, 10).await, Outcome::taken(0));
    }
    let run = with_old_and_held(run, folder).await;
    // Series that were seen meanwhile stay.
    let (used, new) = (names(7..8), names(MOST..MOST + 1));
    assert_eq!(post(&run, "A", &used, 20).await, Outcome::taken(0));
    assert_eq!(refused(&post(&run, "A", &new, 10).await), "too many series");
    until_taken(&run, "C", &new, 10).await;
    assert_eq!(run.shard.metrics.forgotten_series.get(), MOST as u64 - 2);
    assert_eq!(post(&run, "A", &used, 20).await, Outcome::taken(0), "a repeat");
    assert_eq!(refused(&post(&run, "A", &used, 19).await), "duplicate or late: point 0, frontier 30");
    assert_eq!(refused(&post(&run, "C", &used, 30).await), "other writer: point 0");
    assert_eq!(refused(&post(&run, "B", &["held".into()], 30).await), "quarantined");
    assert_eq!(refused(&post(&run, "C", &["held".into()], 30).await), "other writer: point 0");
    // A series that was forgotten has no owner.
    assert_eq!(post(&run, "C", &names(8..9), 30).await, Outcome::taken(0));
    for kind in ["replay", "owner"] {
        let faults = run.shard.metrics.faults.with_label_values(&[kind]).get();
        assert_eq!(faults, 0, "{kind}");
    }
    run.end().await;
}

#[tokio::test(flavor = "multi_thread")]
async fn none_is_forgotten_where_none_is_old_enough() {
    let place = tempfile::tempdir().unwrap();
    let folder = Folder::open(&place.path().join("data"), Durability::Process).unwrap();
    let forget = Some(Duration::from_secs(3_600));
    let run = Run::begin_in(folder, Settings { forget, ..settings() }).await;
    for part in names(0..MOST).chunks(1_000) {
        assert_eq!(post(&run, "A", part, 10).await, Outcome::taken(0));
    }
    assert_eq!(run.flush().await, 10);
    assert_eq!(refused(&post(&run, "A", &names(MOST..MOST + 1), 10).await), "too many series");
    tokio::time::sleep(Duration::from_millis(200)).await;
    assert_eq!(run.shard.outbox.series_count(), MOST);
    assert_eq!(run.shard.metrics.forgotten_series.get(), 0);
    run.end().await;
}

/// Only series with parked posts are old: a fresh book would equal the old one, and all posts would wait for it.
#[tokio::test(flavor = "multi_thread")]
async fn no_fresh_book_is_made_where_only_what_is_kept_back_is_old() {
    let place = tempfile::tempdir().unwrap();
    let folder = || Folder::open(&place.path().join("data"), Durability::Process).unwrap();
    let run = Run::begin_in(folder(), settings()).await;
    let run = with_old_and_held(run, folder).await;
    let pauses = || run.shard.metrics.checkpoint_pause_seconds.get_sample_count();
    let before = pauses();
    run.shard.crowded.notify_one();
    while pauses() == before {
        tokio::time::sleep(Duration::from_millis(5)).await;
    }
    // The order is carried out after the look.
    assert_eq!(run.flush().await, 0);
    assert_eq!(pauses() - before, 2, "the checkpoint ahead of the look, and this one");
    run.end().await;
}
