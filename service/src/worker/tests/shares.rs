//! Cumulative points and the quota of their sender.

use super::cumulative::{point, Point, BEGIN};
use super::*;
use crate::otlp::series::SeriesKey;
use crate::otlp::{Outcome, Profile};
use crate::quota::{Owned, Quota, Rules};
use crate::runs::Options;
use std::collections::HashMap;

/// No series has been flushed.
struct Unflushed;

impl Owned for Unflushed {
    fn seen(&self) -> (u64, usize) {
        (0, 0)
    }

    fn by_owner(&self) -> HashMap<String, u64> {
        HashMap::new()
    }

    fn has(&self, _: &SeriesKey) -> bool {
        false
    }
}

impl Run {
    /// Each sender may post a point a second, 60 at once.
    async fn with_shares(path: &Path) -> Run {
        let run = Run::begin_runs(path, Options::default()).await;
        run.shard.quotas.begin(Rules {
            max_series: 10_000,
            of_each: Quota { series: None, points: Some(1) }.into(),
            tokens: None,
            profile: Profile::AlsoCumulative,
            owned: Box::new(Unflushed),
            flush_interval: Duration::ZERO,
        });
        run
    }
}

fn points(of: &str, count: usize) -> Vec<Point> {
    (0..count).map(|number| point(&format!("m{of}{number}"), BEGIN, BEGIN + 1, 1)).collect()
}

/// As for delta points, whose repeats are refused. Otherwise a sender that retries for another shard's part would never
/// have enough quota for that part.
#[tokio::test(flavor = "multi_thread")]
async fn what_adds_nothing_uses_up_no_share() {
    let place = tempfile::tempdir().unwrap();
    let run = Run::with_shares(&place.path().join("data")).await;
    let half = points("a", 30);
    for _ in 0..5 {
        assert_eq!(run.cumulative("A", &half).await, Outcome::taken(0));
    }
    assert_eq!(run.cumulative("A", &points("b", 30)).await, Outcome::taken(0));
    assert_eq!(run.cumulative("A", &points("c", 30)).await.status(), 429);
    run.end().await;
}

/// Otherwise a sender that cancels its calls could post any number.
#[tokio::test(flavor = "multi_thread")]
async fn a_post_that_goes_on_without_its_sender_uses_up_its_share() {
    let place = tempfile::tempdir().unwrap();
    let run = Run::with_shares(&place.path().join("data")).await;
    let many = points("a", 600);
    let (shard, (held, holds)) = (run.shard.clone(), std::sync::mpsc::channel());
    let (release, released) = std::sync::mpsc::channel::<()>();
    let holding = std::thread::spawn(move || {
        let _runs = shard.runs.lock();
        held.send(()).unwrap();
        let _ = released.recv();
    });
    holds.recv().unwrap();
    let posting = tokio::time::timeout(Duration::from_millis(500), run.cumulative("A", &many));
    assert!(posting.await.is_err());
    drop(release);
    holding.join().unwrap();
    assert_eq!(run.cumulative("A", &points("b", 1)).await.status(), 429);
    while run.shard.ungrouped() == 0 {
        tokio::time::sleep(Duration::from_millis(5)).await;
    }
    run.end().await;
}
