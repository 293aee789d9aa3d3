//! Tests posts, checkpoints, quarantines and starts: what is refused, and what is forwarded.

use crate::support::{all, message, point, sums, Place, Run};
use bytes::Bytes;
use std::sync::atomic::{AtomicBool, Ordering};
use std::sync::Arc;
use totxegun::journal::{Body, NoNames, Post};
use totxegun::otlp::Outcome;
use totxegun::worker::{Done, Order};

const BAD_SENDER: &str = "bad sender: a name has 1 to 64 bytes of A-Z a-z 0-9 . _ -";

#[tokio::test(flavor = "multi_thread")]
async fn posts_and_checkpoints() {
    let place = Place::new();
    let run = place.run().await;
    assert_eq!(run.post("A", point("a", 10, 20, 5)).await, all());
    assert_eq!(run.post("A", point("a", 20, 30, 6)).await, all());
    let refusals = [
        ("B", point("a", 30, 40, 6), (400, "other writer: point 0")),
        ("A", point("a", 20, 30, 7), (400, "duplicate or late: point 0, frontier 30")),
        ("A", point("a", 25, 30, 6), (400, "duplicate or late: point 0, frontier 30")),
        ("A", Bytes::from_static(b"x"), (400, "not JSON")),
        ("A", Bytes::from_static(b"[]"), (400, "wrong shape")),
        ("a b", point("a", 30, 40, 6), (400, BAD_SENDER)),
    ];
    for (sender, body, wanted) in refusals {
        assert_eq!(message(&run.post(sender, body).await), wanted);
    }
    assert_eq!(run.post("A", point("a", 20, 30, 6)).await, all());
    assert_eq!(run.checkpoint().await, 1);
    assert_eq!(run.checkpoint().await, 0);
    let report = run.shard.shared_book().lock().report().unwrap();
    assert!(report.starts_with(b"series a sum owner A frontier 30"), "{report:?}");
    let (sum, spans) = run.stop().await.remove("a").unwrap();
    assert_eq!((sum, spans), (11, vec![(10, 30)]));
}

/// Even with another number of books at each start.
#[tokio::test(flavor = "multi_thread")]
async fn repeats_are_answered_as_the_first_time_over_restarts() {
    let mut place = Place::new();
    let run = place.run().await;
    assert_eq!(run.post("A", point("a", 10, 20, 5)).await, all());
    assert_eq!(run.checkpoint().await, 1);
    assert_eq!(run.post("A", point("b", 10, 20, 6)).await, all());
    run.abort().await;
    place.max_series = 1;
    let run = place.run().await;
    repeated(&run, "a kill").await;
    assert_eq!(run.post("A", point("b", 20, 30, 7)).await, all());
    run.abort().await;
    place.max_series = 250_000;
    let run = place.run().await;
    repeated(&run, "another kill").await;
    assert_eq!(run.checkpoint().await, 1);
    repeated(&run, "a checkpoint").await;
    assert_eq!(sums(&run.stop().await), [("a", 5), ("b", 13)]);
    let run = place.run().await;
    repeated(&run, "an end").await;
    assert!(run.stop().await.is_empty());
}

async fn repeated(run: &Run, after: &str) {
    for repeat in [point("a", 10, 20, 5), point("b", 10, 20, 6)] {
        assert_eq!(run.post("A", repeat).await, all(), "after {after}");
    }
    let late = run.post("A", point("a", 10, 20, 6)).await;
    assert_eq!(message(&late), (400, "duplicate or late: point 0, frontier 20"), "after {after}");
    let other = run.post("B", point("a", 20, 30, 5)).await;
    assert_eq!(message(&other), (400, "other writer: point 0"), "after {after}");
}

#[tokio::test(flavor = "multi_thread")]
async fn a_quarantine_outlives_checkpoints_and_restarts() {
    let place = Place::new();
    let run = place.run().await;
    assert_eq!(run.post("A", point("a", 10, 20, 5)).await, all());
    assert_eq!(run.post("B", point("b", 10, 20, 1)).await, all());
    assert_eq!(run.order(Order::Quarantine("A".into())).await, Done::Answered(all()));
    let again = run.order(Order::Quarantine("A".into())).await;
    assert!(matches!(&again, Done::Answered(outcome) if message(outcome) == (400, "already quarantined")));
    let bad = run.order(Order::Quarantine("a b".into())).await;
    assert!(matches!(&bad, Done::Answered(outcome) if message(outcome) == (400, BAD_SENDER)));
    assert_eq!(run.checkpoint().await, 1, "of B alone");
    run.abort().await;
    let run = place.run().await;
    assert_eq!(run.post("B", point("b", 20, 30, 1)).await, all());
    assert_eq!(message(&run.post("A", point("a", 20, 30, 6)).await), (403, "quarantined"));
    assert_eq!(run.checkpoint().await, 1, "of B alone");
    run.abort().await;
    let run = place.run().await;
    assert_eq!(run.checkpoint().await, 0);
    assert_eq!(message(&run.post("A", point("a", 20, 30, 6)).await), (403, "quarantined"));
    assert_eq!(run.order(Order::Lift("A".into())).await, Done::Answered(all()));
    let again = run.order(Order::Lift("A".into())).await;
    assert!(matches!(&again, Done::Answered(outcome) if message(outcome) == (400, "not quarantined")));
    assert_eq!(run.checkpoint().await, 1);
    assert_eq!(run.checkpoint().await, 0);
    assert_eq!(run.post("A", point("a", 10, 20, 5)).await, all(), "a repeat");
    assert_eq!(sums(&run.stop().await), [("a", 5), ("b", 2)]);
    let run = place.run().await;
    assert_eq!(run.post("A", point("a", 10, 20, 5)).await, all(), "a repeat");
    run.stop().await;
}

#[tokio::test(flavor = "multi_thread")]
async fn foreign_points_are_counted_and_compared() {
    let place = Place::new();
    let run = place.run().await;
    let foreign = "{\"resourceMetrics\":[{\"scopeMetrics\":[{\"metrics\":[{\"name\":\"g\",\"gauge\":{\"dataPoints\":[{},{}]}}]}]}]}";
    assert_eq!(run.post("A", foreign.into()).await, Outcome::taken(2));
    assert_eq!(run.post("A", point("a", 10, 20, 5)).await, all());
    run.abort().await;
    let run = place.run().await;
    assert_eq!(run.post("A", point("a", 20, 30, 5)).await, all());
    assert_eq!(run.checkpoint().await, 1);
    has_no_fault(&run);
    assert_eq!(sums(&run.stop().await), [("a", 10)]);
}

fn has_no_fault(run: &Run) {
    for kind in ["replay", "owner"] {
        assert_eq!(run.metrics.faults.with_label_values(&[kind]).get(), 0, "{kind}");
    }
}

/// What was taken since the last group may be more than a book can add up at once. Then a start takes it in parts.
#[tokio::test(flavor = "multi_thread")]
async fn a_replay_that_meets_a_limit_makes_room_and_goes_on() {
    let place = Place::new();
    let run = place.run().await;
    assert_eq!(run.post("A", point("a", 10, 20, i64::MAX)).await, all());
    let too_large = run.post("A", point("a", 20, 30, 5)).await;
    assert_eq!(message(&too_large), (503, "too large"));
    run.abort().await;
    // As after a kill between a flush and the commit of its group.
    let folder = totxegun::storage::Folder::open(&place.data(), totxegun::storage::Durability::Process);
    let (journal, outbox) = folder.unwrap().shard().unwrap();
    for (start, value) in [(20, 5), (30, -7)] {
        let post =
            Post { sender: "A".into(), foreign: 0, body: Body::Text(point("a", start, start + 10, value)) };
        journal.append(&post, &NoNames);
    }
    drop((journal, outbox));
    let run = place.run().await;
    let late = run.post("A", point("a", 30, 40, -7)).await;
    assert_eq!(message(&late), (400, "duplicate or late: point 0, frontier 40"));
    assert_eq!(run.checkpoint().await, 2);
    has_no_fault(&run);
    assert_eq!(sums(&run.stop().await), [("a", i64::MAX - 2)]);
}

/// Senders that post one post after another until `ends`. Returns how many posts each has now, with those that it had.
async fn load(run: &Arc<Run>, had: &[u64], ends: &Arc<AtomicBool>) -> Vec<u64> {
    let mut tasks = tokio::task::JoinSet::new();
    for (sender, had) in had.iter().copied().enumerate() {
        let (run, ends) = (run.clone(), ends.clone());
        tasks.spawn(async move {
            let (name, mut number) = (format!("s{sender}"), had);
            while !ends.load(Ordering::SeqCst) {
                number += 1;
                let body = point(&name, number * 10, number * 10 + 10, number as i64);
                assert_eq!(run.post(&name, body).await, all(), "{name}, {number}");
                // A post that is only written waits for nothing.
                tokio::task::yield_now().await;
            }
            (sender, number)
        });
    }
    let mut have = had.to_vec();
    while let Some(ended) = tasks.join_next().await {
        let (sender, number) = ended.unwrap();
        have[sender] = number;
    }
    have
}

#[tokio::test(flavor = "multi_thread")]
async fn a_checkpoint_under_load_splits_no_post_and_loses_none() {
    let place = Place::new();
    let mut posts = vec![0; 6];
    let mut sums_of_all = std::collections::BTreeMap::<String, i64>::new();
    for part in 0..3 {
        let run = Arc::new(place.run().await);
        let ends = Arc::new(AtomicBool::new(false));
        let flushing = tokio::spawn({
            let (run, ends) = (run.clone(), ends.clone());
            async move {
                for _ in 0..12 {
                    run.checkpoint().await;
                }
                ends.store(true, Ordering::SeqCst);
            }
        });
        posts = load(&run, &posts, &ends).await;
        flushing.await.unwrap();
        has_no_fault(&run);
        let Ok(run) = Arc::try_unwrap(run) else { panic!("it is in use") };
        if part == 1 {
            // The next start has what is in the journal alone.
            run.abort().await;
            continue;
        }
        for (name, (sum, _)) in run.stop().await {
            *sums_of_all.entry(name).or_default() += sum;
        }
    }
    assert_eq!(sums_of_all.len(), 6);
    for ((name, sum), posts) in sums_of_all.into_iter().zip(posts) {
        assert_eq!(sum as u64, posts * (posts + 1) / 2, "{name}");
    }
}

/// A body of many series.
fn many(prefix: &str, series: usize, start: u64) -> Bytes {
    let metric = |number| {
        format!(
            "{{\"name\":\"{prefix}{number}\",\"sum\":{{\"aggregationTemporality\":1,\"dataPoints\":[{{\"asInt\":1,\
             \"startTimeUnixNano\":{start},\"timeUnixNano\":{}}}]}}}}",
            start + 10
        )
    };
    let metrics: Vec<_> = (0..series).map(metric).collect();
    format!("{{\"resourceMetrics\":[{{\"scopeMetrics\":[{{\"metrics\":[{}]}}]}}]}}", metrics.join(",")).into()
}

#[tokio::test(flavor = "multi_thread")]
async fn many_series_are_flushed_and_primed() {
    let mut place = Place::new();
    place.max_series = 24_000;
    let run = place.run().await;
    for part in ["Aa", "Ab", "Ac", "Ba", "Bb", "Bc"] {
        assert_eq!(run.post(&part[..1], many(part, 2_000, 10)).await, all());
    }
    let requests = run.checkpoint().await;
    assert!((12..=16).contains(&requests), "{requests} of at most 1,000 series each, of 3 books");
    assert_eq!(run.post("A", many("Aa", 2_000, 20)).await, all());
    run.abort().await;
    let run = place.run().await;
    assert_eq!(run.post("B", many("Bc", 2_000, 10)).await, all(), "a repeat");
    let other = run.post("B", many("Ac", 2_000, 30)).await;
    assert_eq!(message(&other), (400, "other writer: point 0"));
    let requests = run.checkpoint().await;
    assert!((2..=4).contains(&requests), "{requests}");
    has_no_fault(&run);
    let taken = run.stop().await;
    assert_eq!(taken.len(), 12_000);
    assert_eq!(taken.values().map(|(sum, _)| sum).sum::<i64>(), 14_000);
}

/// What identifies the series is as long as a request may be. It is taken, forwarded and seeded.
#[tokio::test(flavor = "multi_thread")]
async fn a_series_of_4_mib_is_taken_and_primed() {
    let place = Place::new();
    let run = place.run().await;
    let texts = vec![format!(r#"{{"stringValue":"{}"}}"#, "x".repeat(4096)); 1019];
    let list = |(key, texts): (usize, &[String])| {
        let texts = texts.join(",");
        format!(r#"{{"key":"{key}","value":{{"arrayValue":{{"values":[{texts}]}}}}}}"#)
    };
    let lists: Vec<String> = texts.chunks(128).enumerate().map(list).collect();
    let body = |last: usize| {
        let (lists, last) = (lists.join(","), "x".repeat(last));
        let metrics = r#"[{"name":"long","sum":{"aggregationTemporality":1,"dataPoints":[{"asInt":"6",
            "startTimeUnixNano":"10","timeUnixNano":"20"}]}}]"#;
        format!(
            r#"{{"resourceMetrics":[{{"resource":{{"attributes":[{lists},{{"key":"l","value":{{"stringValue":"{last}"}}}}]}},
            "scopeMetrics":[{{"metrics":{metrics}}}]}}]}}"#
        )
    };
    let longest = Bytes::from(body((4 << 20) - body(0).len()));
    assert_eq!(run.post("A", longest.clone()).await, all());
    assert_eq!(run.post("A", point("a", 10, 20, 5)).await, all());
    assert!((1..=2).contains(&run.checkpoint().await), "of one book or two");
    run.abort().await;
    let run = place.run().await;
    for repeat in [longest, point("a", 10, 20, 5)] {
        assert_eq!(run.post("A", repeat).await, all());
    }
    has_no_fault(&run);
    assert_eq!(sums(&run.stop().await), [("a", 5), ("long", 6)]);
}
