//! Quotas, noted units, and the end of a shard, as the way of a post meets them.

use super::*;
use crate::quota::{Owned, Quota, Rules};
use crate::shard::Shared;
use crate::work::Readers;
use std::collections::HashMap;
use std::sync::mpsc::Receiver;
use std::sync::Mutex;
use std::time::Duration;

mod units;

/// Simulates a flush that can never be written: the shard ends.
#[tokio::test]
async fn who_waits_behind_what_is_in_flight_is_told_that_the_shard_has_ended() {
    let shard = Shard::in_memory(&Shared::of_test());
    let post = |start: u64| {
        let (shard, body) = (shard.clone(), point(start));
        async move { shard.post("A".into(), body.into()).await }
    };
    assert_eq!(post(10).await, Outcome::taken(0));
    let _in_flight = shard.shared_book.lock().take_all().unwrap();
    assert_eq!(post(20).await, Outcome::taken(0));
    let waiting = tokio::spawn(post(HOUR + 10));
    tokio::time::sleep(Duration::from_millis(50)).await;
    assert!(!waiting.is_finished());
    shard.fence_off();
    let told = tokio::time::timeout(Duration::from_secs(5), waiting).await.expect("it waits for ever");
    assert!(told.unwrap().status() == 503);
}

/// Blocks each lookup of a series until the test has done something else.
struct Slow(Mutex<Receiver<()>>);

impl Owned for Slow {
    fn seen(&self) -> (u64, usize) {
        (0, 1)
    }

    fn by_owner(&self) -> HashMap<String, u64> {
        [("A".to_string(), 1)].into()
    }

    fn has(&self, _: &SeriesKey) -> bool {
        self.0.lock().unwrap().recv_timeout(Duration::from_secs(5)).is_ok()
    }
}

/// Otherwise all other posts of its thread would wait while its text is parsed, which may take long.
#[tokio::test]
async fn a_long_post_of_who_has_all_of_its_share_is_looked_at_beside_others() {
    let shared = Shared::of_test();
    let (other, done) = std::sync::mpsc::channel();
    shared.quotas.begin(Rules {
        max_series: 10,
        of_each: Quota { series: Some(1), points: None }.into(),
        tokens: None,
        profile: Profile::Deltas,
        owned: Box::new(Slow(Mutex::new(done))),
        flush_interval: Duration::ZERO,
    });
    let shard = Shard::in_memory(&shared);
    let long = point(10) + &" ".repeat(Readers::SHORT);
    let posting = tokio::spawn(async move { shard.post("A".into(), long.into()).await });
    tokio::time::sleep(Duration::from_millis(200)).await;
    other.send(()).unwrap();
    assert_eq!(posting.await.unwrap(), Outcome::taken(0));
}

/// No series has been flushed.
struct Nothing;

impl Owned for Nothing {
    fn seen(&self) -> (u64, usize) {
        (0, 0)
    }

    fn by_owner(&self) -> HashMap<String, u64> {
        HashMap::new()
    }

    fn has(&self, _: &SeriesKey) -> bool {
        false
    }
}

/// A sender may post its own series again, even before a flush makes their owner known.
#[tokio::test]
async fn no_sender_comes_over_its_share_of_series_by_one_post() {
    let shared = Shared::of_test();
    shared.quotas.begin(Rules {
        max_series: 10,
        of_each: Quota { series: Some(3), points: None }.into(),
        tokens: None,
        profile: Profile::Deltas,
        owned: Box::new(Nothing),
        flush_interval: Duration::ZERO,
    });
    let shard = Shard::in_memory(&shared);
    let status = async |start: u64, metrics: &[&str]| {
        let each: Vec<String> = metrics.iter().map(|name| metric(name, start)).collect();
        let body =
            format!(r#"{{"resourceMetrics":[{{"scopeMetrics":[{{"metrics":[{}]}}]}}]}}"#, each.join(","));
        shard.post("A".into(), body.into()).await.status()
    };
    assert_eq!((status(10, &["a", "b"]).await, status(20, &["b", "c", "d"]).await), (200, 429));
    assert_eq!((status(20, &["a", "b", "c"]).await, status(30, &["a", "b", "c"]).await), (200, 200));
    assert_eq!((status(40, &["c", "d"]).await, status(40, &["c", "a"]).await), (429, 200));
}

const HOUR: u64 = 3_600_000_000_000;

fn metric(name: &str, start: u64) -> String {
    format!(
        "{{\"name\":\"{name}\",\"sum\":{{\"aggregationTemporality\":1,\"dataPoints\":[{{\"asInt\":\"1\",\
         \"startTimeUnixNano\":\"{start}\",\"timeUnixNano\":\"{}\"}}]}}}}",
        start + 1
    )
}

fn point(start: u64) -> String {
    format!(r#"{{"resourceMetrics":[{{"scopeMetrics":[{{"metrics":[{}]}}]}}]}}"#, metric("a", start))
}

/// In a folder the process would end.
#[tokio::test]
async fn half_a_post_ends_the_shard_alone_where_it_is_in_a_store() {
    let shard = Shard::in_memory(&Shared::of_test());
    shard.note_refusal(shard.shared_book.lock(), Refused::HalfTaken);
    assert_eq!(shard.phase(), Phase::Fenced);
    assert_eq!(shard.journal.failure(), Some(NO_REST));
    let told = PendingAnswer::behind_all(Refused::BadSender, &shard.journal);
    let (told, _) = told.durable(&shard.journal).await;
    assert_eq!(told.reason(), Some(Reason::ShardMoves));
}

/// Another instance may have taken none of the post: the sender retries there, and a point kept here might then be
/// taken.
#[tokio::test]
async fn what_is_refused_of_a_post_of_a_lost_shard_is_not_kept() {
    let shard = Shard::in_memory(&Shared::of_test());
    shard.note_refusal(shard.shared_book.lock(), Refused::HalfTaken);
    let names = crate::book::Names::new().unwrap();
    let late = crate::late::Refusals::new("A", &names, Default::default(), Vec::new(), &shard.outbox);
    let told = PendingAnswer::behind_all(Refused::BadSender, &shard.journal).with_late(Some(late));
    assert!(told.durable(&shard.journal).await.1.is_none());
}

/// Otherwise other posts would find the room that its series take once it is put.
#[tokio::test(flavor = "multi_thread")]
#[allow(clippy::await_holding_lock)] // a thread waits for this lock, and no task
async fn a_long_post_keeps_its_share_until_it_is_put_if_its_sender_goes_away() {
    const POINTS: u64 = 3_000;
    let shared = Shared::of_test();
    shared.quotas.begin(Rules {
        max_series: 2 * POINTS,
        of_each: Quota { series: Some(POINTS + 500), points: None }.into(),
        tokens: None,
        profile: Profile::AlsoCumulative,
        owned: Box::new(Nothing),
        flush_interval: Duration::ZERO,
    });
    let shard = Shard::in_memory(&shared);
    let point = |end| format!(r#"{{"asInt":"{end}","startTimeUnixNano":"1","timeUnixNano":"{}"}}"#, end + 1);
    let points: Vec<String> = (1..=POINTS).map(point).collect();
    let body = format!(
        r#"{{"resourceMetrics":[{{"scopeMetrics":[{{"metrics":[{{"name":"a","sum":{{"aggregationTemporality":2,"isMonotonic":true,"dataPoints":[{}]}}}}]}}]}}]}}"#,
        points.join(",")
    );
    let numbered = shard.numbered_text(&body.into()).unwrap().unwrap();
    assert!(numbered.bytes() > Readers::SHORT);
    let free = shard.readers.free();
    let book = shard.shared_book.lock();
    let posting = tokio::spawn({
        let shard = shard.clone();
        async move { shard.request("A".into(), numbered.into()).await }
    });
    while shard.readers.free() == free {
        tokio::time::sleep(Duration::from_millis(1)).await;
    }
    posting.abort();
    assert!(posting.await.unwrap_err().is_cancelled());
    let is_let_in = async || {
        let new = || std::future::ready(Ok(1_000));
        shared.quotas.claim("A", 1_000, new).await.is_ok()
    };
    assert!(!is_let_in().await, "the room of a post that is being put was another's");
    drop(book);
    while shard.readers.free() < free {
        tokio::time::sleep(Duration::from_millis(1)).await;
    }
    let series = shard.shared_book.lock().series();
    assert_eq!((series, is_let_in().await), (1, true));
}
