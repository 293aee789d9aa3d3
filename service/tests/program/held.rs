//! Tests that the parked posts of a quarantined sender make no checkpoint slower, and come out whole.

use crate::support::{points, Place, Service};

const POSTS: u64 = 24;
/// The points of a post, and the least bytes that a point takes in the journal.
const POINTS: u64 = 16_000;
const LENGTH: u64 = 9;
const LITTLE: u64 = 1 << 20;
const ROUNDS: u64 = 10;

/// The bytes that a process has written so far, and the most memory that it has had.
fn written_and_memory(service: &Service) -> (u64, u64) {
    let of = |file: &str, name: &str| -> u64 {
        let text = std::fs::read_to_string(format!("/proc/{}/{file}", service.pid())).unwrap();
        let row = text.lines().find_map(|line| line.strip_prefix(name)).unwrap();
        row.trim().trim_end_matches(" kB").parse().unwrap()
    };
    (of("io", "wchar:"), of("status", "VmHWM:") << 10)
}

/// A post with points of one series whose values add up to 1.
fn many_points(post: u64) -> String {
    let point = |number: u64| {
        let start = 100 + 10 * (post * POINTS + number);
        let value = if number.is_multiple_of(2) { 1 << 36 } else { -(1i64 << 36) };
        format!(
            "{{\"asInt\":\"{}\",\"startTimeUnixNano\":\"{start}\",\"timeUnixNano\":\"{}\"}}",
            value + i64::from(number == 0),
            start + 1 + number % 7
        )
    };
    let points: Vec<String> = (0..POINTS).map(point).collect();
    format!(
        "{{\"resourceMetrics\":[{{\"scopeMetrics\":[{{\"metrics\":[{{\"name\":\"a\",\"sum\":{{\"aggregationTemporality\":1,\
         \"dataPoints\":[{}]}}}}]}}]}}]}}",
        points.join(",")
    )
}

fn flush(service: &Service) {
    let (status, text) = service.order("/flush");
    assert_eq!(status, 200, "{text}");
}

fn held(service: &Service) -> (u64, u64, u64) {
    let held = &service.status()["shards"][0]["parked"];
    let of = |name: &str| held[name].as_u64().unwrap();
    (of("senders"), of("posts"), of("bytes"))
}

/// The next flush takes what was released, also after a kill. If the period were closed before, all of that would come
/// late.
#[test]
fn a_period_is_not_closed_while_what_was_released_waits_for_a_flush() {
    let place = Place::new();
    let sink = place.sink();
    let words = ["--flush-interval", "1h", "--sink", &sink];
    let mut service = place.serve_with(&words);
    assert_eq!(service.post("A", &points(&["a"], 100, 5)).unwrap(), (200, "{}".into()));
    // Nothing is parked of B, which stays quarantined.
    for order in ["/quarantine/A", "/quarantine/B", "/flush", "/release/A"] {
        assert_eq!(service.order(order).0, 200, "{order}");
    }
    let close = "/close/1970-01";
    let is_not_closed = |service: &Service| {
        assert_eq!(held(service).1, 1);
        let (status, text) = service.order(close);
        assert!(status == 409 && text.contains("there are posts that are not flushed"), "{status}: {text}");
    };
    is_not_closed(&service);
    service.kill();
    let service = place.serve_with(&words);
    is_not_closed(&service);
    service.drain();
    let (status, text) = service.order(close);
    assert!(status == 200 && !text.contains("quarantined"), "{status}: {text}");
    assert_eq!(service.end(), Some(0));
    assert_eq!(place.totals(), [("a".to_string(), 5)].into());
}

#[test]
fn posts_of_a_quarantined_sender_cost_a_checkpoint_nothing_and_come_out_whole() {
    let place = Place::new();
    let sink = place.sink();
    let words = ["--flush-interval", "1h", "--sink", &sink];
    let mut service = place.serve_with(&words);
    for number in 0..POSTS {
        assert_eq!(service.post("A", &many_points(number)).unwrap(), (200, "{}".into()));
    }
    assert_eq!(service.order("/quarantine/A").0, 200);
    let before_all = written_and_memory(&service);
    flush(&service);
    let (senders, posts, bytes) = held(&service);
    assert_eq!((senders, posts), (1, POSTS));
    assert!(bytes > POSTS * POINTS * LENGTH, "{bytes} bytes");
    let before = written_and_memory(&service);
    assert!(before.0 - before_all.0 < bytes + LITTLE, "they are moved once");
    for round in 0..ROUNDS {
        let body = points(&["b"], 100 + round * 10, 1);
        assert_eq!(service.post("B", &body).unwrap(), (200, "{}".into()));
        flush(&service);
    }
    let behind = written_and_memory(&service);
    assert!(behind.0 - before.0 < LITTLE, "{} bytes", behind.0 - before.0);
    assert!(behind.1 - before_all.1 < bytes / 2, "{} bytes", behind.1 - before_all.1);
    let journal = &service.status()["shards"][0]["journal"];
    assert!(journal["bytes"].as_u64().unwrap() < LITTLE, "{journal}");
    let page = service.metrics();
    for line in [format!("totxegun_parked_posts {POSTS}"), format!("totxegun_parked_bytes {bytes}")] {
        assert!(page.lines().any(|found| found == line), "{line} in\n{page}");
    }
    let said = service.said(&["status"]);
    let is_held = |line: &str| line.starts_with("posts of quarantined senders  24 ");
    assert!(said.lines().any(is_held), "{said}");
    service.kill();
    let service = place.serve_with(&words);
    assert_eq!(held(&service), (1, POSTS, bytes));
    assert_eq!(service.post("A", &points(&["a"], 9_000_000, 1)).unwrap().0, 403);
    assert_eq!(service.order("/release/A").0, 200);
    service.drain();
    assert_eq!(held(&service), (0, 0, 0));
    assert!(!place.data().join("shard-0/journal/A.held").exists());
    service.has_no_fault();
    assert_eq!(service.end(), Some(0));
    let wanted = [("a".to_string(), POSTS as i64), ("b".to_string(), ROUNDS as i64)];
    assert_eq!(place.totals(), wanted.into());
}
