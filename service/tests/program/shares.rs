//! Tests the quota of each sender.

use crate::support::{points, until, Place, Service};
use std::process::Command;

/// The answer to a post, with its head.
fn posted(service: &Service, header: &str, body: &str) -> String {
    let output = Command::new("curl")
        .args(["-sS", "-i", "-H", "Content-Type: application/json", "-H", header, "-d", body])
        .arg(format!("http://{}/v1/metrics", service.listen))
        .output();
    String::from_utf8(output.unwrap().stdout).unwrap()
}

fn names(of: &str, count: usize) -> Vec<String> {
    (0..count).map(|number| format!("{of}{number}")).collect()
}

fn body(names: &[String], end: u64) -> String {
    points(&names.iter().map(String::as_str).collect::<Vec<_>>(), end, 1)
}

#[test]
fn a_sender_that_posts_too_much_has_to_wait_and_loses_nothing() {
    let place = Place::new();
    let service = place.serve_with(&["--sink", &place.sink(), "--sender-points", "1"]);
    let (all, one) = (names("a", 60), names("b", 1));
    assert_eq!(service.post("A", &body(&all, 100)).unwrap().0, 200);
    let over = posted(&service, "x-sender: A", &body(&one, 100));
    assert!(over.starts_with("HTTP/1.1 429 Too Many Requests"), "{over}");
    assert!(over.contains("\r\nretry-after: 1\r\n"), "{over}");
    assert!(
        over.contains("over its quota: A may post 1 points a second, 60 at once: retry in 1 s"),
        "{over}"
    );
    assert_eq!(service.post("B", &body(&names("c", 60), 100)).unwrap().0, 200, "another has its own");
    let shown = service.said(&["status"]);
    assert!(shown.contains("nearest to its quota"), "{shown}");
    let ratio = "totxegun_sender_quota_ratio{quota=\"points\",sender=\"A\"} ";
    assert!(service.metrics().contains(ratio), "{}", service.metrics());
    until("its post is taken", || {
        posted(&service, "x-sender: A", &body(&one, 100)).starts_with("HTTP/1.1 200")
    });
    service.drain();
    let totals = place.totals();
    assert_eq!((totals.len(), totals.values().sum::<i64>()), (121, 121));
    // Each series was in one request, the first one after its owner was known.
    let senders = "select sender, count(*) from series group by 1";
    let file = place.folder.path().join("sink.db");
    let senders = Command::new("sqlite3").arg(file).arg(senders).output().unwrap();
    assert_eq!(String::from_utf8(senders.stdout).unwrap(), "A|61\nB|60\n");
    assert_eq!(service.end(), Some(0));
}

/// Also after a restart, since the folder has the sender's series.
#[test]
fn a_sender_with_all_of_its_series_gets_no_new_ones() {
    let place = Place::new();
    let (sink, first) = (place.sink(), names("a", 3));
    let words = ["--sink", &sink, "--sender-series", "3"];
    let service = place.serve_with(&words);
    assert_eq!(service.post("A", &body(&first, 100)).unwrap().0, 200);
    let is_over = |service: &Service| {
        let over = posted(service, "x-sender: A", &body(&names("b", 1), 100));
        over.starts_with("HTTP/1.1 429")
            && over.contains("A has 3 series of at most 3, so new ones are refused")
    };
    assert!(is_over(&service));
    service.drain();
    assert_eq!(service.end(), Some(0));
    let service = place.serve_with(&words);
    until("they are counted", || is_over(&service));
    assert_eq!(service.post("A", &body(&first, 200)).unwrap().0, 200, "what it has goes on");
    let alone = posted(&service, "x-sender: B", &body(&names("b", 4), 100));
    assert!(alone.starts_with("HTTP/1.1 413") && alone.contains("has more new ones"), "{alone}");
    assert_eq!(service.post("B", &body(&names("b", 3), 100)).unwrap().0, 200);
    service.drain();
    assert_eq!(place.totals().values().sum::<i64>(), 9);
    service.has_no_fault();
}

/// As when there is no room for any: otherwise a quota that is used up would stay so.
#[test]
fn series_that_nobody_posts_to_make_room_in_a_share() {
    let place = Place::new();
    let words = ["--sink", &place.sink(), "--sender-series", "3", "--series-ttl", "1s"];
    let service = place.serve_with(&words);
    assert_eq!(service.post("A", &body(&names("a", 3), 100)).unwrap().0, 200);
    let new = || posted(&service, "x-sender: A", &body(&names("b", 1), 100));
    assert!(new().starts_with("HTTP/1.1 429"));
    until("there is room", || new().starts_with("HTTP/1.1 200"));
    service.drain();
    assert_eq!(place.totals().values().sum::<i64>(), 4);
    service.has_no_fault();
}

/// The quota is on the token's line, which is read anew.
#[test]
fn a_token_s_line_says_how_much_its_sender_may_have() {
    let place = Place::new();
    let file = place.folder.path().join("tokens");
    // The digest of the token `abc`, by `printf abc | sha256sum`.
    let line = "A sha256:ba7816bf8f01cfea414140de5dae2223b00361a396177a9cb410ff61f20015ad";
    std::fs::write(&file, format!("{line} points=1\n")).unwrap();
    let service = place.serve_with(&["--sink", &place.sink(), "--tokens", &file.display().to_string()]);
    let post = |end| posted(&service, "Authorization: Bearer abc", &body(&names("a", 60), end));
    assert!(post(100).starts_with("HTTP/1.1 200"));
    assert!(post(200).starts_with("HTTP/1.1 429"));
    std::fs::write(&file, format!("{line} points=1000\n")).unwrap();
    until("its line is read", || post(200).starts_with("HTTP/1.1 200"));
    assert_eq!(service.end(), Some(0));
}
