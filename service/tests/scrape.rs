//! Tests that `/totals` of the program has what `totxegun totals` shows, also after a kill and a restart.

use std::io::{Read, Write};
use std::net::{TcpListener, TcpStream};
use std::path::{Path, PathBuf};
use std::process::{Child, Command, Stdio};
use std::time::{Duration, Instant};

/// More than a float holds exactly, and little enough that the book takes it.
const LARGE: i64 = (1 << 62) + 1;

struct Service {
    child: Child,
    listen: String,
    operate: String,
    data: PathBuf,
}

impl Drop for Service {
    fn drop(&mut self) {
        let _ = self.child.kill();
        let _ = self.child.wait();
    }
}

fn free_address() -> String {
    let listener = TcpListener::bind("127.0.0.1:0").unwrap();
    listener.local_addr().unwrap().to_string()
}

fn serve(data: &Path, sink: &[&str]) -> Service {
    let (listen, operate) = (free_address(), free_address());
    let child = Command::new(env!("CARGO_BIN_EXE_totxegun"))
        .args(["serve", "--flush-interval", "3600s", "--listen-grpc", "off", "--data"])
        .arg(data)
        .args(["--listen", &listen, "--admin", &operate])
        .args(sink)
        .stderr(Stdio::null())
        .spawn()
        .unwrap();
    let service = Service { child, listen, operate, data: data.to_path_buf() };
    let begun = Instant::now();
    while !matches!(asked(&service.operate, "GET", "/readyz", ""), Some((200, _))) {
        assert!(begun.elapsed() < Duration::from_secs(60), "it is not ready");
        std::thread::sleep(Duration::from_millis(20));
    }
    service
}

fn asked(address: &str, method: &str, path: &str, body: &str) -> Option<(u16, String)> {
    let mut stream = TcpStream::connect(address).ok()?;
    let length = body.len();
    write!(
        stream,
        "{method} {path} HTTP/1.1\r\nHost: 127.0.0.1\r\nx-sender: A\r\nContent-Type: application/json\r\n\
         Content-Length: {length}\r\nConnection: close\r\n\r\n{body}"
    )
    .ok()?;
    let mut answer = String::new();
    stream.read_to_string(&mut answer).ok()?;
    let (head, body) = answer.split_once("\r\n\r\n")?;
    Some((head.get(9..12)?.parse().ok()?, body.to_string()))
}

fn until_it_is_delivered(service: &Service) {
    let begun = Instant::now();
    loop {
        let (_, status) = asked(&service.operate, "GET", "/status", "").unwrap();
        let status: serde_json::Value = serde_json::from_str(&status).unwrap();
        if status["shards"][0]["waiting"] == 0 {
            break;
        }
        assert!(begun.elapsed() < Duration::from_secs(60), "{status}");
        std::thread::sleep(Duration::from_millis(20));
    }
}

impl Service {
    fn post(&self, end: u64, value: i64) {
        let start = end - 10;
        let body = format!(
            "{{\"resourceMetrics\":[{{\"scopeMetrics\":[{{\"metrics\":[{{\"name\":\"orders\",\"sum\":{{\
             \"aggregationTemporality\":1,\"isMonotonic\":true,\"dataPoints\":[{{\"asInt\":\"{value}\",\
             \"startTimeUnixNano\":\"{start}\",\"timeUnixNano\":\"{end}\"}}]}}}}]}}]}}]}}"
        );
        let answer = asked(&self.listen, "POST", "/v1/metrics", &body).unwrap();
        assert_eq!(answer, (200, "{}".into()));
    }

    fn told(&self, words: &[&str]) -> std::process::Output {
        let mut command = Command::new(env!("CARGO_BIN_EXE_totxegun"));
        command.args(words).arg("--data").arg(&self.data);
        command.env_remove("TOTXEGUN_SINK").output().unwrap()
    }

    fn order(&self, word: &str) {
        assert!(self.told(&[word]).status.success());
    }

    /// The value on the page, after the sink has all that was forwarded. `totxegun totals` has to show the same.
    fn total(&self) -> String {
        until_it_is_delivered(self);
        let (status, page) = asked(&self.operate, "GET", "/totals", "").unwrap();
        assert_eq!(status, 200, "{page}");
        let line = page.lines().find(|line| line.starts_with("orders_total{"));
        let found = line.unwrap().rsplit(' ').next().unwrap().to_string();
        let shown = self.told(&["totals", "--json"]);
        let shown: serde_json::Value = serde_json::from_slice(&shown.stdout).unwrap();
        assert_eq!(shown["total"], *found, "always a text");
        found
    }
}

#[test]
fn a_scrape_has_the_totals_over_a_kill_and_a_restart() {
    let folder = tempfile::tempdir().unwrap();
    let data = folder.path().join("data");
    let service = serve(&data, &[]);
    service.post(20, LARGE);
    service.order("flush");
    assert_eq!(service.total(), "4611686018427387905");
    service.post(30, LARGE);
    service.order("flush");
    assert_eq!(service.total(), "9223372036854775810");
    service.post(40, 5);
    drop(service); // killed: the last post is in the journal
    let service = serve(&data, &[]);
    assert_eq!(service.total(), "9223372036854775810");
    service.order("flush");
    assert_eq!(service.total(), "9223372036854775815");
}

#[test]
fn another_sink_has_no_page() {
    let folder = tempfile::tempdir().unwrap();
    let sink = ["--sink", "http://127.0.0.1:1/v1/metrics"];
    let service = serve(&folder.path().join("data"), &sink);
    let (status, text) = asked(&service.operate, "GET", "/totals", "").unwrap();
    assert_eq!(status, 404);
    assert!(text.contains("only a SQLite or PostgreSQL sink") && text.contains("127.0.0.1:1"), "{text}");
}

/// The data of a page is in memory until the page is read. Without this limit, as many readers as there may be
/// connections, which read nothing, would have as many pages, until no memory was left for posts.
#[test]
fn one_page_of_totals_is_on_its_way_at_a_time() {
    let folder = tempfile::tempdir().unwrap();
    let service = serve(&folder.path().join("data"), &[]);
    let long = "x".repeat(4_000);
    for first in (0..3_000).step_by(300) {
        let point = |number: u32| {
            format!(
            "{{\"asInt\":\"1\",\"startTimeUnixNano\":\"10\",\"timeUnixNano\":\"20\",\"attributes\":[             {{\"key\":\"n\",\"value\":{{\"stringValue\":\"{number}{long}\"}}}}]}}"
        )
        };
        let points = (first..first + 300).map(point).collect::<Vec<_>>().join(",");
        let body = format!(
            "{{\"resourceMetrics\":[{{\"scopeMetrics\":[{{\"metrics\":[{{\"name\":\"orders\",\"sum\":{{             \"aggregationTemporality\":1,\"isMonotonic\":true,\"dataPoints\":[{points}]}}}}]}}]}}]}}"
        );
        assert_eq!(asked(&service.listen, "POST", "/v1/metrics", &body), Some((200, "{}".into())));
    }
    service.order("flush");
    until_it_is_delivered(&service);
    let mut slow = TcpStream::connect(&service.operate).unwrap();
    write!(slow, "GET /totals HTTP/1.1\r\nHost: 127.0.0.1\r\n\r\n").unwrap();
    let mut begin = [0; 12];
    slow.read_exact(&mut begin).unwrap();
    assert_eq!(&begin, b"HTTP/1.1 200");
    let (status, text) = asked(&service.operate, "GET", "/totals", "").unwrap();
    assert!(status == 503 && text.contains("another reader"), "{status} {} bytes", text.len());
    assert_eq!(asked(&service.operate, "GET", "/readyz", "").unwrap().0, 200);
    drop(slow);
    let (status, page) = asked(&service.operate, "GET", "/totals", "").unwrap();
    assert!(status == 200 && page.len() > 3_000 * 4_000, "{status} {} bytes", page.len());
}

/// As a monitor asks that watches an address.
#[test]
fn a_head_is_that_of_its_page() {
    let folder = tempfile::tempdir().unwrap();
    let service = serve(&folder.path().join("data"), &[]);
    for path in ["/readyz", "/healthz", "/status", "/metrics", "/totals"] {
        let head = asked(&service.operate, "HEAD", path, "");
        assert_eq!(head, Some((200, String::new())), "{path}");
    }
    assert_eq!(asked(&service.operate, "HEAD", "/flush", "").unwrap().0, 405);
}

/// What waited while the sink was down arrives at once. Its time says when it was counted.
#[test]
fn a_sample_has_the_time_of_its_series_where_that_is_asked_for() {
    let folder = tempfile::tempdir().unwrap();
    let service = serve(&folder.path().join("data"), &["--totals-timestamps"]);
    service.post(1_700_000_000_123_456_789, 5);
    service.order("flush");
    until_it_is_delivered(&service);
    let (_, page) = asked(&service.operate, "GET", "/totals", "").unwrap();
    let line = page.lines().find(|line| line.starts_with("orders_total{")).unwrap();
    assert!(line.ends_with("} 5 1700000000123"), "{line}");
}

/// To Prometheus a series with another label is another one.
#[test]
fn a_series_has_its_sender_where_that_is_asked_for() {
    let folder = tempfile::tempdir().unwrap();
    let service = serve(&folder.path().join("data"), &[]);
    // In October 2026.
    service.post(1_792_000_000_000_000_000, 5);
    service.order("flush");
    until_it_is_delivered(&service);
    let labels = |path: &str| {
        let (_, page) = asked(&service.operate, "GET", path, "").unwrap();
        page.lines().find(|line| line.starts_with("orders_total{")).unwrap().to_string()
    };
    assert!(labels("/totals?sender").contains(",otel_sender=\"A\","), "{}", labels("/totals?sender"));
    assert!(!labels("/totals").contains("otel_sender"), "{}", labels("/totals"));
    for (words, part) in [
        (&["totals", "--json"][..], "\"sender\":\"A\""),
        (&["export", "--month", "2026-10", "--json"], "\"sender\":\"A\""),
        (&["export", "--month", "2026-10", "--csv"], ",A\n"),
    ] {
        let output = service.told(words);
        let text = String::from_utf8(output.stdout).unwrap();
        assert!(output.status.success() && text.contains(part), "{words:?}: {text}");
    }
}
