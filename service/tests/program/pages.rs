//! Tests what programs may ask of the admin address, and a web page may not.

use crate::support::{points, Place, Service, NO_SINK};
use std::process::Command;

/// All routes that change something, or show what senders have sent.
const GUARDED: [(&str, &str); 10] = [
    ("POST", "/flush"),
    ("POST", "/quarantine/A"),
    ("POST", "/release/A"),
    ("POST", "/dead-letters/0-a-1/resend"),
    ("POST", "/dead-letters/0-a-1/drop"),
    ("GET", "/dead-letters"),
    ("GET", "/dead-letters/0-a-1"),
    ("GET", "/totals"),
    ("GET", "/status"),
    ("GET", "/metrics"),
];

fn curl(service: &Service, method: &str, path: &str, headers: &[&str]) -> (u16, String) {
    by(Command::new("curl"), service, method, path, headers)
}

fn at_socket(service: &Service, method: &str, path: &str, headers: &[&str]) -> (u16, String) {
    let mut command = Command::new("curl");
    command.arg("--unix-socket").arg(service.socket());
    by(command, service, method, path, headers)
}

fn by(mut curl: Command, service: &Service, method: &str, path: &str, headers: &[&str]) -> (u16, String) {
    curl.args(["-sS", "-X", method, "-w", "\n%{http_code}"]);
    for header in headers {
        curl.args(["-H", header]);
    }
    let output = curl.arg(format!("http://{}{path}", service.operate)).output();
    let text = String::from_utf8(output.unwrap().stdout).unwrap();
    let (body, status) = text.rsplit_once('\n').unwrap();
    (status.parse().unwrap(), body.to_string())
}

#[test]
fn a_page_changes_nothing_and_reads_nothing() {
    let place = Place::new();
    let service = place.serve();
    for (header, why) in [
        ("Origin: https://evil.example", "it has an Origin"),
        ("Origin: null", "it has an Origin"),
        ("Sec-Fetch-Site: cross-site", "it has a Sec-Fetch-Site"),
        ("Sec-Fetch-Site: same-origin", "it has a Sec-Fetch-Site"),
        ("Host: evil.example:4319", "`evil.example:4319` is not an allowed host"),
    ] {
        for (method, path) in GUARDED {
            for ask in [curl, at_socket] {
                let (status, body) = ask(&service, method, path, &[header]);
                assert_eq!(status, 403, "{header}: {method} {path}: {body}");
                assert!(body.contains(why), "{body}");
            }
        }
    }
    assert_eq!(service.status()["shards"][0]["quarantined"], serde_json::json!([]));
    assert_eq!(service.end(), Some(0));
}

#[test]
fn programs_ask_as_before() {
    let place = Place::new();
    let service = place.serve();
    assert_eq!(service.post("A", &points(&["a"], 100, 5)).unwrap().0, 200);
    let port = service.operate.rsplit_once(':').unwrap().1;
    let by_name = format!("Host: localhost:{port}");
    for headers in [&[][..], &[&*by_name], &["Sec-Fetch-Site: none"], &["Host: [::1]"]] {
        for (path, wanted) in
            [("/flush", 200), ("/quarantine/B", 200), ("/release/B", 200), ("/dead-letters/0-a-1/drop", 404)]
        {
            let (status, body) = at_socket(&service, "POST", path, headers);
            assert_eq!(status, wanted, "{headers:?}: {path}: {body}");
        }
        assert_eq!(at_socket(&service, "GET", "/dead-letters", headers), (200, "[]".into()));
    }
    service.drain();
    let prometheus = [
        "User-Agent: Prometheus/2.42.0",
        "Accept: application/openmetrics-text;version=1.0.0,text/plain;version=0.0.4",
        "X-Prometheus-Scrape-Timeout-Seconds: 10",
    ];
    for path in ["/metrics", "/totals"] {
        assert_eq!(curl(&service, "GET", path, &prometheus).0, 200, "{path}");
    }
    // A probe may use another name.
    for path in ["/healthz", "/readyz", "/startupz"] {
        assert_eq!(curl(&service, "GET", path, &["Host: totxegun:4319"]).0, 200, "{path}");
    }
    let said = service.said(&["flush"]);
    assert_eq!(said, "done: there was nothing to put into the outbox\n");
}

/// Otherwise an operator who flushes while the sink is down would think that all is delivered, or lost.
#[test]
fn who_flushes_is_told_what_waits() {
    let place = Place::new();
    let service = place.serve_with(&["--sink", NO_SINK, "--flush-interval", "1h"]);
    assert_eq!(service.post("A", &points(&["a"], 100, 5)).unwrap().0, 200);
    assert_eq!(service.said(&["flush"]), "done: 1 request went into the outbox\n");
    let said = service.said(&["flush"]);
    let begin = "done: there was nothing to put into the outbox, where 1 request waits for the sink: ";
    assert!(said.starts_with(begin), "{said}");
    assert_eq!(service.end(), Some(0));
}
