//! What a period counts, though it began before it, is said by its close and by an export.

use crate::support::{points, Place, PROGRAM};
use std::io::{BufRead, BufReader};
use std::process::{Command, Stdio};
use std::time::{Duration, Instant};

const HOUR: u64 = 3_600_000_000_000;

/// A cumulative sender that was cut off over three hours.
#[test]
fn a_close_and_an_export_say_what_began_before_the_period() {
    let place = Place::new();
    let sink = place.sink();
    let service = place.serve_with(&["--sink", &sink, "--initial-value", "keep", "--keep-intervals", "1h"]);
    let post = |name: &str, start: u64, end: u64, value: u64| {
        let point = format!(r#"{{"startTimeUnixNano":"{start}","timeUnixNano":"{end}","asInt":"{value}"}}"#);
        let sum = format!(r#"{{"aggregationTemporality":2,"isMonotonic":true,"dataPoints":[{point}]}}"#);
        let body = format!(
            r#"{{"resourceMetrics":[{{"scopeMetrics":[{{"metrics":[{{"name":"{name}","sum":{sum}}}]}}]}}]}}"#
        );
        let (status, text) = service.post("shop-3", &body).unwrap();
        assert_eq!(status, 200, "{text}");
        service.drain();
    };
    let begin = 100 * 24 * HOUR; // 1970-04-11
    post("orders", begin, begin + HOUR / 2, 5);
    post("orders", begin, begin + 4 * HOUR + HOUR / 2, 47);
    post("orders", begin, begin + 4 * HOUR + 3 * HOUR / 4, 48);
    let line = "42 of orders by shop-3 from 1970-04-11T00:30:00.000000Z to 1970-04-11T04:30:00.000000Z";
    let said = service.said(&["close", "1970-04-11T04"]);
    let wanted =
        format!("; counted in it, though it began before: {line} (table long_intervals; `totxegun adjust`");
    assert!(said.contains(&wanted), "{said}");
    let said = service.said(&["close", "1970-04-11T00"]);
    assert!(!said.contains("though it began before"), "{said}");
    let exported = |day: &str| service.said(&["export", "--day", day, "--csv", "--sink", &sink]);
    assert!(!exported("1970-04-11").contains("though it began before"), "{}", exported("1970-04-11"));
    // In New York the 11th begins at 5 o'clock, in the middle of it.
    let said = service.said(&[
        "export",
        "--day",
        "1970-04-10",
        "--csv",
        "--sink",
        &sink,
        "--time-zone",
        "America/New_York",
    ]);
    assert!(!said.contains("though it began before") && said.contains(",48,0,48,"), "{said}");
    assert_eq!(service.end(), Some(0));
}

/// Else whoever closes a month looks at nothing for a minute, and does not know what is wrong.
#[test]
fn a_close_says_at_once_what_it_waits_for() {
    let place = Place::new();
    let service = place.serve();
    assert_eq!(service.post("A", &points(&["a"], 100, 5)).unwrap().0, 200);
    service.drain();
    let held = rusqlite::Connection::open(place.folder.path().join("sink.db")).unwrap();
    held.execute_batch("begin exclusive").unwrap();
    assert_eq!(service.post("A", &points(&["a"], 200, 7)).unwrap().0, 200);
    let (month, data) = ("1970-01", place.data());
    let mut close = Command::new(PROGRAM);
    close.args(["close", month, "--flush", "--data"]).arg(data).stdout(Stdio::piped()).stderr(Stdio::piped());
    let mut close = close.spawn().unwrap();
    let mut lines = BufReader::new(close.stderr.take().unwrap()).lines();
    let begun = Instant::now();
    let line = lines.next().unwrap().unwrap();
    assert!(line.contains("1 request waits for sqlite ") && line.contains("for up to 60 s: "), "{line}");
    assert!(begun.elapsed() < Duration::from_secs(20), "{:?}", begun.elapsed());
    held.execute_batch("rollback").unwrap();
    let output = close.wait_with_output().unwrap();
    assert!(output.status.success(), "{output:?}");
    assert_eq!(place.totals()["a"], 12);
    // Nothing is flushed for what can't be closed.
    let said = service.said(&["close", "2999-01", "--flush"]);
    assert!(said.contains("2999-01 ends at 2999-02-01 00:00 UTC, and it is "), "{said}");
    assert_eq!(service.end(), Some(0));
}

/// From the command line to the sink and back, with the zone in each of them.
#[test]
fn a_month_of_a_zone_is_closed_exported_and_opened() {
    let place = Place::new();
    let sink = place.sink();
    let service = place.serve_with(&["--sink", &sink]);
    // The last hour of February in Berlin, and the first one of March, which is February in UTC.
    let march = (31 + 28) * 24 * HOUR - HOUR;
    for (name, end, value) in [("a", march, 5), ("b", march + HOUR, 7)] {
        assert_eq!(service.post("A", &points(&[name], end, value)).unwrap().0, 200);
    }
    service.drain();
    let zone = ["--time-zone", "Europe/Berlin"];
    let said = |words: &[&str]| service.said(&[words, &zone].concat());
    let closed = said(&["close", "1970-02", "--flush"]);
    assert!(closed.starts_with("done: 1970-02 Europe/Berlin is closed"), "{closed}");
    let export = ["export", "--month", "1970-02", "--csv", "--sink", &sink];
    let exported = said(&export);
    assert!(exported.contains(",5,0,5,") && !exported.contains(",7,0,7,"), "{exported}");
    assert!(exported.contains("1970-02 Europe/Berlin: 1 row, sha256 "), "{exported}");
    assert!(exported.contains(", 1970-02 Europe/Berlin, closed by "), "{exported}");
    let of_utc = service.said(&export);
    assert!(
        of_utc.contains(",7,0,7,") && of_utc.contains("not closed: a later export may differ"),
        "{of_utc}"
    );
    assert!(service
        .said(&["reopen", "1970-02"])
        .contains("was not closed by itself: open what was, 1970-02 Europe/Berlin"));
    assert!(said(&["reopen", "1970-02"]).contains("done: 1970-02 Europe/Berlin is open"));
    for (words, code, part) in [
        (
            &["close", "1970-02", "--time-zone", "Asia/Kolkata"][..],
            1,
            "UTC+05:30 then, and the sink has whole hours",
        ),
        (&["close", "1970-02-05T13", "--time-zone", "Europe/Berlin"], 1, "hours are of UTC"),
        (
            &["close", "1970-02", "--time-zone", "Europe/Atlantis"],
            2,
            "no time zone Europe/Atlantis is known here",
        ),
    ] {
        let (status, said) = service.ended_by(words);
        assert!(status == Some(code) && said.contains(part), "{words:?}: {status:?}, {said}");
    }
    let acts = std::fs::read_to_string(place.data().join("acts.jsonl")).unwrap();
    assert!(
        acts.contains(r#""action":"close","target":"1970-02 Europe/Berlin","args":["--flush"]"#),
        "{acts}"
    );
    assert_eq!(service.end(), Some(0));
}
