//! Tests that a series is rewound which a wrong clock has put ahead, and that one is forgotten which the wrong sender
//! has.

use crate::support::{points, signal, until, Place};
use std::process::Command;
use std::time::{Duration, SystemTime, UNIX_EPOCH};

const SECOND: u64 = 1_000_000_000;
const YEAR: u64 = 365 * 86_400 * SECOND;

fn now() -> u64 {
    SystemTime::now().duration_since(UNIX_EPOCH).unwrap().as_nanos() as u64
}

fn utc(nanoseconds: u64) -> String {
    let at = format!("@{}", nanoseconds / SECOND);
    let said = Command::new("date").args(["-u", "-d", &at, "+%FT%T"]).output().unwrap();
    String::from_utf8(said.stdout).unwrap().trim().into()
}

fn acts(place: &Place) -> Vec<String> {
    let text = std::fs::read_to_string(place.data().join("acts.jsonl")).unwrap();
    let ended = text.lines().filter(|line| line.contains("outcome"));
    ended
        .map(|line| {
            let act: serde_json::Value = serde_json::from_str(line).unwrap();
            format!("{} {}", act["action"].as_str().unwrap(), act["target"].as_str().unwrap())
        })
        .collect()
}

#[test]
fn a_series_is_put_back_and_what_the_sink_has_of_it_is_told() {
    let place = Place::new();
    let sink = place.sink();
    let mut service = place.serve_with(&["--sink", &sink, "--max-ahead", "off"]);
    let ahead = now() + YEAR;
    assert_eq!(service.post("A", &points(&["a", "b"], ahead, 5)).unwrap().0, 200);
    service.drain();
    let begun = now();
    let right = points(&["a"], begun, 1);
    let (status, why) = service.post("A", &right).unwrap();
    assert!(status == 400 && why.contains("duplicate or late"), "{why}");
    for (words, part) in [
        (&["rewind", "c", "--to", "2026-11-27"][..], "no series is named c"),
        (&["rewind", "a{host=x}", "--to", "2026-11-27"], "no series is named"),
        (&["rewind", "a", "--to", "2100-01-01"], "after the service's clock"),
    ] {
        let said = service.said(words);
        assert!(said.contains(part), "{said}");
    }
    let said = service.said(&["rewind", "a", "--to", "2026-01-01T00:00:00"]);
    assert!(said.contains("done: 1 series ends at 2026-01-01 00:00:00 now"), "{said}");
    assert!(said.contains("; the sink has of it from that hour on 5 in "), "{said}");
    assert_eq!(service.post("A", &right).unwrap().0, 200);
    // Another series that ended ahead is as it was, and the rewound one is as it is now, even after a kill.
    assert_eq!(service.post("A", &points(&["b"], begun, 1)).unwrap().0, 400);
    service.kill();
    let service = place.serve_with(&["--sink", &sink, "--max-ahead", "off"]);
    let line = "series end over an hour ahead of this clock";
    until("the log says so", || place.log().contains(line));
    assert_eq!(service.post("A", &right).unwrap(), (200, "{}".into()), "it was taken");
    assert_eq!(service.post("A", &points(&["a"], begun + 10, 2)).unwrap().0, 200);
    let said = service.said(&["forget", "b"]);
    assert!(said.contains("1 series is forgotten"), "{said}");
    let (code, said) = service.ended_by(&["forget", "b{host=x}"]);
    let wanted =
        "done: no series is named b{host=x}: nothing of it is known yet, or it is forgotten already\n";
    assert_eq!((code, said.as_str()), (Some(0), wanted));
    // The series ended ahead. In the sink it ends at the time when it was forgotten.
    assert_eq!(service.post("B", &points(&["b"], now(), 1)).unwrap().0, 200);
    service.drain();
    assert_eq!(place.totals().values().sum::<i64>(), 5 + 1 + 2 + 5 + 1);
    service.has_no_fault();
    let wanted = [
        "rewind c to 2026-11-27 00:00:00",
        "rewind a{host=x} to 2026-11-27 00:00:00",
        "rewind a to 2100-01-01 00:00:00",
        "rewind a to 2026-01-01 00:00:00",
        "forget b",
        "forget b{host=x}",
    ];
    assert_eq!(acts(&place), wanted);
    assert_eq!(service.end(), Some(0));
}

/// Such a sink can't tell a repeat from what it has.
#[test]
fn a_sink_that_can_t_tell_a_repeat_wants_it_said() {
    let place = Place::new();
    let service = place.serve_with(&["--sink", crate::support::NO_SINK, "--max-ahead", "off"]);
    assert_eq!(service.post("A", &points(&["a"], now() + YEAR, 5)).unwrap().0, 200);
    let words = ["rewind", "a", "--to", "2026-01-01"];
    let said = service.said(&words);
    assert!(said.contains("give --force"), "{said}");
    let said = service.said(&[&words[..], &["--force"]].concat());
    assert!(said.contains("what is posted again of that time counts twice"), "{said}");
    assert_eq!(service.post("A", &points(&["a"], now(), 1)).unwrap().0, 200);
    assert_eq!(service.end(), Some(0));
}

/// What the sink has ahead is in nobody's way: right points are counted, each once, whenever the service was killed.
#[test]
fn what_comes_behind_a_repair_is_counted_once_over_kills() {
    let place = Place::new();
    let sink = place.sink();
    let begin = now() / SECOND * SECOND - 1000 * SECOND;
    let to = utc(begin);
    let mut service = place.serve_with(&["--sink", &sink, "--max-ahead", "off"]);
    for round in 0..20 {
        let name = &*format!("a{round}");
        for step in 1..4 {
            let ahead = points(&[name], begin + (100 + 50 * step) * SECOND, 100);
            assert_eq!(service.post_until_answered("A", &ahead).0, 200);
        }
        service.drain();
        // The service may be killed before, during or after the repair.
        let repair = &["rewind", name, "--to", &to];
        std::thread::scope(|scope| {
            let asked = scope.spawn(|| service.said(repair));
            std::thread::sleep(Duration::from_millis(3 * round));
            signal(service.pid(), "KILL");
            asked.join().unwrap();
        });
        service.kill();
        service = place.serve_with(&["--sink", &sink, "--max-ahead", "off"]);
        let said = service.said(repair);
        assert!(said.contains("1 series ends at") || said.contains("nothing to put back"), "{said}");
        for step in 1..=40 {
            let right = points(&[name], begin + 10 * step * SECOND, 1);
            assert_eq!(service.post_until_answered("A", &right).0, 200, "{round}, {step}");
            if step % 8 == 0 {
                assert_eq!(service.order("/flush").0, 200);
            }
            if step == 20 {
                service.kill();
                service = place.serve_with(&["--sink", &sink, "--max-ahead", "off"]);
            }
        }
        service.drain();
        assert_eq!(place.totals()[name], 340, "{name}");
    }
    assert_eq!(service.status()["dead_letters"], 0);
    service.has_no_fault();
    assert_eq!(service.end(), Some(0));
}

/// After the repair, a run that a wrong clock has put ahead goes on with what it has counted since.
#[test]
fn a_cumulative_run_goes_on_behind_a_repair() {
    let place = Place::new();
    let service =
        place.serve_with(&["--sink", &place.sink(), "--max-ahead", "off", "--initial-value", "keep"]);
    let begin = now() / SECOND * SECOND - 1000 * SECOND;
    let point = |time: u64, value: i64| {
        let sum = "\"aggregationTemporality\":2,\"isMonotonic\":true";
        format!(
            "{{\"resourceMetrics\":[{{\"scopeMetrics\":[{{\"metrics\":[{{\"name\":\"c\",\"sum\":{{{sum},\"dataPoints\":[{{\
             \"asInt\":\"{value}\",\"startTimeUnixNano\":\"{begin}\",\"timeUnixNano\":\"{}\"}}]}}}}]}}]}}]}}",
            begin + time * SECOND
        )
    };
    for (time, value) in [(10, 1), (500, 5), (600, 8)] {
        assert_eq!(service.post("A", &point(time, value)).unwrap().0, 200);
        service.drain();
    }
    let said = service.said(&["rewind", "c", "--to", &utc(begin + 10 * SECOND)]);
    assert!(said.contains("1 series ends at"), "{said}");
    for step in 1..=60 {
        assert_eq!(service.post("A", &point(10 + 10 * step, 8 + step as i64)).unwrap().0, 200);
        if step % 7 == 0 {
            service.drain();
        }
    }
    service.drain();
    assert_eq!((place.totals()["c"], service.status()["dead_letters"].as_u64()), (68, Some(0)));
    service.has_no_fault();
    assert_eq!(service.end(), Some(0));
}
