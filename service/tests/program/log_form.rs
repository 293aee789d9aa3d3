//! Tests log lines in the forms that programs read.

use crate::support::{points, until, Place, Service, NO_SINK, PROGRAM};
use std::os::unix::fs::MetadataExt;
use std::process::Command;

/// The log of a service with a request that its sink does not take.
fn log_of(place: &Place, service: Service) -> String {
    until("it is ready", || service.is_ready());
    let posted = service.post_until_answered("A", &points(&["a"], 100, 5));
    assert_eq!(posted.0, 200, "{posted:?}");
    until("it is told", || place.log().contains("has not taken"));
    assert_eq!(service.end(), Some(0));
    place.log()
}

#[test]
fn a_log_in_json_has_an_object_a_line_with_its_fields() {
    let place = Place::new();
    let log = log_of(&place, place.begin(&["--log-json", "--sink", NO_SINK]));
    let read = |line: &str| serde_json::from_str::<serde_json::Value>(line).map_err(|_| line.to_string());
    let lines: Vec<_> = log.lines().map(read).collect::<Result<_, _>>().unwrap();
    for line in &lines {
        for field in ["ts", "level", "msg"] {
            assert!(line[field].is_string(), "{line}");
        }
    }
    let told = lines.iter().find(|line| line["key"].is_string()).unwrap();
    let field = |name: &str| told[name].as_str().unwrap();
    let (sink, key, reason) = (field("sink"), field("key"), field("reason"));
    assert_eq!(field("level"), "WARN");
    assert_eq!(sink, format!("otlp {NO_SINK}"));
    assert!(key.starts_with("0-") && reason.starts_with("no answer"), "{told}");
    assert_eq!(field("msg"), "the sink has not taken a request: it is retried");
}

#[test]
fn the_last_line_of_a_start_that_fails_is_an_object_too() {
    let place = Place::new();
    std::fs::create_dir(place.data()).unwrap();
    std::fs::write(place.data().join("version"), "of nothing").unwrap();
    let mut service = place.begin(&["--log-json"]);
    assert_eq!(service.status_of_end(), Some(70));
    let log = place.log();
    let last: serde_json::Value = serde_json::from_str(log.lines().last().unwrap()).unwrap();
    assert_eq!(last["level"], "ERROR", "{log}");
}

/// As when systemd starts it: JOURNAL_STREAM names standard error.
#[test]
fn journald_gets_a_priority_for_each_line() {
    let place = Place::new();
    let log = place.folder.path().join("log.txt");
    std::fs::write(&log, "").unwrap();
    let found = std::fs::metadata(&log).unwrap();
    let mut command = Command::new(PROGRAM);
    command.env("JOURNAL_STREAM", format!("{}:{}", found.dev(), found.ino()));
    let log = log_of(&place, place.begin_by(command, &["--sink", NO_SINK]));
    let ours: Vec<&str> =
        log.lines().filter(|line| line.contains(" INFO ") || line.contains(" WARN ")).collect();
    assert!(ours.len() > 3, "{log}");
    for line in ours {
        let priority = if line.contains(" WARN ") { "<4>" } else { "<5>" };
        assert!(line.starts_with(priority), "{line}");
    }
}
