//! Tests that operators' actions are recorded in the folder and in the log.

use crate::support::{points, Place};
use std::os::unix::fs::MetadataExt;

/// The name of the user who runs this test, as the machine knows it.
fn own_name() -> String {
    let users = std::fs::read_to_string("/etc/passwd").unwrap();
    let uid = std::fs::metadata("/proc/self").unwrap().uid().to_string();
    let row = users.lines().find(|row| row.split(':').nth(2) == Some(&uid));
    row.map_or(format!("uid {uid}"), |row| row.split(':').next().unwrap().to_string())
}

#[test]
fn who_did_what_and_what_came_of_it() {
    let place = Place::new();
    let service = place.serve();
    assert_eq!(service.post("A", &points(&["a"], 100, 1)).unwrap().0, 200);
    for (path, status) in [
        ("/flush", 200),
        ("/quarantine/A", 200),
        ("/release/A", 200),
        ("/release/A", 400),
        ("/release/B", 200),
        ("/dead-letters/0-a-1/drop", 404),
        ("/dead-letters/0-a-1/resend", 404),
    ] {
        assert_eq!(service.order(path).0, status, "{path}");
    }
    let text = std::fs::read_to_string(place.data().join("acts.jsonl")).unwrap();
    let who = own_name();
    let acts: Vec<serde_json::Value> = text.lines().map(|line| serde_json::from_str(line).unwrap()).collect();
    let found: Vec<_> = acts.iter().map(|act| (&act["action"], &act["target"], act.get("outcome"))).collect();
    let mut wanted = Vec::new();
    let no_such =
        "404: no such request: it was never put aside, or is gone, taken by the sink or thrown away";
    let told: [[serde_json::Value; 3]; 6] = [
        ["quarantine".into(), "A".into(), "done".into()],
        ["release".into(), "A".into(), "done".into()],
        ["release".into(), "A".into(), "400: not quarantined".into()],
        ["release".into(), "B".into(), "done: nothing of B is known yet: it is not quarantined".into()],
        ["dead-letters drop".into(), "0-a-1".into(), no_such.into()],
        ["dead-letters resend".into(), "0-a-1".into(), no_such.into()],
    ];
    for [act, of, outcome] in &told {
        wanted.extend([(act, of, None), (act, of, Some(outcome))]);
    }
    assert_eq!(found, wanted);
    assert!(acts.iter().all(|act| act["who"] == who.as_str()), "{text}");
    let log = place.log();
    assert!(
        log.contains(&format!("who=\"{who}\" action=\"quarantine\" target=\"A\" outcome=\"done\"")),
        "{log}"
    );
    assert!(!log.contains("action=\"flush\""), "{log}");
}

#[test]
fn a_close_is_recorded_with_the_option_that_was_given() {
    let place = Place::new();
    let service = place.serve();
    for (month, option) in [("1970-01", "--flush"), ("1970-02", "--force")] {
        let said = service.said(&["close", month, option]);
        assert!(said.contains("is closed"), "{said}");
    }
    let text = std::fs::read_to_string(place.data().join("acts.jsonl")).unwrap();
    let acts = text.lines().map(|line| serde_json::from_str::<serde_json::Value>(line).unwrap());
    let given: Vec<_> = acts.map(|act| format!("{} {}", act["target"], act["args"])).collect();
    let both = [r#""1970-01" ["--flush"]"#, r#""1970-02" ["--force"]"#];
    assert_eq!(given, both.map(|one| [one; 2]).concat());
}
