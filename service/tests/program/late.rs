//! Tests that points which their series refuse are kept, and listed by `totxegun late`.

use crate::support::{points, until, Place, Service};
use serde_json::Value;
use std::process::Command;

fn late(service: &Service, words: &[&str]) -> Vec<Value> {
    let said = service.said(&[&["late", "--json"], words].concat());
    let said: Value = serde_json::from_str(&said).unwrap_or_else(|_| panic!("{said}"));
    said["points"].as_array().unwrap().clone()
}

fn names(found: &[Value]) -> Vec<&str> {
    found.iter().map(|point| point["name"].as_str().unwrap()).collect()
}

/// Also after a kill. A repeat is listed once.
#[test]
fn what_a_series_refuses_is_listed_by_series_sender_reason_and_time() {
    let place = Place::new();
    let mut service = place.serve();
    assert_eq!(service.post("other", &points(&["theirs"], 100, 1)).unwrap().0, 200);
    assert_eq!(service.post("shop", &points(&["a", "b"], 200, 5)).unwrap().0, 200);
    assert_eq!(service.said(&["late"]), "no point that a series refused is kept\n");
    service.drain();
    let hour = 3_600_000_000_000;
    let (status, text) = service.post("shop", &points(&["a", "theirs", "c"], 150, 7)).unwrap();
    assert!(
        status == 200
            && text.contains("so 1970-01-01T00:00:00.000000Z to 1970-01-01T00:00:00.000000Z is not counted"),
        "{text}"
    );
    assert_eq!(service.post("shop", &points(&["c"], 2 * hour, 7)).unwrap().0, 200);
    for _ in 0..2 {
        let (status, text) = service.post("shop", &points(&["c"], hour + 50, 9)).unwrap();
        let part = "so 1970-01-01T01:00:00.000000Z to 1970-01-01T01:00:00.000000Z is not counted";
        assert!(status == 400 && text.contains(part), "{text}");
    }
    let page = "totxegun_late_points_total{outcome=\"kept\"} 4";
    until("all are written", || service.metrics().contains(page));
    service.kill();
    let service = place.serve();
    let all = late(&service, &[]);
    assert_eq!(names(&all), ["a", "theirs", "c"]);
    let of = |point: &Value| {
        [&point["sender"], &point["reason"], &point["value"], &point["series_sender"]].map(Value::to_string)
    };
    assert_eq!(of(&all[0]), ["\"shop\"", "\"duplicate_or_late\"", "\"7\"", "null"]);
    assert_eq!(of(&all[1]), ["\"shop\"", "\"other_writer\"", "\"7\"", "\"other\""]);
    let end = (hour + 50).to_string();
    assert_eq!((&all[2]["end_ns"], &all[2]["temporality"]), (&end.into(), &"delta".into()));
    for (words, wanted) in [
        (&["--series", "a"][..], &["a"][..]),
        (&["--sender", "other"], &[]),
        (&["--reason", "other_writer"], &["theirs"]),
        (&["--since", "1970-01-01T00:30:00"], &["c"]),
        (&["--until", "1970-01-01T00:30:00"], &["a", "theirs"]),
        (&["--limit", "1"], &["c"]),
    ] {
        assert_eq!(names(&late(&service, words)), wanted, "{words:?}");
    }
    let table = service.said(&["late"]);
    let line = table.lines().find(|line| line.contains(" theirs ")).unwrap_or_else(|| panic!("{table}"));
    assert!(line.contains("shop") && line.ends_with("is other's"), "{line}");
    let status = service.status();
    assert!(status["late"]["bytes"].as_u64().unwrap() > 500, "{status}");
    assert!(service.said(&["status"]).contains("`totxegun late` shows them"));
    assert!(service
        .metrics()
        .lines()
        .any(|line| line.starts_with("totxegun_late_bytes ") && !line.ends_with(" 0")));
    // The list shows what senders sent, so over TCP it is only for operators.
    assert_eq!(service.asked_for("/late").unwrap().0, 403);
    service.has_no_fault();
}

/// The service goes on if the folder can't be written, and if it is gone.
#[test]
fn late_data_that_can_t_be_written_ends_nothing() {
    let place = Place::new();
    std::fs::create_dir_all(place.data()).unwrap();
    std::fs::write(place.data().join("late"), "no folder").unwrap();
    let service = place.serve();
    assert_eq!(service.post("shop", &points(&["a"], 200, 5)).unwrap().0, 200);
    assert_eq!(service.post("shop", &points(&["a"], 150, 7)).unwrap().0, 400);
    let page = "totxegun_late_points_total{outcome=\"not_kept\"} 1";
    until("it is counted", || service.metrics().contains(page));
    assert_eq!(service.post("shop", &points(&["a"], 300, 5)).unwrap().0, 200);
    assert!(place.log().contains("late data can't be written"), "{}", place.log());
    service.has_no_fault();
    assert_eq!(service.end(), Some(0));
}

/// Late data that is booked counts once, in the hour in which it ended, even if the sink has no row of that hour.
#[test]
fn late_data_is_booked_once() {
    let place = Place::new();
    let sink = place.sink();
    let service = place.serve_with(&["--sink", &sink, "--flush-interval", "1h"]);
    let hour = 3_600_000_000_000;
    assert_eq!(service.post("shop", &points(&["a", "b"], 5 * hour, 5)).unwrap().0, 200);
    assert_eq!(service.post("shop", &points(&["a"], 2 * hour + 50, 7)).unwrap().0, 400);
    let page = "totxegun_late_points_total{outcome=\"kept\"} 1";
    until("it is written", || service.metrics().contains(page));
    let key = late(&service, &[])[0]["key"].as_str().unwrap().to_string();
    let (code, said) = service.ended_by(&["adjust", "--late", &key]);
    assert!(code == Some(1) && said.contains("has nothing of a series a yet"), "{said}");
    service.drain();
    let (code, said) = service.ended_by(&["adjust", "--late", "0000000000000000"]);
    assert!(code == Some(1) && said.contains("no late data here has the key"), "{said}");
    let said = service.said(&["adjust", "--late", &key, "--dry-run"]);
    let wanted = "done: nothing is done; it would be: series 1 has +7 in 1970-01-01 02:00; it has counted nothing there\n";
    assert_eq!(said, wanted);
    assert_eq!(service.said(&["adjust", "--late", &key]), "done: series 1 has +7 in 1970-01-01 02:00\n");
    for words in [&["adjust", "--late", &key][..], &["adjust", "--late", &key, "--reason", "another"]] {
        let said = service.said(words);
        assert!(said.contains(&format!("late data {key} is booked already, by ")), "{said}");
    }
    // Adjusted by hand, by the series' name, in another hour.
    for (words, wanted) in [
        (&["a", "1970-01-01T03", "-2"][..], "done: series 1 has -2 in 1970-01-01 03:00\n"),
        (&["b{}", "1970-01-01T03", "4"], "done: series 2 has +4 in 1970-01-01 03:00\n"),
        (&["2", "1970-01-01T04", "1"], "done: series 2 has +1 in 1970-01-01 04:00\n"),
    ] {
        assert_eq!(service.said(&[&["adjust"], words, &["--reason", "by hand"]].concat()), wanted);
    }
    let (code, said) = service.ended_by(&["adjust", "c", "1970-01-01T03", "1", "--reason", "x"]);
    assert!(code == Some(1) && said.contains("the sink has no series named c"), "{said}");
    let query = "select name, hour, total, total_adjusted from by_hour order by name, hour";
    let file = sink.strip_prefix("sqlite:").unwrap();
    let rows = Command::new("sqlite3").args(["-separator", " ", file, query]).output().unwrap();
    let rows = String::from_utf8(rows.stdout).unwrap();
    let wanted = [
        "a 1970-01-01 02:00Z 0 7",
        "a 1970-01-01 03:00Z 0 -2",
        "a 1970-01-01 04:00Z 5 5",
        "b 1970-01-01 03:00Z 0 4",
        "b 1970-01-01 04:00Z 5 6",
    ];
    assert_eq!(rows.lines().collect::<Vec<_>>(), wanted);
    let acts = std::fs::read_to_string(place.data().join("acts.jsonl")).unwrap();
    assert!(
        acts.contains(&format!("\"action\":\"adjust\",\"target\":\"--late {key}\"")) && !acts.contains("dry"),
        "{acts}"
    );
    service.has_no_fault();
}

/// The close of a period, and its export, say which points of it are in no bill until they are booked.
#[test]
fn a_close_and_an_export_say_what_is_not_counted() {
    let place = Place::new();
    let sink = place.sink();
    let service = place.serve_with(&["--sink", &sink]);
    let hour = 3_600_000_000_000;
    let exported = || service.said(&["export", "--month", "1970-01", "--csv", "--sink", &sink]);
    assert_eq!(service.post("shop", &points(&["a", "b"], 5 * hour, 5)).unwrap().0, 200);
    service.drain();
    assert!(exported().contains("1970-01: nothing of it was refused as late or another sender's"));
    for (sender, value) in [("shop", 7), ("shop", 7), ("thief", 1)] {
        assert_eq!(service.post(sender, &points(&["a"], 2 * hour + 50, value)).unwrap().0, 400);
    }
    let page = "totxegun_late_points_total{outcome=\"kept\"} 3";
    until("all are written", || service.metrics().contains(page));
    let (late_one, stolen) =
        ("7 in 1 point of a by shop (duplicate_or_late)", "1 in 1 point of a by thief (other_writer)");
    let said = exported();
    for sum in [late_one, stolen] {
        assert!(said.contains(&format!("1970-01: refused, and not counted in it: {sum}")), "{said}");
    }
    let said = service.said(&["close", "1970-01-01T02"]);
    let wanted = format!("; refused, and not counted in it: {late_one}; {stolen} (`totxegun late`");
    assert!(said.starts_with("done: ") && said.contains(&wanted), "{said}");
    let said = service.said(&["close", "1970-01-01T03"]);
    assert!(said.starts_with("done: ") && !said.contains("refused"), "{said}");
    let of_shop = late(&service, &["--sender", "shop"]);
    let said = service.said(&["adjust", "--late", of_shop[0]["key"].as_str().unwrap()]);
    assert!(said.contains("since its own hour is closed"), "{said}");
    let said = exported();
    assert!(!said.contains(late_one) && said.contains(stolen), "{said}");
    service.has_no_fault();
}
