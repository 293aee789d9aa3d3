//! A sender posts under another name: who has its series is told to the operator, and what to do about it.

use crate::support::{points, until, Place};
use std::process::Command;

const SERIES_OF_SINK: &str = "select name, sender from series order by 1";

fn asked_of_sink(place: &Place, query: &str) -> String {
    let file = place.folder.path().join("sink.db");
    let output = Command::new("sqlite3").arg(file).arg(query).output().expect("sqlite3");
    String::from_utf8(output.stdout).unwrap().trim().into()
}

/// Posts without names, and tokens later: all of it is refused, and the advice has to be what helps.
#[test]
fn a_sender_that_gets_a_name_is_renamed_as_the_status_says() {
    let place = Place::new();
    let sink = place.sink();
    let mut service = place.serve_with(&["--sink", &sink]);
    assert_eq!(service.post("-", &points(&["a", "b"], 100, 5)).unwrap().0, 200);
    assert_eq!(service.post("other", &points(&["c"], 100, 7)).unwrap().0, 200);
    service.drain();
    assert_eq!(asked_of_sink(&place, SERIES_OF_SINK), "a|-\nb|-\nc|other");
    let post = |service: &crate::support::Service, end| service.post("shop-1", &points(&["a", "b"], end, 5));
    let (status, answer) = post(&service, 200).unwrap();
    assert!(
        status == 400 && answer.contains("if only this sender's name has changed, have it renamed"),
        "{answer}"
    );
    assert!(!answer.contains("senders rename"), "whose it is, is for the operator: {answer}");
    let advice = "the series is that of posts without a name: if it posted without a name before, `totxegun senders rename - shop-1`";
    until("the status says what to do", || service.said(&["status"]).contains(advice));
    let (_, page) = service.asked_for("/").unwrap();
    assert!(page.contains("totxegun senders rename - shop-1"), "{page}");
    assert!(place.log().contains("`totxegun senders rename - shop-1`"), "{}", place.log());
    // A post of which something is taken, too.
    let (status, _) = service.post("shop-1", &points(&["a", "d"], 200, 5)).unwrap();
    assert_eq!(status, 200);
    let rows = || service.status()["rejected"]["first"].clone();
    until("the status names the owner", || rows()[0]["owner"] == "-");
    assert_eq!(service.ended_by(&["senders", "rename", "-", "-"]).0, Some(1));
    let said = service.said(&["senders", "rename", "nobody", "shop-1"]);
    assert!(
        said.contains("no series is nobody's: nothing of it was taken yet, or it is renamed already"),
        "{said}"
    );
    let said = service.said(&["senders", "rename", "-", "shop-1"]);
    assert_eq!(said, "done: 2 series of - are shop-1's now\n");
    assert_eq!(post(&service, 200).unwrap().0, 200);
    assert_eq!(service.post("-", &points(&["a"], 300, 5)).unwrap().0, 400);
    service.kill();
    let service = place.serve_with(&["--sink", &sink]);
    assert_eq!(post(&service, 300).unwrap().0, 200);
    service.drain();
    assert_eq!(asked_of_sink(&place, SERIES_OF_SINK), "a|shop-1\nb|shop-1\nc|other\nd|shop-1");
    let totals = [("a".to_string(), 15), ("b".to_string(), 15), ("c".to_string(), 7), ("d".to_string(), 5)];
    assert_eq!(place.totals(), totals.into());
    let acts = std::fs::read_to_string(place.data().join("acts.jsonl")).unwrap();
    assert!(
        acts.contains(r#""action":"senders rename","target":"- to shop-1","outcome":"done: 2 series of -"#),
        "{acts}"
    );
    assert_eq!(service.status()["dead_letters"], 0);
    service.has_no_fault();
    assert_eq!(service.end(), Some(0));
}
