//! Each refusal has its own reason, whose text it begins with.

use super::*;
use crate::book;
use crate::identity::SenderRefusal;
use crate::ingest::refusal::{Full, Refusal};
use std::collections::BTreeSet;

#[test]
fn labels_are_words_that_name_one_reason_each() {
    let is_word = |label: &str| label.bytes().all(|byte| byte.is_ascii_lowercase() || byte == b'_');
    for reason in Reason::ALL {
        let label = reason.label();
        assert!(is_word(label) && Reason::labelled(label) == Some(*reason), "{label}");
        assert_eq!(serde_json::to_string(reason).unwrap(), format!("\"{label}\""));
        assert_eq!(reason.is_repeated(), [14, 8].contains(&reason.code()), "{label}");
    }
    assert_eq!(Reason::labelled("duplicate or late"), None);
    let of_points: Vec<Reason> = Reason::of_points().collect();
    assert!(of_points.contains(&Reason::Gauge) && !of_points.contains(&Reason::OutOfOrder));
    assert!(of_points.iter().all(|reason| reason.status() == 200));
}

/// Who writes an alert finds it there.
#[test]
fn each_label_is_in_the_document_of_formats() {
    let formats = include_str!("../../../../docs/FORMATS.md");
    for label in Reason::ALL.iter().map(|reason| reason.label()) {
        assert!(formats.contains(&format!("`{label}`")), "{label}");
    }
}

/// What can be said of a request that the book was asked for.
fn of_book() -> Vec<Outcome> {
    let (point, frontier) = (5, 7);
    let all = [
        book::Refused::Quarantined,
        book::Refused::Full,
        book::Refused::OtherWriter { point },
        book::Refused::OutOfOrder { point, frontier },
        book::Refused::TooManySeries,
        book::Refused::TooLarge,
        book::Refused::NoMemory,
        book::Refused::NotJson,
        book::Refused::WrongShape,
        book::Refused::TooManyHours { parts: 2000, most: 1000 },
        book::Refused::LongSeries,
    ];
    all.into_iter().map(Outcome::from).collect()
}

fn of_ingest() -> Vec<Outcome> {
    let not_text = crate::otlp::json::Document::parse(b"\xff").err().unwrap();
    let all = [
        Refusal::NoSuchPath,
        Refusal::NoSuchMethod,
        Refusal::WrongMethod,
        Refusal::BadSender,
        Refusal::ContentType,
        Refusal::ContentEncoding,
        Refusal::NoLength,
        Refusal::Late,
        Refusal::Deadline,
        Refusal::Malformed,
        Refusal::HeadTooLong,
        Refusal::BadGzip,
        Refusal::BadZstd,
        Refusal::TooLong,
        Refusal::Full(Full::Ever),
        Refusal::Full(Full::Now),
        Refusal::Slow,
        Refusal::LongSeries,
        Refusal::NoMemory,
        Refusal::Unavailable(Reason::StoreSilent),
        Refused::NotJson(not_text).into(),
        Refused::NoSender("its resource has no service.name".into()).into(),
        SenderRefusal::NoToken.into(),
        SenderRefusal::WrongToken.into(),
        SenderRefusal::NotBelieved.into(),
        SenderRefusal::Nameless.into(),
    ];
    all.iter().map(Outcome::from).collect()
}

/// Else the page would say of a text what another one means.
#[test]
fn each_refusal_begins_with_the_text_of_its_reason() {
    for outcome in of_book().into_iter().chain(of_ingest()) {
        let (reason, text) = (outcome.reason().unwrap(), outcome.refusal().unwrap());
        assert!(text.starts_with(reason.text()), "{reason:?}: {text}");
    }
    let of = |outcomes: Vec<Outcome>| outcomes.iter().filter_map(Outcome::reason).collect::<Vec<_>>();
    assert_eq!(of(of_book()).iter().collect::<BTreeSet<_>>().len(), of_book().len());
    let other = SenderRefusal::OtherName { name: "full".into(), other: "shop-2".into() };
    let as_token = SenderRefusal::TokenAsName { name: "full".into() };
    assert_eq!([other, as_token].map(|stranger| stranger.reason()), [Reason::OtherName; 2]);
}

/// A place that changes is changed in the text too, whatever it goes on with.
#[test]
fn a_point_has_another_place_in_the_whole() {
    let late = RejectedPoint { place: 9, frontier: Some(5) };
    let late = Rejection::of_point(Reason::OutOfOrder, late).and(": point 9 was taken");
    assert_eq!(late.placed(1234).message, "duplicate or late: point 1234, frontier 5: point 9 was taken");
    let none = Rejection::from(Reason::Full);
    assert_eq!(none.clone().placed(7), none);
}
