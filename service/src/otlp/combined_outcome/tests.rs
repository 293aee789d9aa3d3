use super::*;
use crate::book::Refused;
use crate::otlp::{Encoding, Off, OffClock, RejectedPoint};
use bytes::Bytes;
use std::time::Duration;

fn refused(refused: Refused) -> Outcome {
    refused.into()
}

fn later(seconds: u64) -> Outcome {
    Rejection { seconds: Some(seconds), ..Rejection::from(Reason::OverQuota) }.into()
}

/// A resource with so many points, of which the first is no point of the profile.
fn resource(points: usize) -> String {
    let point = r#"{"asInt":"1","startTimeUnixNano":"1","timeUnixNano":"2"}"#;
    let all: Vec<&str> =
        std::iter::once(r#"{"asDouble":0.5}"#).chain(std::iter::repeat(point)).take(points).collect();
    format!(
        r#"{{"scopeMetrics":[{{"metrics":[{{"sum":{{"aggregationTemporality":1,"dataPoints":[{}]}}}}]}}]}}"#,
        all.join(",")
    )
}

fn part(outcome: Outcome, resources: &[(u32, usize)]) -> OfPart {
    let elements: Vec<String> = resources.iter().map(|(_, points)| resource(*points)).collect();
    OfPart {
        outcome,
        part: Original {
            encoding: Encoding::Json,
            body: Bytes::from(format!(r#"{{"resourceMetrics":[{}]}}"#, elements.join(","))),
        },
        resources: resources.iter().map(|(place, _)| *place).collect(),
    }
}

fn said(parts: &[OfPart]) -> (u16, u64, String) {
    let outcome = combined(parts, &Reading::default());
    let rejected = match outcome {
        Outcome::Taken { rejected, .. } => rejected,
        Outcome::Refused(_) => 0,
    };
    (outcome.status(), rejected, outcome.message().unwrap_or_default())
}

#[test]
fn all_that_is_taken_is_taken() {
    let both = [part(Outcome::taken(0), &[(0, 2)]), part(Outcome::taken(0), &[(1, 3)])];
    assert_eq!(combined(&both, &Reading::default()), Outcome::taken(0));
}

/// Else a sender would drop what was not taken.
#[test]
fn what_may_be_taken_later_makes_all_of_it_to_be_sent_again() {
    let busy = refused(Refused::Full);
    let late = refused(Refused::OutOfOrder { point: 0, frontier: 5 });
    for others in [Outcome::taken(0), Outcome::taken(2), late, refused(Refused::Quarantined)] {
        for (again, wanted) in [(busy.clone(), 503), (later(7), 429)] {
            let parts = [part(others.clone(), &[(0, 2)]), part(again.clone(), &[(1, 2)])];
            assert_eq!(combined(&parts, &Reading::default()), again);
            assert_eq!(said(&parts).0, wanted);
        }
    }
    let all = [later(3), busy.clone(), later(9)].map(|outcome| part(outcome, &[(0, 2)]));
    assert_eq!(combined(&all, &Reading::default()), busy);
    let both = [later(3), later(9)].map(|outcome| part(outcome, &[(0, 2)]));
    assert_eq!(combined(&both, &Reading::default()), later(9));
}

/// Else a sender whose answer was lost would take its repeat for lost.
#[test]
fn what_is_taken_in_part_is_taken() {
    let late = refused(Refused::OutOfOrder { point: 1, frontier: 5 });
    let parts = [part(late, &[(0, 3), (2, 4)]), part(Outcome::taken(0), &[(1, 2)])];
    let wanted = "7 points are refused: duplicate or late: point 1, frontier 5";
    assert_eq!(said(&parts), (200, 7, wanted.into()));
    let quarantined = refused(Refused::Quarantined);
    let one = [part(Outcome::taken(0), &[(0, 2)]), part(quarantined, &[(1, 1)])];
    assert_eq!(said(&one), (200, 1, "1 point is refused: quarantined: resource 1 of the request".into()));
}

/// Else who quarantined a sender while its posts went on could not tell whose points are missing.
#[test]
fn which_resources_were_refused_whole_is_said() {
    let mut parts = vec![part(Outcome::taken(0), &[(3, 2)])];
    parts.push(part(refused(Refused::Quarantined), &[(2, 1), (7, 1)]));
    parts.push(part(refused(Refused::Quarantined), &[(0, 1)]));
    let wanted = "3 points are refused: quarantined: resources 0, 2, 7 of the request";
    assert_eq!(said(&parts), (200, 3, wanted.into()));
    parts.push(part(refused(Refused::Quarantined), &[(8, 1), (9, 1), (10, 1), (11, 1)]));
    let wanted = "7 points are refused: quarantined: resources 0, 2, 7, 8, 9 and 2 more of the request";
    assert_eq!(said(&parts), (200, 7, wanted.into()));
}

#[test]
fn reasons_are_named_together() {
    let taken = |causes: &[(Reason, u64)]| {
        Outcome::taken_but(0, OffClock::default(), causes.iter().copied().collect())
    };
    let mut off = OffClock::default();
    off.count(Off::Ahead(Duration::from_secs(7)));
    let ahead = Outcome::taken_but(0, off, Causes::default());
    let quarantined = || refused(Refused::Quarantined);
    let parts = [
        part(taken(&[(Reason::Gauge, 1), (Reason::Double, 2)]), &[(0, 9)]),
        part(quarantined(), &[(1, 2)]),
        part(ahead, &[(2, 9)]),
        part(taken(&[(Reason::Gauge, 3)]), &[(3, 9)]),
        part(quarantined(), &[(4, 3)]),
    ];
    let wanted =
        "points outside the profile: 4 gauges, 2 doubles, 1 point ahead of time: its clock is 7s ahead: see \
                  docs/OPERATING.md, \"Senders\"; 5 points are refused: quarantined: resources 1, 4 of the request";
    assert_eq!(said(&parts), (200, 12, wanted.into()));
    let many: Vec<OfPart> = (0..30)
        .map(|place| {
            let refusal = Outcome::refused(Reason::Unreadable, format!("reason {place}"));
            part(if place == 0 { Outcome::taken(0) } else { refusal }, &[(place, 1)])
        })
        .collect();
    let (_, points, text) = said(&many);
    assert!(
        points == 29 && text.ends_with("reason 5: resource 5 of the request; and 24 more reasons"),
        "{text}"
    );
}

/// By its place among the points of the profile, as where one shard has all.
#[test]
fn a_refusal_names_the_point_s_place_in_the_request() {
    let sizes = [4, 1, 3, 6]; // of these 3, 0, 2 and 5 are of the profile
    let at = |resource: u32| (resource, sizes[resource as usize]);
    let late = |point| refused(Refused::OutOfOrder { point, frontier: 5 });
    for (point, place) in [(0, 3), (1, 4), (2, 5), (6, 9)] {
        let parts =
            [part(late(point), &[at(1), at(2), at(3)]), part(refused(Refused::Quarantined), &[at(0)])];
        let wanted = format!("duplicate or late: point {place}, frontier 5");
        assert_eq!(said(&parts), (400, 0, wanted));
    }
    let point = RejectedPoint { place: 1, frontier: None };
    let other = Rejection::of_point(Reason::OtherWriter, point).and(": `m` {} is another's");
    let other = Outcome::from(other);
    let parts = [part(other.clone(), &[at(3)]), part(late(0), &[at(0), at(1), at(2)])];
    assert_eq!(said(&parts), (400, 0, "other writer: point 6: `m` {} is another's".into()));
    let beyond = [part(late(9), &[at(0)]), part(other, &[at(1)])];
    assert_eq!(said(&beyond).2, "duplicate or late: point 9, frontier 5", "it is left as it is");
    // What was too long for its shard's memory is not read here either.
    let too_long = Reason::BodyTooLong.into();
    let behind = [part(late(1), &[at(1), at(2)]), part(too_long, &[at(0)])];
    assert_eq!(said(&behind).2, "duplicate or late: point 1, frontier 5", "nor is this one placed behind it");
}
