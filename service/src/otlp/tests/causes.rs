//! Foreign points are counted by cause, each as its sender would name it.

use super::*;

const SPAN: &str = r#""startTimeUnixNano":"1","timeUnixNano":"2""#;

fn said(metrics: &str, foreign: u64) -> String {
    let body = request(metrics);
    Causes::of(&prepared(Encoding::Json, body).unwrap(), Profile::Deltas, foreign).to_string()
}

#[test]
fn each_cause_is_named() {
    let sum = |more: &str| format!(r#"{{"sum":{{"dataPoints":[{{{SPAN},"asInt":1}}]{more}}}}}"#);
    let point =
        |point: &str| format!(r#"{{"sum":{{"aggregationTemporality":1,"dataPoints":[{{{point}}}]}}}}"#);
    let histogram = |temporality: u8, more: &str| {
        format!(
            r#"{{"histogram":{{"aggregationTemporality":{temporality},"dataPoints":[{{{SPAN}{more}}}]}}}}"#
        )
    };
    for (metric, wanted) in [
        (r#"{"gauge":{"dataPoints":[{},{}]}}"#.to_string(), "2 gauges"),
        (r#"{"summary":{"dataPoints":[{}]}}"#.to_string(), "1 summary"),
        (r#"{"exponentialHistogram":{"dataPoints":[{}]}}"#.to_string(), "1 exponential histogram"),
        (sum(r#","aggregationTemporality":2,"isMonotonic":true"#), "1 cumulative sum"),
        (sum(r#","aggregationTemporality":2"#), "1 UpDownCounter"),
        (sum(""), "1 point of another form"),
        (histogram(2, ""), "1 cumulative histogram"),
        (histogram(1, r#","sum":1.5"#), "1 histogram with a fraction"),
        (histogram(1, r#","sum":-1"#), "1 point of another form"),
        (point(&format!(r#"{SPAN},"asDouble":1.5"#)), "1 double"),
        (point(SPAN), "1 point without a value"),
        (point(r#""timeUnixNano":"2","asInt":1"#), "1 point without a span"),
        (
            point(&format!(r#"{SPAN},"asInt":1,"attributes":[{{"key":"k","value":{{"doubleValue":1.5}}}}]"#)),
            "1 point with bad attributes",
        ),
    ] {
        let points = if wanted.starts_with('2') { 2 } else { 1 };
        assert_eq!(said(&metric, points), wanted, "{metric}");
    }
    assert_eq!(said(&point(&format!(r#"{SPAN},"asInt":1"#)), 0), "");
}

/// What the book says counts: how many points there are is never another number than it answers.
#[test]
fn causes_add_up_to_what_was_not_taken() {
    let gauges = r#"{"gauge":{"dataPoints":[{},{}]}}"#;
    assert_eq!(said(gauges, 5), "3 points of another form, 2 gauges");
    assert_eq!(said(gauges, 1), "1 point of another form");
    assert_eq!(Causes::of(b"no JSON", Profile::Deltas, 2).to_string(), "2 points of another form");
}

/// Else a post of 4 MiB, half of it members that say nothing, took an hour.
#[test]
fn what_a_metric_has_beside_its_points_is_looked_through_once() {
    let (nothing, points) = (r#""x":0,"#.repeat(100_000), vec!["{}"; 50_000].join(","));
    let sum = |more: &str| {
        format!(r#""sum":{{{more}"aggregationTemporality":2,"isMonotonic":true,"dataPoints":[{points}]}}"#)
    };
    let begun = std::time::Instant::now();
    for metric in [format!("{{{nothing}{}}}", sum("")), format!("{{{}}}", sum(&nothing))] {
        assert_eq!(said(&metric, 50_000), "50000 cumulative sums");
    }
    assert!(begun.elapsed().as_secs() < 20, "{:?}", begun.elapsed());
}

/// Where deltas are made of cumulative points, these are no cause by themselves, unless the book was given none of them.
#[test]
fn a_cumulative_point_that_is_not_taken_has_its_own_cause() {
    let counter = |value: &str| {
        format!(
            r#"{{"sum":{{"aggregationTemporality":2,"isMonotonic":true,"dataPoints":[{{{SPAN},{value}}}]}}}}"#
        )
    };
    let both = request(&format!(r#"{},{}"#, counter(r#""asDouble":1.5"#), counter(r#""asInt":"1""#)));
    let said = |profile, foreign| {
        let body = prepared(Encoding::Json, both.clone()).unwrap();
        Causes::of(&body, profile, foreign).to_string()
    };
    assert_eq!(said(Profile::AlsoCumulative, 1), "1 double");
    assert_eq!(said(Profile::AlsoCumulative, 2), "2 cumulative sums");
    assert_eq!(said(Profile::Deltas, 2), "2 cumulative sums");
}

#[test]
fn an_up_down_counter_is_told_what_helps() {
    let why = |more: &str| {
        let metric = format!(r#"{{"sum":{{"aggregationTemporality":2{more},"dataPoints":[{{}}]}}}}"#);
        let written = prepared(Encoding::Json, request(&metric)).unwrap();
        explained(&written, Profile::Deltas, Clock::default().window()).unwrap().remove(0).foreign.unwrap()
    };
    assert!(why("").contains("UpDownCounter is also with the temporality preference delta: use two Counters"));
    let counter = why(r#","isMonotonic":true"#);
    assert!(
        counter.contains("set the sender's temporality preference to delta") && !counter.contains("UpDown")
    );
}
