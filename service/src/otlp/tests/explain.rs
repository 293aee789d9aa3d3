//! A reason in words for each kind of foreign point that docs/FORMATS.md lists.

use super::*;

const SPAN: &str = r#""startTimeUnixNano":"1","timeUnixNano":"2""#;

/// Why the one point of a request is foreign.
fn why(body: String) -> String {
    let written = prepared(Encoding::Json, body.clone()).unwrap();
    let points = explained(&written, Profile::Deltas, Clock::default().window()).unwrap();
    let [point] = &points[..] else { panic!("{body}: {points:?}") };
    assert_eq!(posted(&written).unwrap().foreign, 1, "{body}");
    point.foreign.clone().unwrap_or_else(|| panic!("{body} is taken"))
}

fn point(more: &str) -> String {
    sum(&format!("{{{SPAN},{more}}}"))
}

fn histogram(more: &str) -> String {
    request(&format!(r#"{{"histogram":{{"aggregationTemporality":1,"dataPoints":[{{{SPAN},{more}}}]}}}}"#))
}

fn attribute(value: &str) -> String {
    point(&format!(r#""asInt":1,"attributes":[{{"key":"k","value":{value}}}]"#))
}

#[test]
fn each_kind_of_foreign_point_has_its_reason() {
    let of_metric = |data: &str| request(&format!("{{{data}}}"));
    let sums = |more: &str| of_metric(&format!(r#""sum":{{"dataPoints":[{{{SPAN},"asInt":1}}]{more}}}"#));
    let long = "x".repeat(4097);
    let many = vec![r#"{"stringValue":"x"}"#; 129].join(",");
    let pairs = (0..129).map(|key| format!(r#"{{"key":"{key}"}}"#)).collect::<Vec<_>>().join(",");
    let bounds = (0..256).map(|bound| bound.to_string()).collect::<Vec<_>>().join(",");
    let resource = |attributes: &str| {
        let metric = point(r#""asInt":1"#);
        metric.replacen(
            r#"{"scopeMetrics""#,
            &format!(r#"{{"resource":{{"attributes":{attributes}}},"scopeMetrics""#),
            1,
        )
    };
    for (body, words) in [
        (of_metric(r#""gauge":{"dataPoints":[{}]}"#), "gauges are not added up"),
        (of_metric(r#""summary":{"dataPoints":[{}]}"#), "summaries are not added up"),
        (
            of_metric(r#""exponentialHistogram":{"dataPoints":[{}]}"#),
            "exponential histograms are not added up",
        ),
        (of_metric(r#""gauge":{"dataPoints":[{}]},"sum":{}"#), "more than one kind"),
        (sums(r#","aggregationTemporality":2"#), "it is cumulative"),
        (
            sums(r#","aggregationTemporality":"AGGREGATION_TEMPORALITY_UNSPECIFIED""#),
            "aggregationTemporality is 0",
        ),
        (sums(""), "aggregationTemporality is nothing"),
        (sums(r#","aggregationTemporality":1,"isMonotonic":"yes""#), "isMonotonic is yes, neither"),
        (point(r#""asInt":1"#).replacen(r#"{"sum""#, r#"{"name":5,"sum""#, 1), "metric name is 5, no text"),
        (
            point(r#""asInt":1"#).replacen(r#"{"sum""#, &format!(r#"{{"unit":"{long}","sum""#), 1),
            "unit has more than 4096 bytes",
        ),
        (
            resource(r#"[{"key":"weight","value":{"doubleValue":0.5}}]"#),
            "resource attribute `weight`: its value is a double, 0.5",
        ),
        (resource("5"), "resource attribute is 5, no list"),
        (attribute(r#"{"bytesValue":"AA=="}"#), "attribute `k`: its value is bytes"),
        (attribute(r#"{"kvlistValue":{}}"#), "attribute `k`: its value is a map"),
        (attribute(r#"{"arrayValue":{"values":[{"arrayValue":{}}]}}"#), "a list in a list"),
        (attribute(r#"{"arrayValue":{"values":[{"doubleValue":1.5}]}}"#), "its value is a double, 1.5"),
        (attribute(&format!(r#"{{"arrayValue":{{"values":[{many}]}}}}"#)), "a list of more than 128"),
        (attribute(r#"{"intValue":1,"boolValue":true}"#), "more than one value"),
        (attribute(r#"{"intValue":"9223372036854775808"}"#), "its value can't be read: 9223372036854775808"),
        (attribute(&format!(r#"{{"stringValue":"{long}"}}"#)), "its value can't be read: xxx"),
        (
            point(r#""asInt":1,"attributes":[{"key":"k"},{"key":"k"}]"#),
            "attribute `k`: its key is there twice",
        ),
        (point(&format!(r#""asInt":1,"attributes":[{pairs}]"#)), "more than 128 attributes"),
        (sum(r#"{"timeUnixNano":"2","asInt":1}"#), "startTimeUnixNano is nothing"),
        (sum(r#"{"startTimeUnixNano":"2","timeUnixNano":"2","asInt":1}"#), "timeUnixNano is 2, not over"),
        (
            sum(r#"{"startTimeUnixNano":"x","timeUnixNano":"2","asInt":1}"#),
            "startTimeUnixNano is x, no whole number",
        ),
        (point(r#""asInt":1,"flags":1"#), "no value was recorded"),
        (point(r#""asInt":1,"flags":4294967296"#), "flags is 4294967296, over"),
        (point(r#""asDouble":1.25"#), "it is a double, 1.25"),
        (point(r#""asDouble":5"#), "it is a double, 5"),
        (point(r#""asDouble":9007199254740992"#), "serve with --integer-unit"),
        (point(r#""asDouble":1e300"#), "it is a double, 1e300, which also --integer-unit"),
        (point(r#""asDouble":"NaN""#), "it is a double, NaN, which also --integer-unit"),
        (point(r#""asDouble":"-Infinity""#), "it is a double, -Infinity, which also --integer-unit"),
        (point(r#""flags":0"#), "it has no asInt"),
        (point(r#""asInt":5.5"#), "asInt is 5.5, no whole number"),
        (point(r#""asInt":"9223372036854775808""#), "asInt is 9223372036854775808, over"),
        (
            sums(r#","aggregationTemporality":1,"isMonotonic":true"#)
                .replace(r#""asInt":1"#, r#""asInt":-1"#),
            "asInt of a monotonic sum is -1",
        ),
        (histogram(r#""count":0.5"#), "count is 0.5, no whole number"),
        (histogram(r#""sum":1.37"#), "sum is 1.37, no whole number: measure in a finer unit"),
        (histogram(r#""sum":-1"#), "sum is -1, below zero"),
        (histogram(r#""sum":1e300"#), "sum is 1e300, no whole number"),
        (
            histogram(r#""bucketCounts":[1,2],"count":3,"explicitBounds":[0.005]"#),
            "a bound is 0.005, no whole number: measure in a finer unit",
        ),
        (
            histogram(r#""bucketCounts":[1,2,3],"count":6,"explicitBounds":[5,5]"#),
            "explicitBounds do not ascend at 5",
        ),
        (histogram(&format!(r#""explicitBounds":[{bounds}]"#)), "explicitBounds are more than 255"),
        (histogram(r#""explicitBounds":5"#), "explicitBounds is 5, no list"),
        (histogram(r#""bucketCounts":[1,2],"count":3"#), "not one more than explicitBounds"),
        (histogram(r#""bucketCounts":[1,2],"count":4,"explicitBounds":[5]"#), "do not add up to the count"),
        (histogram(r#""bucketCounts":[1,-2],"explicitBounds":[5]"#), "a bucket is -2, below zero"),
    ] {
        let found = why(body.clone());
        assert!(found.contains(words), "{body}: {found}");
    }
}

/// Else a post of 4 MiB, half of it one text that all its points share, took minutes of a thread.
#[test]
fn what_points_share_is_looked_at_no_further_than_it_is_shown() {
    const POINTS: usize = 3_000;
    let (points, long) = (vec!["{}"; POINTS].join(","), r"\u00e9".repeat(350_000));
    let of = |name: &str| request(&format!(r#"{{{name}"sum":{{"dataPoints":[{points}]}}}}"#));
    let of_metric = of(&format!(r#""name":"{long}","#));
    let of_resource = of("").replacen(
        r#"{"scopeMetrics""#,
        &format!(r#"{{"resource":{{"attributes":"{long}"}},"scopeMetrics""#),
        1,
    );
    let begun = speed::on_processor();
    for (body, words) in [(of_metric, "metric name has more than"), (of_resource, "resource attribute is éé")]
    {
        let mut told = 0;
        foreign_points(body.as_bytes(), Profile::Deltas, |point| {
            assert!(point.foreign.unwrap().starts_with(words) && point.metric.len() < 5_000);
            told += 1;
            false
        });
        assert_eq!(told, POINTS);
    }
    let took = std::time::Duration::from_nanos(speed::on_processor() - begun);
    assert!(took.as_secs() < 20, "{took:?}");
}

#[test]
fn a_point_that_the_book_counts_is_found_again() {
    let body = request(&format!(
        r#"{{"name":"m","sum":{{"aggregationTemporality":1,"dataPoints":[{{{SPAN},"asInt":1}},{{}},{{{SPAN},"asInt":1,"attributes":[{{"key":"k"}}]}}]}}}}"#
    ));
    let key = |place| point_at(body.as_bytes(), Profile::Deltas, place).map(|(_, key)| key.0.to_string());
    assert_eq!(key(1).unwrap(), r#"[[],"","",[],"m","","sum",[{"key":"k","value":{}}]]"#);
    assert!(key(0).is_some() && key(2).is_none());
}
