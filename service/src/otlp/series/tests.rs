//! Which points the book takes, and of which series they are.

mod seed_points;

pub(crate) use seed_points::{KINDS, VALUES};

use super::*;
use crate::otlp::messages::{Data, ExportMetricsServiceRequest, Number};
use crate::otlp::tests::posted;
use prost::Message;
use std::collections::HashMap;

/// A request of one metric, its parts as they are given.
fn request(metric: &str) -> String {
    format!(r#"{{"resourceMetrics":[{{"scopeMetrics":[{{"metrics":[{metric}]}}]}}]}}"#)
}

fn sum(point: &str) -> String {
    request(&format!(
        r#"{{"name":"m","sum":{{"aggregationTemporality":1,"isMonotonic":true,"dataPoints":[{{{point}}}]}}}}"#
    ))
}

fn histogram(point: &str) -> String {
    request(&format!(
        r#"{{"name":"h","histogram":{{"aggregationTemporality":1,"dataPoints":[{{"startTimeUnixNano":1,"timeUnixNano":2,{point}}}]}}}}"#
    ))
}

fn attributed(attributes: &str) -> String {
    sum(&format!(r#"{SOUND},"attributes":{attributes}"#))
}

const SOUND: &str = r#""startTimeUnixNano":"1","timeUnixNano":"2","asInt":"5""#;

fn foreign(body: &str) -> u64 {
    let found = posted(body.as_bytes()).unwrap_or_else(|| panic!("{body}"));
    assert_eq!(found.series.len() as u64 + found.foreign, 1, "{body}");
    found.foreign
}

#[test]
fn points_of_sums_are_of_the_profile_or_foreign() {
    let cases = [
        (SOUND, 0),
        (r#""startTimeUnixNano":1,"timeUnixNano":18446744073709551615,"asInt":0"#, 0),
        (r#""startTimeUnixNano":"01","timeUnixNano":"2","asInt":"-0""#, 0),
        (r#""startTimeUnixNano":1,"timeUnixNano":2,"asInt":"9223372036854775807","flags":2"#, 0),
        (r#""startTimeUnixNano":9,"startTimeUnixNano":1,"timeUnixNano":2,"asInt":5"#, 0),
        (
            r#""startTimeUnixNano":1,"timeUnixNano":2,"asInt":5,"asDouble":null,"flags":null,"attributes":null"#,
            0,
        ),
        (r#""startTimeUnixNano":1,"timeUnixNano":2,"asInt":5,"count":"x","other":{}"#, 0),
        (r#""startTimeUnixNano":0,"timeUnixNano":2,"asInt":5"#, 1),
        (r#""timeUnixNano":2,"asInt":5"#, 1),
        (r#""startTimeUnixNano":2,"timeUnixNano":2,"asInt":5"#, 1),
        (r#""startTimeUnixNano":1,"timeUnixNano":"18446744073709551616","asInt":5"#, 1),
        (r#""startTimeUnixNano":1,"timeUnixNano":2"#, 1),
        (r#""startTimeUnixNano":1,"timeUnixNano":2,"asInt":5.0"#, 1),
        (r#""startTimeUnixNano":1,"timeUnixNano":2,"asInt":5e0"#, 1),
        (r#""startTimeUnixNano":1,"timeUnixNano":2,"asInt":-0"#, 1),
        (r#""startTimeUnixNano":1,"timeUnixNano":2,"asInt":"+5""#, 1),
        (r#""startTimeUnixNano":1,"timeUnixNano":2,"asInt":" 5""#, 1),
        (r#""startTimeUnixNano":1,"timeUnixNano":2,"asInt":-1"#, 1),
        (r#""startTimeUnixNano":1,"timeUnixNano":2,"asInt":"9223372036854775808""#, 1),
        (r#""startTimeUnixNano":1,"timeUnixNano":2,"asInt":5,"asDouble":5"#, 1),
        (r#""startTimeUnixNano":1,"timeUnixNano":2,"asInt":5,"flags":1"#, 1),
        (r#""startTimeUnixNano":1,"timeUnixNano":2,"asInt":5,"flags":4294967296"#, 1),
        (r#""startTimeUnixNano":1,"timeUnixNano":2,"asInt":5,"attributes":{}"#, 1),
    ];
    for (point, expected) in cases {
        assert_eq!(foreign(&sum(point)), expected, "{point}");
    }
}

#[test]
fn points_of_histograms_are_of_the_profile_or_foreign() {
    let many = |bounds: usize| {
        let all: Vec<String> = (0..bounds).map(|bound| bound.to_string()).collect();
        format!(
            r#""explicitBounds":[{}],"bucketCounts":[{}]"#,
            all.join(","),
            vec!["0"; bounds + 1].join(",")
        )
    };
    let (most, over) = (many(255), many(256));
    let cases = [
        (r#""count":"3","sum":7,"bucketCounts":["1","2"],"explicitBounds":[10]"#, 0),
        (r#""count":3"#, 0),
        (r#""bucketCounts":[0,"0"],"explicitBounds":["-9007199254740992"]"#, 0),
        (r#""count":1,"bucketCounts":[1],"sum":9007199254740992"#, 0),
        (&most, 0),
        (&over, 1),
        (r#""count":3,"explicitBounds":[10]"#, 1),
        (r#""count":3,"bucketCounts":[1,2]"#, 1),
        (r#""count":4,"bucketCounts":[1,2],"explicitBounds":[10]"#, 1),
        (r#""bucketCounts":[18446744073709551615,1],"explicitBounds":[10]"#, 1),
        (r#""count":0,"bucketCounts":[0,0,0],"explicitBounds":[10,10]"#, 1),
        (r#""count":0,"bucketCounts":[0,0],"explicitBounds":[5.0]"#, 1),
        (r#""count":0,"bucketCounts":[0,0],"explicitBounds":[9007199254740993]"#, 1),
        (r#""count":0,"bucketCounts":[0,null],"explicitBounds":[1]"#, 1),
        (r#""count":0,"sum":-1"#, 1),
        (r#""count":0,"sum":9007199254740993"#, 1),
        (r#""count":0,"sum":5.0"#, 1),
        (r#""count":-1"#, 1),
    ];
    for (point, expected) in cases {
        assert_eq!(foreign(&histogram(point)), expected, "{point}");
    }
}

#[test]
fn attributes_are_of_the_profile_or_foreign() {
    let texts = |count: usize| {
        let pairs: Vec<String> = (0..count).map(|key| format!(r#"{{"key":"{key}"}}"#)).collect();
        format!("[{}]", pairs.join(","))
    };
    let values = |count: usize| {
        format!(r#"[{{"value":{{"arrayValue":{{"values":[{}]}}}}}}]"#, vec!["{}"; count].join(","))
    };
    let long = |length: usize| format!(r#"[{{"key":"{}"}}]"#, "k".repeat(length));
    let cases = [
        (r#"[{}]"#.to_string(), 0),
        (r#"[{"key":"a","value":{"boolValue":false}},{"key":"b","value":{"intValue":-9223372036854775808}}]"#.to_string(), 0),
        (r#"[{"value":{"arrayValue":{}}}]"#.to_string(), 0),
        (texts(128), 0),
        (texts(129), 1),
        (values(128), 0),
        (values(129), 1),
        (long(4096), 0),
        (long(4097), 1),
        (r#"[{"key":"a"},{"key":"\u0061"}]"#.to_string(), 1),
        (r#"[{"value":{"doubleValue":1}}]"#.to_string(), 1),
        (r#"[{"value":{"kvlistValue":{}}}]"#.to_string(), 1),
        (r#"[{"value":{"bytesValue":""}}]"#.to_string(), 1),
        (r#"[{"value":{"intValue":9223372036854775808}}]"#.to_string(), 1),
        (r#"[{"value":{"intValue":1,"boolValue":true}}]"#.to_string(), 1),
        (r#"[{"value":{"arrayValue":{"values":[{"arrayValue":{}}]}}}]"#.to_string(), 1),
        (r#"[{"value":{"arrayValue":{"values":[null]}}}]"#.to_string(), 1),
        (r#"[{"value":5}]"#.to_string(), 1),
        (r#"[null]"#.to_string(), 1),
        (r#"[{"key":5}]"#.to_string(), 1),
    ];
    for (attributes, expected) in cases {
        assert_eq!(foreign(&attributed(&attributes)), expected, "{attributes}");
    }
}

#[test]
fn metrics_that_are_foreign() {
    let points = format!(r#""dataPoints":[{{{SOUND}}}]"#);
    let cases = [
        format!(r#"{{"gauge":{{{points}}}}}"#),
        format!(r#"{{"summary":{{{points}}}}}"#),
        format!(r#"{{"exponentialHistogram":{{"aggregationTemporality":1,{points}}}}}"#),
        format!(r#"{{"sum":{{"aggregationTemporality":1,{points}}},"gauge":{{}}}}"#),
        format!(r#"{{"sum":{{"aggregationTemporality":2,{points}}}}}"#),
        format!(r#"{{"sum":{{"aggregationTemporality":"1",{points}}}}}"#),
        format!(r#"{{"sum":{{"aggregationTemporality":1.0,{points}}}}}"#),
        format!(r#"{{"sum":{{{points}}}}}"#),
        format!(r#"{{"sum":{{"aggregationTemporality":1,"isMonotonic":1,{points}}}}}"#),
        format!(r#"{{"name":5,"sum":{{"aggregationTemporality":1,{points}}}}}"#),
        format!(r#"{{"unit":"{}","sum":{{"aggregationTemporality":1,{points}}}}}"#, "u".repeat(4097)),
    ];
    for metric in cases {
        assert_eq!(foreign(&request(&metric)), 1, "{metric}");
    }
}

#[test]
fn containers_of_another_type_refuse_the_whole() {
    let refused = [
        "[]",
        "null",
        "\"x\"",
        "{",
        r#"{"resourceMetrics":{}}"#,
        r#"{"resourceMetrics":[null]}"#,
        r#"{"resourceMetrics":[{"resource":[]}]}"#,
        r#"{"resourceMetrics":[{"scopeMetrics":5}]}"#,
        r#"{"resourceMetrics":[{"scopeMetrics":[{"scope":"x"}]}]}"#,
        r#"{"resourceMetrics":[{"scopeMetrics":[{"metrics":[5]}]}]}"#,
        r#"{"resourceMetrics":[{"scopeMetrics":[{"metrics":[{"gauge":[]}]}]}]}"#,
        r#"{"resourceMetrics":[{"scopeMetrics":[{"metrics":[{"summary":{"dataPoints":[1]}}]}]}]}"#,
    ];
    for body in refused {
        assert!(posted(body.as_bytes()).is_none(), "{body}");
    }
    for body in [
        "{}",
        r#"{"resourceMetrics":null}"#,
        r#"{"resourceMetrics":[{"resource":null,"scopeMetrics":[{}]}]}"#,
    ] {
        let found = posted(body.as_bytes()).unwrap();
        assert_eq!((found.series.len(), found.foreign), (0, 0), "{body}");
    }
}

#[test]
fn a_key_is_what_the_book_writes() {
    let body = r#"{"resourceMetrics":[{"scopeMetrics":[{"metrics":[
        {"sum":{"dataPoints":[{"attributes":[{"value":{"intValue":"007"},"key":"b"},{"key":"a\u000a\/","value":{"arrayValue":{"values":[{},{"boolValue":true}]}}}],
        "asInt":1,"timeUnixNano":"7","startTimeUnixNano":"5"},{"asInt":1,"timeUnixNano":"7","startTimeUnixNano":"5"}],"isMonotonic":true,"aggregationTemporality":1},"unit":"s","name":"é"},
        {"name":"h","histogram":{"aggregationTemporality":1,"dataPoints":[{"explicitBounds":["-01",2],"bucketCounts":[0,0,0],"timeUnixNano":"9","startTimeUnixNano":"5"}]}}],
        "scope":{"version":"2","name":"s\""}}],"resource":{"attributes":[{"key":"r","value":{"stringValue":"\u00e9"}}]}}]}"#;
    let found = posted(body.as_bytes()).unwrap();
    let above = r#"[[{"key":"r","value":{"stringValue":"é"}}],"s\"","2",[]"#;
    let attributes = r#"[{"key":"a\n/","value":{"arrayValue":{"values":[{},{"boolValue":true}]}}},{"key":"b","value":{"intValue":"7"}}]"#;
    let expected = [
        (format!(r#"{above},"é","s","monotonic",{attributes}]"#), 7),
        (format!(r#"{above},"é","s","monotonic",[]]"#), 7),
        (format!(r#"{above},"h","",[-1,2],[]]"#), 9),
    ];
    let expected = expected.map(|(key, end)| (SeriesKey(key.into()), end));
    assert_eq!((found.series, found.foreign), (HashMap::from(expected.clone()), 0));
    let parts = expected[0].0.parts().unwrap();
    assert_eq!((&*parts.scope_name, &*parts.name, parts.kind), ("s\"", "é", Kind::Monotonic));
    assert_eq!(parts.attributes, attributes);
    assert_eq!(expected[2].0.parts().unwrap().kind, Kind::Histogram { bounds: vec![-1, 2] });
    for key in ["", "[]", r#"[[],"","",[],"","","mono",[]]"#, r#"[[],"","",[],"","","sum",[],1]"#] {
        assert!(SeriesKey(key.into()).parts().is_err(), "{key}");
    }
}

/// As docs/FORMATS.md, "The request of a flush", has it.
const FORWARDED: &str = r#"{"resourceMetrics":[{"resource":{"attributes":[{"key":"r","value":{"stringValue":"x"}}]},"scopeMetrics":[{"metrics":[{"name":"m","sum":{"aggregationTemporality":1,"dataPoints":[{"asInt":"-9","attributes":[{"key":"k","value":{"intValue":"5"}}],"startTimeUnixNano":"10","timeUnixNano":"20"}],"isMonotonic":false},"unit":"s"},{"histogram":{"aggregationTemporality":1,"dataPoints":[{"attributes":[],"bucketCounts":["1","2"],"count":"3","explicitBounds":[-4],"startTimeUnixNano":"1","sum":7,"timeUnixNano":"2"},{"attributes":[],"bucketCounts":["1"],"count":"1","explicitBounds":[],"startTimeUnixNano":"1","timeUnixNano":"2"}]},"name":"h","unit":""}],"scope":{"attributes":[],"name":"n","version":"v"}}]}]}"#;

#[test]
fn forwarded_points_are_read_in_order() {
    let points = forwarded(FORWARDED.as_bytes()).unwrap();
    let above = r#"[[{"key":"r","value":{"stringValue":"x"}}],"n","v",[]"#;
    let point = |place, rest: &str, start, end, value| ForwardedPoint {
        place,
        series: SeriesKey(format!("{above},{rest}]").into()),
        start,
        end,
        value,
    };
    let expected = [
        point(0, r#""m","s","sum",[{"key":"k","value":{"intValue":"5"}}]"#, 10, 20, Value::Sum(-9)),
        point(1, r#""h","",[-4],[]"#, 1, 2, Value::Histogram { count: 3, sum: Some(7), buckets: vec![1, 2] }),
        point(2, r#""h","",[],[]"#, 1, 2, Value::Histogram { count: 1, sum: None, buckets: vec![1] }),
    ];
    assert_eq!(points, expected);
    let found = posted(FORWARDED.as_bytes()).unwrap();
    assert!(expected.iter().all(|point| found.series.get(&point.series) == Some(&point.end)));
    for length in 0..FORWARDED.len() {
        assert!(forwarded(&FORWARDED.as_bytes()[..length]).is_err());
    }
    for (part, other) in [
        ("\"asInt\":\"-9\",", ""),
        ("\"20\"", "20.5"),
        ("\"isMonotonic\":false", "\"isMonotonic\":0"),
        ("[-4]", "5"),
    ] {
        let faulty = FORWARDED.replace(part, other);
        assert!(forwarded(faulty.as_bytes()).is_err(), "{part}");
        assert!(protobuf_of_forwarded(faulty.as_bytes()).is_err(), "{part}");
    }
}

#[test]
fn a_forwarded_request_in_protobuf() {
    let bytes = protobuf_of_forwarded(FORWARDED.as_bytes()).unwrap();
    let request = ExportMetricsServiceRequest::decode(&bytes[..]).unwrap();
    let scope = &request.resource_metrics[0].scope_metrics[0];
    let Some(Data::Sum(sum)) = &scope.metrics[0].data else { panic!("{scope:?}") };
    let Some(Data::Histogram(histogram)) = &scope.metrics[1].data else { panic!("{scope:?}") };
    assert_eq!((sum.data_points[0].value.clone(), sum.aggregation_temporality), (Some(Number::AsInt(-9)), 1));
    assert_eq!((histogram.data_points[0].sum, histogram.data_points[1].sum), (Some(7.0), None));
    assert_eq!(histogram.data_points[0].explicit_bounds, [-4.0]);
    let again =
        crate::otlp::prepare(crate::otlp::Encoding::Protobuf, bytes.into(), &Default::default()).unwrap();
    assert_eq!(posted(&again.body).unwrap().series, posted(FORWARDED.as_bytes()).unwrap().series);
}
