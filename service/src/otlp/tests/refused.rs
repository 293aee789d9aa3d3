//! What is refused, and that it takes little memory to find it.

use super::*;

#[test]
fn what_is_no_request_or_would_be_lost_is_refused() {
    let cases = [
        ("", "not JSON"),
        ("[]", "the body is no object"),
        ("\"{}\"", "the body is no object"),
        ("null", "the body is no object"),
        ("{}{}", "not JSON"),
        (r#"{"resourceSpans":[{}]}"#, "resourceSpans is not of metrics"),
        (r#"{"scopeMetrics":[{}]}"#, "belongs into resourceMetrics"),
        (r#"{"resourceMetrics":{}}"#, "resourceMetrics is no array of objects"),
        (r#"{"resourceMetrics":[null]}"#, "resourceMetrics is no array of objects"),
        (r#"{"resourceMetrics":[],"resource_metrics":[]}"#, "resourceMetrics is there twice"),
        (r#"{"resourceMetrics":[],"resourceMetrics":null}"#, "resourceMetrics is there twice"),
        (r#"{"resourceMetrics":[{"instrumentationLibraryMetrics":[{}]}]}"#, "old version of OTLP"),
        (r#"{"resourceMetrics":[{"resource":5}]}"#, "resource is no object"),
        (r#"{"resourceMetrics":[{"scopeMetrics":[{"metrics":[{"intSum":{}}]}]}]}"#, "old version of OTLP"),
        (r#"{"resourceMetrics":[{"scopeMetrics":[{"metrics":[{"sum":[]}]}]}]}"#, "sum is no object"),
        (
            r#"{"resourceMetrics":[{"scopeMetrics":[{"metrics":[{"gauge":{"dataPoints":[5]}}]}]}]}"#,
            "no array of objects",
        ),
        (
            r#"{"resourceMetrics":[{"scopeMetrics":[{"metrics":[{"sum":{"dataPoints":[{"labels":[{}]}]}}]}]}]}"#,
            "old version",
        ),
        (
            r#"{"resourceMetrics":[{"scopeMetrics":[{"metrics":[{"sum":{"dataPoints":[{"asInt":1,"as_int":1}]}}]}]}]}"#,
            "asInt is there twice",
        ),
    ];
    for (body, expected) in cases {
        let refused = prepared(Encoding::Json, body.to_string()).unwrap_err();
        assert!(refused.contains(expected), "{body}: {refused}");
    }
    let sound = r#"{"resourceMetrics":[{"instrumentationLibraryMetrics":null,"labels":[]}]}"#;
    assert!(prepared(Encoding::Json, sound.to_string()).is_ok());
}

#[test]
fn protobuf_that_is_malformed_or_would_be_lost_is_refused() {
    let attribute = |value: &[u8]| {
        let point = bytes(7, &[bytes(1, b"k"), bytes(2, value)].concat());
        within_request(&bytes(7, &bytes(1, &point)))
    };
    let nested = |depth: usize| (0..depth).fold(vec![0x10, 1], |inner, _| bytes(5, &bytes(1, &inner)));
    let in_parts = |depth: usize| {
        (0..depth)
            .fold(bytes(7, &[0; 1000]), |inner, _| [bytes(5, b""), bytes(5, &bytes(1, &inner))].concat())
    };
    let cases = [
        (vec![0x0a], "cut"),
        (vec![0x0a, 5, 0], "cut"),
        (vec![0x80; 11], "64 bits"),
        (vec![0x00, 0], "without a number"),
        (vec![0x0b], "cut"),
        (vec![0x0b, 0x14], "wire type"),
        (vec![0x0c], "wire type"),
        (vec![0x0e], "wire type"),
        (vec![0x0b, 0x0c], "resourceMetrics of another wire type"),
        (vec![0x7b; 101], "groups nested too deep"),
        (vec![0x08, 1], "resourceMetrics of another wire type"),
        (bytes(1, &bytes(1000, b"")), "old version of OTLP"),
        (within_request(&bytes(1, b"\xff")), "name is not UTF-8"),
        (within_request(&bytes(6, b"")), "intSum is of an old version"),
        (within_request(&bytes(7, &bytes(1, &bytes(1, b"")))), "labels is of an old version"),
        (within_request(&bytes(7, &bytes(1, &bytes(5, b"\x0a")))), "Exemplar: cut"),
        (within_request(&bytes(9, &bytes(1, &bytes(6, b"1234567")))), "bucketCounts of another wire type"),
        (within_request(&bytes(5, &bytes(1, &[0x38]))), "cut"),
        (attribute(&bytes(6, &bytes(1, b"\x0a"))), "KeyValue: cut"),
        (attribute(&bytes(7, b"\xff")[..2]), "cut"),
        (attribute(&nested(60)), "nested too deep"),
        (attribute(&in_parts(30)), "too much is there in parts"),
        // What comes later takes its place, and it is malformed all the same.
        (attribute(&[bytes(6, &bytes(1, b"\x0a")), bytes(1, b"t")].concat()), "KeyValue: cut"),
        (attribute(&[bytes(5, &bytes(1, b"\x0a")), vec![0x18, 5]].concat()), "AnyValue: cut"),
        (attribute(&[bytes(1, b"\xff"), vec![0x10, 1]].concat()), "stringValue is not UTF-8"),
        (attribute(&[bytes(1, b"\xff"), bytes(1, b"t")].concat()), "stringValue is not UTF-8"),
        (attribute(&[nested(60), bytes(1, b"t")].concat()), "nested too deep"),
        (within_request(&[bytes(1, b"\xff"), bytes(1, b"m")].concat()), "name is not UTF-8"),
    ];
    for (body, expected) in cases {
        let refused = prepared(Encoding::Protobuf, body.clone()).unwrap_err();
        assert!(refused.contains(expected), "{body:?}: {refused}");
    }
    assert!(prepared(Encoding::Protobuf, attribute(&nested(30))).is_ok());
}

#[test]
fn many_small_messages_take_little_memory() {
    let points = bytes(1, b"").repeat(1 << 20);
    let written = prepared(Encoding::Protobuf, within_request(&bytes(7, &points))).unwrap();
    assert!(written.len() < 4 * points.len());
    assert_eq!(posted(&written).unwrap().foreign, 1 << 20);
    let deep = [br#"{"x":"#.repeat(1 << 19), b"[".repeat(1 << 20)];
    for body in deep {
        assert!(prepared(Encoding::Json, body.clone()).unwrap_err().contains("nested more than 127"));
    }
    // A protobuf of 1.1 MB or more whose JSON is over 4 MiB is one post.
    let long = bytes(
        1,
        &[
            bytes(7, &[bytes(1, b"k"), bytes(2, &bytes(1, &[7; 30]))].concat()),
            vec![0x31, 1, 0, 0, 0, 0, 0, 0, 0],
        ]
        .concat(),
    );
    let written = prepared(Encoding::Protobuf, within_request(&bytes(7, &long.repeat(25_000)))).unwrap();
    assert!(written.len() > 4 << 20);
    assert_eq!(posted(&written).unwrap().foreign, 25_000);
}
