//! JSON and protobuf of senders, as the book gets them.

use super::messages::{ExportMetricsServiceResponse, Status};
use super::series::{visit_body, SeriesKey};
use super::*;
use prost::Message;
use std::collections::HashMap;

mod causes;
mod explain;
mod long;
mod mapping;
mod points;
mod posts;
mod protobuf;
mod random;
mod reasons;
mod refused;
mod request;
mod sender_attributes;
mod speed;

pub(super) use super::wire::field as bytes;
pub(super) use mapping::Spelling;
pub(crate) use posts::{plain_posts, posts};
pub(crate) use random::requests;
pub(super) use random::Random;

/// What a post has, read as the book reads it.
#[derive(Debug)]
pub(crate) struct Posted {
    /// Each series with points of the profile, and where its last one ends.
    pub series: HashMap<SeriesKey, u64>,
    pub foreign: u64,
}

/// None where the book refuses the body whole.
pub(crate) fn posted(body: &[u8]) -> Option<Posted> {
    posted_with(body, Profile::Deltas)
}

pub(super) fn posted_with(body: &[u8], profile: Profile) -> Option<Posted> {
    let mut posted = Posted { series: HashMap::new(), foreign: 0 };
    visit_body(body, profile, |seen| match seen.found {
        Err(_) => posted.foreign += 1,
        Ok(_) => {
            let last = posted.series.entry(SeriesKey(seen.key.into())).or_default();
            *last = seen.end().max(*last);
        }
    })?;
    Some(posted)
}

/// As `prepare`, of a request that is taken then.
pub fn taken(encoding: Encoding, body: Bytes, reading: &Reading) -> Result<Prepared, Refused> {
    let mut prepared = prepare(encoding, body, reading)?;
    prepared.rounded.decided.stays(true);
    Ok(prepared)
}

fn prepared(encoding: Encoding, body: impl Into<Bytes>) -> Result<Bytes, String> {
    prepare(encoding, body.into(), &Reading::default())
        .map(|prepared| prepared.body)
        .map_err(|refused| refused.to_string())
}

fn json(body: &str) -> serde_json::Value {
    let prepared =
        prepared(Encoding::Json, body.to_string()).unwrap_or_else(|refused| panic!("{refused}: {body}"));
    serde_json::from_slice(&prepared).unwrap()
}

/// A request of one metric.
fn request(metric: &str) -> String {
    format!(r#"{{"resourceMetrics":[{{"scopeMetrics":[{{"metrics":[{metric}]}}]}}]}}"#)
}

fn sum(point: &str) -> String {
    request(&format!(r#"{{"sum":{{"aggregationTemporality":1,"dataPoints":[{point}]}}}}"#))
}

fn varint(number: impl Into<u64>) -> Vec<u8> {
    let mut number = number.into();
    let mut out = Vec::new();
    while number > 127 {
        out.push(number as u8 | 128);
        number >>= 7;
    }
    out.push(number as u8);
    out
}

/// A metric in protobuf, within a request.
fn within_request(metric: &[u8]) -> Vec<u8> {
    bytes(1, &bytes(2, &bytes(2, metric)))
}

/// What a body says of each of its points, as it is explained.
fn told(body: &[u8]) -> Vec<Option<String>> {
    let all = explained(body, Profile::AlsoCumulative, Clock::default().window()).unwrap();
    all.into_iter().map(|point| point.foreign).collect()
}

#[test]
fn json_that_the_book_reads_says_the_same_once_it_is_written_anew() {
    let as_they_are = [
        "{}".to_string(),
        r#" {"resourceMetrics" : null , "other": [1.5e3]} "#.to_string(),
        sum(r#"{"asInt":5,"startTimeUnixNano":"1","timeUnixNano":2,"exemplars":[{"asDouble":0.5}]}"#),
        sum(r#"{"asInt":5.5}"#),
        sum(r#"{"asDouble":5.0,"flags":true,"attributes":{}}"#),
        sum(r#"{"asDouble":"NaN","startTimeUnixNano":18446744073709551616}"#),
        request(r#"{"description":"d","gauge":{"dataPoints":[{"asDouble":5.5}]}}"#),
        request(r#"{"sum":{"dataPoints":[{}],"aggregationTemporality":2},"gauge":{}}"#),
        request(
            r#"{"histogram":{"dataPoints":[{"sum":5.5,"explicitBounds":[0.5,"10"],"bucketCounts":["1",2]}]}}"#,
        ),
        request(r#"{"name":5,"unit":null}"#),
    ];
    for body in as_they_are {
        let prepared = prepared(Encoding::Json, body.clone()).unwrap();
        assert_eq!(told(&prepared), told(body.as_bytes()), "{body}");
    }
}

#[test]
fn json_of_any_encoder_is_written_as_the_book_reads_it() {
    let point = r#"{"startTimeUnixNano":"1","timeUnixNano":"2","asInt":"5"}"#;
    let delta = sum(point);
    let histogram = |point: &str| request(&format!(r#"{{"histogram":{{"dataPoints":[{point}]}}}}"#));
    let cases = [
        (
            sum(r#"{"start_time_unix_nano":1.0,"time_unix_nano":"2e0","as_int":50e-1,"unknown":{}}"#),
            delta.clone(),
        ),
        (sum(r#"{"startTimeUnixNano":0.1E1,"timeUnixNano":2,"asInt":"5.0","flags":null}"#), delta.clone()),
        (delta.replace("\"aggregationTemporality\":1", "\"aggregation_temporality\":1.0"), delta.clone()),
        (delta.replace("ity\":1", "ity\":\"AGGREGATION_TEMPORALITY_DELTA\""), delta.clone()),
        (
            delta.replace("ity\":1", "ity\":\"AGGREGATION_TEMPORALITY_CUMULATIVE\""),
            delta.replace("ity\":1", "ity\":2"),
        ),
        (delta.replace("resourceMetrics", "resource_metrics"), delta.clone()),
        (delta.replace("\"5\"", "-0"), delta.replace("\"5\"", "\"0\"")),
        (
            delta.replace("\"5\"", "-9223372036854775808.0"),
            delta.replace("\"5\"", "\"-9223372036854775808\""),
        ),
        (
            histogram(r#"{"sum":5.0,"explicitBounds":["-1e1",-0.0,1e15],"bucketCounts":[1.0,"2"]}"#),
            histogram(r#"{"sum":5,"explicitBounds":[-10,0,1000000000000000],"bucketCounts":["1","2"]}"#),
        ),
        (
            histogram(r#"{"sum":9007199254740993,"explicit_bounds":[0.5,"Infinity"]}"#),
            histogram(r#"{"sum":9007199254740992,"explicitBounds":["0.5","Infinity"]}"#),
        ),
        (
            sum(
                r#"{"as_int":1,"attributes":[{"key":"\u00e9","value":{"bytesValue":"AAE=","x":1}},5,{"value":{"kvlistValue":{"values":[]}}}]}"#,
            ),
            sum(
                r#"{"asInt":"1","attributes":[{"key":"é","value":{"bytesValue":""}},5,{"value":{"kvlistValue":{}}}]}"#,
            ),
        ),
        (
            sum(r#"{"as_int":5.5,"startTimeUnixNano":true,"asDouble":5.0,"attributes":{}}"#),
            sum(r#"{"asInt":5.5,"startTimeUnixNano":true,"asDouble":5,"attributes":{}}"#),
        ),
        (
            request(r#"{"gauge":{"data_points":[{"asDouble":1.7976931348623157e308},{}]},"name":null}"#),
            request(r#"{"gauge":{"dataPoints":[{},{}]}}"#),
        ),
        (request(r#"{"sum":{"is_monotonic":"true"}}"#), request(r#"{"sum":{"isMonotonic":"true"}}"#)),
        (sum(r#"{"asDouble":1.5e308}"#), sum(r#"{"asDouble":"1.5e308"}"#)),
    ];
    for (body, expected) in cases {
        assert_eq!(json(&body), serde_json::from_str::<serde_json::Value>(&expected).unwrap(), "{body}");
    }
}

#[test]
fn protobuf_is_written_as_the_book_reads_it() {
    let number = [
        &[0x11][..],
        &1u64.to_le_bytes(),
        &[0x19],
        &u64::MAX.to_le_bytes(),
        &[0x31],
        &(-5i64).to_le_bytes(),
        &[0x40, 2],
    ]
    .concat();
    let double = [&[0x21][..], &5.0f64.to_le_bytes()].concat();
    // A text, a map and a list within a list; of two names the last counts.
    let values = [bytes(1, b"\"\n"), bytes(6, b""), bytes(5, &bytes(1, &bytes(5, b"")))]
        .map(|value| bytes(7, &bytes(2, &value)))
        .concat();
    let sum = [bytes(1, &number), bytes(1, &double), bytes(1, &values), vec![0x10, 1, 0x18, 1]].concat();
    let packed = [3.0f64, 0.5].map(f64::to_le_bytes).concat();
    let histogram =
        [&bytes(7, &packed)[..], &[0x31], &7u64.to_le_bytes(), &[0x29], &2.0f64.to_le_bytes()].concat();
    let cases = [
        (
            [bytes(1, b"x"), bytes(1, b"m"), bytes(2, b"d"), bytes(7, &sum)].concat(),
            format!(
                r#"{{"name":"m","sum":{{"aggregationTemporality":1,"isMonotonic":true,"dataPoints":[{},{},{}]}}}}"#,
                r#"{"startTimeUnixNano":1,"timeUnixNano":18446744073709551615,"asInt":-5,"flags":2}"#,
                r#"{"asDouble":5}"#,
                r#"{"attributes":[{"value":{"stringValue":"\"\n"}},{"value":{"kvlistValue":{}}},{"value":{"arrayValue":{"values":[{"arrayValue":{}}]}}}]}"#
            ),
        ),
        (
            bytes(9, &bytes(1, &histogram)),
            r#"{"histogram":{"dataPoints":[{"sum":2,"bucketCounts":[7],"explicitBounds":[3,"0.5"]}]}}"#
                .to_string(),
        ),
        (
            [bytes(5, &bytes(1, &number)), bytes(11, &bytes(1, b""))].concat(),
            r#"{"gauge":{"dataPoints":[{}]},"summary":{"dataPoints":[{}]}}"#.to_string(),
        ),
    ];
    for (metric, expected) in cases {
        let written = prepared(Encoding::Protobuf, within_request(&metric)).unwrap();
        let expected: serde_json::Value = serde_json::from_str(&request(&expected)).unwrap();
        assert_eq!(serde_json::from_slice::<serde_json::Value>(&written).unwrap(), expected);
    }
    assert_eq!(prepared(Encoding::Protobuf, ""), Ok(Bytes::from("{}")));
}

/// Most attributes have a key and a value, one of each and in this order; others mean as much.
#[test]
fn attributes_in_protobuf_may_come_in_any_form() {
    let written = |attribute: &[u8]| {
        let metric = bytes(7, &bytes(1, &bytes(7, attribute)));
        let written = prepared(Encoding::Protobuf, within_request(&metric)).unwrap();
        let text = std::str::from_utf8(&written).unwrap().to_string();
        let attributes = text.split_once("\"attributes\":").unwrap().1;
        attributes.strip_suffix("}]}}]}]}]}").unwrap().to_string()
    };
    let (key, text, whole) = (bytes(1, b"k"), bytes(2, &bytes(1, b"t")), bytes(2, &[24, 5]));
    let with_text = r#"[{"key":"k","value":{"stringValue":"t"}}]"#;
    let (other_key, other, longer) = (bytes(1, b"x"), bytes(9, b"x"), [&[24, 4][..], &[24, 5]].concat());
    assert_eq!(written(&[key.clone(), text.clone()].concat()), with_text);
    for parts in
        [[&text, &key, &other], [&other_key, &key, &text], [&key, &text, &other], [&other, &key, &text]]
    {
        assert_eq!(written(&parts.map(|part| &part[..]).concat()), with_text);
    }
    let with_whole = r#"[{"key":"k","value":{"intValue":5}}]"#;
    for whole in [whole, bytes(2, &longer)] {
        assert_eq!(written(&[key.clone(), whole].concat()), with_whole);
    }
    let without = [(key.clone(), r#"[{"key":"k"}]"#), (text.clone(), r#"[{"value":{"stringValue":"t"}}]"#)];
    for (one, expected) in without {
        assert_eq!(written(&one), expected);
    }
    let of_two = bytes(2, &[bytes(1, b"t"), vec![24, 5]].concat());
    assert_eq!(written(&[key, of_two].concat()), with_whole, "the last one counts");
}

#[test]
fn resource_attributes_are_dropped() {
    let reading =
        Reading { dropped: vec!["service.instance.id".to_string(), "é".to_string()], ..Reading::default() };
    let body = r#"{"resourceMetrics":[{"resource":{"attributes":[{"key":"service.instance.id","value":{"stringValue":"1"}},{"key":"a"},{"value":{},"key":"\u00e9"},{"key":"b"}]},"scopeMetrics":[{"scope":{"attributes":[{"key":"é"}]}}]}]}"#;
    let expected = r#"{"resourceMetrics":[{"resource":{"attributes":[{"key":"a"},{"key":"b"}]},"scopeMetrics":[{"scope":{"attributes":[{"key":"é"}]}}]}]}"#;
    assert_eq!(prepare(Encoding::Json, body.into(), &reading).unwrap().body, expected);
    let pairs = ["é", "a", "service.instance.id"].map(|key| bytes(1, &bytes(1, key.as_bytes()))).concat();
    let written = prepare(Encoding::Protobuf, bytes(1, &bytes(1, &pairs)).into(), &reading).unwrap();
    assert_eq!(written.body, r#"{"resourceMetrics":[{"resource":{"attributes":[{"key":"a"}]}}]}"#);
}

#[test]
fn answers_are_of_the_request_s_kind() {
    let all = Outcome::taken(0);
    assert_eq!((all.body(Encoding::Json), all.body(Encoding::Protobuf)), (b"{}".to_vec(), Vec::new()));
    let some = Outcome::taken(7);
    let text =
        br#"{"partialSuccess":{"errorMessage":"points outside the profile","rejectedDataPoints":"7"}}"#;
    assert_eq!(some.body(Encoding::Json), text);
    let partial = ExportMetricsServiceResponse::decode(&some.body(Encoding::Protobuf)[..])
        .unwrap()
        .partial_success
        .unwrap();
    assert_eq!((partial.rejected_data_points, &*partial.error_message), (7, "points outside the profile"));
    let rounded = Rounded { unfit: Some("a \"b\"".into()), ..Rounded::default() };
    let said = Outcome::taken(2).with(&rounded);
    assert_eq!(
        said.body(Encoding::Json),
        br#"{"partialSuccess":{"errorMessage":"points outside the profile: a \"b\"","rejectedDataPoints":"2"}}"#
    );
    let partial = ExportMetricsServiceResponse::decode(&said.body(Encoding::Protobuf)[..])
        .unwrap()
        .partial_success
        .unwrap();
    let message = "points outside the profile: a \"b\"";
    assert_eq!((partial.rejected_data_points, &*partial.error_message), (2, message));
    let codes = [
        (400, 3),
        (401, 16),
        (403, 7),
        (404, 5),
        (405, 12),
        (411, 3),
        (413, 3),
        (415, 3),
        (429, 8),
        (431, 3),
        (503, 14),
        (504, 4),
    ];
    for (status, code) in codes {
        let reason = Reason::ALL.iter().find(|reason| reason.status() == status).unwrap();
        let refused = Outcome::refused(*reason, "a \"b\"");
        assert_eq!(
            refused.body(Encoding::Json),
            format!(r#"{{"code":{code},"message":"a \"b\""}}"#).into_bytes()
        );
        let found = Status::decode(&refused.body(Encoding::Protobuf)[..]).unwrap();
        assert_eq!(found, Status { code, message: "a \"b\"".to_string(), details: Vec::new() });
    }
}

/// A request in JSON, as most encoders write it.
pub(super) fn in_json(request: &messages::ExportMetricsServiceRequest) -> String {
    let spelling = mapping::Spelling { proto_names: false, numbers: false, enum_names: false };
    spelling.request(request)
}

/// A request of one point.
pub(crate) fn a_request() -> Vec<u8> {
    let point =
        [&[0x11][..], &1u64.to_le_bytes(), &[0x19], &2u64.to_le_bytes(), &[0x31], &5i64.to_le_bytes()]
            .concat();
    let sum = [bytes(1, &point), vec![0x10, 1, 0x18, 1]].concat();
    within_request(&[bytes(1, b"m"), bytes(7, &sum)].concat())
}
