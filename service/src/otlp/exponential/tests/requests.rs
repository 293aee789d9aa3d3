//! Whole requests with exponential histograms, in both encodings.

use super::bounds;
use crate::otlp::tests::posted_with;
use crate::otlp::wire::field;
use crate::otlp::{
    explained, prepare, Causes, Clock, Encoding, FinerUnits, Original, Prepared, Profile, Reading, Reason,
};

fn reading(bounds: &str) -> Reading {
    Reading { exponential: Some(bounds.parse().unwrap()), ..Reading::default() }
}

/// A point of scale 1: (0.5, 0.7], (0.7, 1], (1, 1.4] and (2, 2.8], two zeros, and [-1.4, -1).
const POINT: &str = r#"{"attributes":[{"key":"k","value":{"stringValue":"v"}}],"startTimeUnixNano":"1","timeUnixNano":"2","count":"16","sum":12,
    "scale":1,"zeroCount":"2","positive":{"offset":-2,"bucketCounts":["1","2","3","0","5"]},"negative":{"offset":0,"bucketCounts":[3]},
    "flags":0,"min":-1.25,"max":2.5,"zeroThreshold":0.125,"exemplars":[]}"#;

fn in_json(points: &str, temporality: u8) -> String {
    format!(
        r#"{{"resourceMetrics":[{{"scopeMetrics":[{{"metrics":[{{"name":"m","unit":"By","exponentialHistogram":{{"dataPoints":[{points}],"aggregationTemporality":{temporality}}}}}]}}]}}]}}"#
    )
}

fn fixed(number: u8, bits: u64) -> Vec<u8> {
    [vec![number << 3 | 1], bits.to_le_bytes().to_vec()].concat()
}

/// The same point, as the definition of its message has it.
fn in_protobuf(temporality: u8) -> Vec<u8> {
    let attribute = [field(1, b"k"), field(2, &field(1, b"v"))].concat();
    let mut positive = Vec::new();
    prost::encoding::sint32::encode(1, &-2, &mut positive);
    prost::encoding::uint64::encode_packed(2, &[1, 2, 3, 0, 5], &mut positive);
    let mut negative = Vec::new();
    prost::encoding::uint64::encode_repeated(2, &[3], &mut negative);
    let mut scale = Vec::new();
    prost::encoding::sint32::encode(6, &1, &mut scale);
    let double = |number, double: f64| fixed(number, double.to_bits());
    let point = [
        field(1, &attribute),
        fixed(2, 1),
        fixed(3, 2),
        fixed(4, 16),
        double(5, 12.0),
        scale,
        fixed(7, 2),
        field(8, &positive),
        field(9, &negative),
        double(12, -1.25),
        double(13, 2.5),
        double(14, 0.125),
    ]
    .concat();
    let data = [field(1, &point), vec![16, temporality]].concat();
    let metric = [field(1, b"m"), field(3, b"By"), field(10, &data)].concat();
    field(1, &field(2, &field(2, &metric)))
}

fn prepared(encoding: Encoding, body: impl Into<bytes::Bytes>, reading: &Reading) -> Prepared {
    prepare(encoding, body.into(), reading).unwrap()
}

/// The words of the only point of the profile, and how many points are foreign.
fn words(body: &[u8], profile: Profile) -> (Option<String>, u64) {
    let posted = posted_with(body, profile).unwrap();
    (posted.series.into_keys().next().map(|key| key.0.to_string()), posted.foreign)
}

#[test]
fn both_encodings_come_to_the_view() {
    let reading = reading("-2,0.5,1,2");
    for (temporality, profile) in [(1, Profile::Deltas), (2, Profile::AlsoCumulative)] {
        let json = prepared(Encoding::Json, in_json(POINT, temporality), &reading);
        let binary = prepared(Encoding::Protobuf, in_protobuf(temporality), &reading);
        for of in [&json, &binary] {
            let read: serde_json::Value = serde_json::from_slice(&of.body).unwrap();
            let metric = &read["resourceMetrics"][0]["scopeMetrics"][0]["metrics"][0];
            let point = &metric["histogram"]["dataPoints"][0];
            // [-1.4, -1) and the zeros are in (-2, 0.5].
            assert_eq!(point["bucketCounts"], serde_json::json!([0, 5, 3, 3, 5]), "{point}");
            assert_eq!(point["explicitBounds"], serde_json::json!([-2, "0.5", 1, 2]));
            assert_eq!(metric["histogram"]["aggregationTemporality"], temporality);
            assert_eq!((&point["sum"], of.is_cumulative), (&serde_json::json!(12), temporality == 2));
            assert_eq!(words(&of.body, profile), (None, 1), "a bound is no whole number");
        }
        let whole = Reading {
            exponential: Some(bounds("-2,0.5,1,2")),
            finer_units: FinerUnits::new(["By=10:dBy".parse().unwrap()]).unwrap().with_profile(profile),
            ..Reading::default()
        };
        let [json, binary] = [
            (Encoding::Json, in_json(POINT, temporality).into_bytes()),
            (Encoding::Protobuf, in_protobuf(temporality)),
        ]
        .map(|(encoding, body)| words(&prepared(encoding, body, &whole).body, profile));
        assert_eq!(json, binary);
        let series = json.0.unwrap();
        assert!(series.contains(r#""m","dBy",[-20,5,10,20]"#), "{series}");
    }
}

#[test]
fn what_does_not_fall_into_one_bucket_is_foreign_by_name() {
    let reading = reading("1,2,3");
    // (2.8, 4]
    let within = POINT.replace(r#""0","5"]"#, r#""0","5","2"]"#).replace("16", "18");
    let fine = POINT.replace(r#""scale":1"#, r#""scale":21"#);
    let wrong = POINT.replace(r#""zeroCount":"2""#, r#""zeroCount":[]"#);
    let not_adding = POINT.replace("16", "17");
    let all = [&*within, POINT, &*fine, &*wrong, &*not_adding];
    let body = in_json(&all.join(","), 2);
    let of = prepared(Encoding::Json, body.clone(), &reading);
    let why = "the bucket 3 of scale 1 has the bound 3 within";
    assert_eq!(of.rounded.unfit, Some(format!("of the exponential histogram `m` {why}")));
    let points = explained(&of.body, Profile::AlsoCumulative, Clock::default().window()).unwrap();
    let found: Vec<_> = points
        .iter()
        .map(|point| (point.foreign.as_deref().unwrap_or(""), point.cause, point.is_passed()))
        .collect();
    let cause = Some(Reason::ExponentialHistogram);
    let named = |why: &str| format!("it is an exponential histogram: {why}");
    let wanted = [
        (named(why), cause, true),
        (String::new(), None, false),
        (named("the scale is none from -10 to 20"), cause, true),
        (named("zeroCount can't be read"), cause, true),
        ("bucketCounts do not add up to the count".into(), Some(Reason::Other), false),
    ];
    let wanted: Vec<_> = wanted.iter().map(|(why, cause, passed)| (&**why, *cause, *passed)).collect();
    assert_eq!(found, wanted);
    assert!(points.iter().all(|point| point.attributes == "k=v"), "{points:?}");
    // What is foreign is handed on as it came.
    let original = Original { encoding: Encoding::Json, body: body.into() };
    let (outside, causes) = original.outside(4, Profile::AlsoCumulative, || Some(of.body));
    let left: serde_json::Value = serde_json::from_slice(&outside.unwrap().body).unwrap();
    let wanted: serde_json::Value =
        serde_json::from_str(&in_json(&[within, fine, wrong].join(","), 2)).unwrap();
    assert_eq!((left, causes.count()), (wanted, 1));
}

/// In protobuf, also beside others that are handed on, and of which the count is the same.
#[test]
fn what_is_taken_is_not_handed_on() {
    let reading = reading("-2,1,2");
    let gauge = field(1, &field(2, &field(2, &field(5, &field(1, &[])))));
    let bad = field(1, &field(2, &field(2, &field(7, &field(1, &[])))));
    for (more, passed) in [(gauge, Some(1)), (bad, None)] {
        let body = [in_protobuf(1), more].concat();
        let of = prepared(Encoding::Protobuf, body.clone(), &reading);
        let foreign = words(&of.body, Profile::Deltas).1;
        assert_eq!(foreign, 1);
        let original = Original { encoding: Encoding::Protobuf, body: body.into() };
        let (outside, _) = original.outside(foreign, Profile::Deltas, || Some(of.body));
        assert_eq!(outside.map(|outside| outside.points), passed);
    }
}

#[test]
fn without_bounds_they_are_foreign_whatever_they_say() {
    let plain = Reading::default();
    let wrong = POINT.replace(r#""positive":{"#, r#""positive":5,"else":{"#);
    for body in [POINT, &wrong] {
        let of = prepared(Encoding::Json, in_json(body, 1), &plain);
        assert_eq!(Causes::of(&of.body, Profile::Deltas, 1).to_string(), "1 exponential histogram");
    }
    let body = in_json(&wrong, 1);
    let refused = prepare(Encoding::Json, body.into(), &reading("1,2")).unwrap_err();
    assert!(refused.to_string().contains("positive is no object"), "{refused}");
}

/// A metric of several kinds is foreign as it is, and one of another kind stays.
#[test]
fn nothing_else_is_changed() {
    let reading = reading("1,2");
    let several = in_json(POINT, 1).replace(r#""unit":"By","#, r#""unit":"By","gauge":{"dataPoints":[{}]},"#);
    let of = prepared(Encoding::Json, several, &reading);
    assert!(std::str::from_utf8(&of.body).unwrap().contains("exponentialHistogram"));
    assert_eq!(words(&of.body, Profile::Deltas), (None, 2));
    let sum = r#"{"resourceMetrics":[{"scopeMetrics":[{"metrics":[{"name":"exponentialHistogram","sum":{"dataPoints":[]}}]}]}]}"#;
    assert_eq!(prepared(Encoding::Json, sum, &reading).body, sum);
}
