//! What is handed on, against messages that are put together another way.

use super::*;
use crate::otlp::wire::field;
use crate::otlp::{prepare, Reading};
use serde_json::{json, Value};

fn point(says: Value) -> Value {
    let mut point = json!({"startTimeUnixNano": "1", "timeUnixNano": "2", "exemplars": [{"asDouble": 0.5}]});
    let says = says.as_object().unwrap().clone();
    point.as_object_mut().unwrap().extend(says);
    point
}

fn metrics(metrics: Value) -> Value {
    json!({"resourceMetrics": [
        {"resource": {"attributes": [{"key": "r", "value": {"stringValue": "x"}}]}, "schemaUrl": "u", "scopeMetrics": [
            {"scope": {"name": "s", "more": [1, {"a": null}]}, "metrics": metrics}]},
        {"scopeMetrics": [{"metrics": []}]}]})
}

fn of(request: &Value, reading: &Reading) -> (Option<(Value, u64)>, Causes) {
    let body = Bytes::from(request.to_string());
    let prepared = prepare(Encoding::Json, body.clone(), reading).unwrap();
    let foreign = crate::otlp::tests::posted(&prepared.body).unwrap().foreign;
    let original = Original { encoding: Encoding::Json, body };
    let (outside, causes) = original.outside(foreign, Profile::Deltas, || Some(prepared.body));
    let read = |outside: Outside| (serde_json::from_slice(&outside.body).unwrap(), outside.points);
    (outside.map(read), causes)
}

#[test]
fn what_is_outside_is_handed_on_as_it_came() {
    let gauge = json!({"name": "g", "description": "d", "gauge": {"dataPoints": [{"asDouble": 0.5, "timeUnixNano": "2"}, {}]}});
    let sum = |points: Value| json!({"name": "m", "sum": {"aggregationTemporality": 1, "dataPoints": points, "isMonotonic": true}});
    let (whole, double) = (point(json!({"asInt": "5"})), point(json!({"asDouble": 0.25})));
    let negative = point(json!({"asInt": "-1"}));
    let cumulative = json!({"unit": "x", "histogram": {"aggregation_temporality": 2, "data_points": [point(json!({"count": 0}))]}});
    let summary = json!({"summary": {"dataPoints": [{"sum": 1}]}});
    let all = json!([
        sum(json!([whole, double, whole, negative])),
        gauge,
        sum(json!([whole])),
        cumulative,
        summary
    ]);
    let mut left = metrics(json!([sum(json!([double])), gauge, cumulative, summary]));
    left["resourceMetrics"].as_array_mut().unwrap().pop();
    let (found, causes) = of(&metrics(all), &Reading::default());
    assert_eq!(found, Some((left, 5)));
    assert_eq!(causes.iter().collect::<Vec<_>>(), [(Reason::Other, 1)]);
    let (found, causes) = of(&metrics(json!([sum(json!([whole, negative]))])), &Reading::default());
    assert_eq!((found, causes.count()), (None, 1));
}

#[test]
fn fields_of_protobuf_are_copied() {
    let unknown = [0xa8, 0x06, 0x05]; // a number of field 101
    let metric = |data: u32, points: &[&[u8]], more: &[u8]| {
        let points: Vec<u8> = points.iter().flat_map(|point| field(1, point)).collect();
        [&field(1, b"m")[..], &field(data, &[&points, more].concat()), &unknown].concat()
    };
    let request = |all: &[Vec<u8>]| {
        let all: Vec<u8> = all.iter().flat_map(|metric| field(2, metric)).collect();
        let scope = [&field(1, b"\x0a\x01s")[..], &all, &unknown].concat();
        field(1, &[&field(1, b"")[..], &field(2, &scope), &field(3, b"url")].concat())
    };
    let span = [&[0x11][..], &[1, 0, 0, 0, 0, 0, 0, 0, 0x19, 2, 0, 0, 0, 0, 0, 0, 0]].concat();
    let whole = [&span[..], &[0x31, 5, 0, 0, 0, 0, 0, 0, 0]].concat();
    let double = [&span[..], &[0x21, 0, 0, 0, 0, 0, 0, 0xd0, 0x3f]].concat();
    let gauge = metric(5, &[&double, b""], &unknown);
    let delta = [0x10, 1];
    let bodies = [
        request(&[gauge.clone(), metric(7, &[&whole, &double, &whole], &delta)]),
        request(&[metric(7, &[&whole], &delta), gauge.clone()]),
    ];
    let wanted = [request(&[gauge.clone(), metric(7, &[&double], &delta)]), request(&[gauge])];
    for (body, wanted) in bodies.into_iter().zip(wanted) {
        let body = Bytes::from(body);
        let prepared = prepare(Encoding::Protobuf, body.clone(), &Reading::default()).unwrap();
        let foreign = crate::otlp::tests::posted(&prepared.body).unwrap().foreign;
        let original = Original { encoding: Encoding::Protobuf, body };
        let (outside, causes) = original.outside(foreign, Profile::Deltas, || Some(prepared.body));
        let outside = outside.unwrap();
        assert_eq!((&outside.body[..], outside.points), (&wanted[..], foreign));
        assert_eq!(causes, Causes::default());
    }
}

/// Points are found in both encodings as `visit` finds them, whatever is drawn.
#[test]
fn random_requests_have_their_points() {
    let mut handed = 0;
    for seed in [3, 4] {
        for body in crate::otlp::posts_of_test(seed, 2_000).into_iter().map(Bytes::from) {
            let Ok(prepared) = prepare(Encoding::Protobuf, body.clone(), &Reading::default()) else {
                continue;
            };
            let all = points(&prepared.body, Profile::Deltas).unwrap();
            let foreign = all.iter().filter(|(_, cause)| cause.is_some()).count() as u64;
            let passed = all.iter().filter(|(is_passed, _)| *is_passed).count() as u64;
            let original = Original { encoding: Encoding::Protobuf, body };
            let (outside, causes) = original.outside(foreign, Profile::Deltas, || Some(prepared.body));
            let points = outside.as_ref().map_or(0, |outside| outside.points);
            assert_eq!((points, causes.count()), (passed, foreign - passed));
            if let Some(outside) = outside {
                let again = prepare(Encoding::Protobuf, outside.body, &Reading::default()).unwrap();
                assert_eq!(super::points(&again.body, Profile::Deltas).unwrap().len() as u64, passed);
                handed += 1;
            }
        }
    }
    assert!(handed > 500, "{handed}");
}

/// Else one post of a few megabytes holds a thread for hours: a message of protobuf may come in parts.
#[test]
fn a_metric_in_very_many_parts_takes_time_by_its_bytes() {
    let request = |gauges: &[u8]| {
        let metric = field(2, &[&field(1, b"m")[..], gauges].concat());
        field(1, &field(2, &metric))
    };
    let gauge = field(5, &field(1, b""));
    let body = Bytes::from(request(&[field(5, b"").repeat(200_000), gauge.clone()].concat()));
    let began = std::time::Instant::now();
    let original = Original { encoding: Encoding::Protobuf, body };
    let (outside, causes) = original.outside(1, Profile::Deltas, || None);
    let outside = outside.unwrap();
    assert_eq!((&outside.body[..], outside.points), (&request(&gauge)[..], 1));
    assert_eq!(causes, Causes::default());
    assert!(began.elapsed().as_secs() < 5, "{:?}", began.elapsed());
}
