//! What identifies a series is bounded, whatever a request says.

use super::messages::{
    Any, AnyValue, ArrayValue, Data, ExportMetricsServiceRequest, InstrumentationScope, KeyValue, Metric,
    Number, NumberDataPoint, Resource, ResourceMetrics, ScopeMetrics, Sum,
};
use super::{in_json, posted, prepared};
use crate::otlp::output::LONGEST_LIST;
use crate::otlp::series::others;
use crate::otlp::{explained, Clock, Encoding, Profile};
use prost::Message;

/// How many points a request has.
const POINTS: u64 = 50;

fn text(length: usize) -> AnyValue {
    AnyValue { value: Some(Any::Text("x".repeat(length))) }
}

fn attribute(key: String, value: AnyValue) -> KeyValue {
    KeyValue { key, value: Some(value) }
}

/// Attributes whose list is so long as it is written, and no other is as long.
fn list(length: usize) -> Vec<KeyValue> {
    const EMPTY: &str = r#"{"key":"k000","value":{"stringValue":""}}"#;
    let count = length / 2000 + 1;
    let all = length - 1 - count; // but brackets and commas
    let one = |place: usize| {
        let more = if place == 0 { all % count } else { 0 };
        attribute(format!("k{place:03}"), text(all / count + more - EMPTY.len()))
    };
    (0..count).map(one).collect()
}

/// A request whose points share what is above them.
fn request(
    resource: Vec<KeyValue>,
    scope: Vec<KeyValue>,
    point: Vec<KeyValue>,
) -> ExportMetricsServiceRequest {
    let point = |number: u64| NumberDataPoint {
        start_time_unix_nano: number + 1,
        time_unix_nano: number + 2,
        value: Some(Number::AsInt(1)),
        attributes: point.clone(),
        flags: 0,
    };
    let sum =
        Sum { data_points: (0..POINTS).map(point).collect(), aggregation_temporality: 1, is_monotonic: true };
    let metric = Metric { name: "m".into(), unit: String::new(), data: Some(Data::Sum(sum)) };
    let scope = InstrumentationScope { attributes: scope, ..Default::default() };
    let scope_metrics = vec![ScopeMetrics { scope: Some(scope), metrics: vec![metric] }];
    ExportMetricsServiceRequest {
        resource_metrics: vec![ResourceMetrics {
            resource: Some(Resource { attributes: resource }),
            scope_metrics,
        }],
    }
}

/// The bodies of a request, as either encoding brings them.
fn bodies(request: &ExportMetricsServiceRequest) -> [bytes::Bytes; 2] {
    let json = prepared(Encoding::Json, in_json(request)).unwrap();
    let protobuf = prepared(Encoding::Protobuf, request.encode_to_vec()).unwrap();
    [json, protobuf]
}

#[test]
fn a_list_that_is_too_long_makes_foreign_what_it_identifies() {
    for (length, expected) in [(LONGEST_LIST / 2, 0), (LONGEST_LIST, 0), (LONGEST_LIST + 1, POINTS)] {
        let (none, long) = (Vec::new, || list(length));
        for (of, request) in [
            ("resource attribute", request(long(), none(), none())),
            ("scope attribute", request(none(), long(), none())),
            ("attribute", request(none(), none(), long())),
        ] {
            for body in bodies(&request) {
                assert_eq!(posted(&body).unwrap().foreign, expected, "{of} {length}");
                let why =
                    explained(&body, Profile::Deltas, Clock::default().window()).unwrap().remove(0).foreign;
                let wanted = format!("{of} is a list of over 16384 bytes, no list of attributes");
                assert_eq!(why, (expected > 0).then_some(wanted));
            }
        }
    }
}

/// Who is over its quota posts as often as it likes.
#[test]
fn a_body_is_looked_through_up_to_a_series_that_is_not_known() {
    let mut of_each = request(Vec::new(), Vec::new(), Vec::new());
    let scope = &mut of_each.resource_metrics[0].scope_metrics[0];
    let Some(Data::Sum(sum)) = &mut scope.metrics[0].data else { panic!() };
    for (number, point) in sum.data_points.iter_mut().enumerate() {
        point.attributes = vec![attribute(format!("k{number:03}"), text(1))];
    }
    for body in bodies(&of_each) {
        let asked = |known: usize| {
            let mut asked = 0;
            let new = others(&body, Profile::Deltas, 0, |_| {
                asked += 1;
                asked <= known
            });
            (new, asked)
        };
        assert_eq!((asked(50), asked(7), asked(0)), ((0, 50), (1, 8), (1, 1)));
    }
}

/// Else a post of 4 MiB would be gigabytes: each of its series is known by all that identifies it.
#[test]
fn a_long_resource_that_points_share_is_no_memory() {
    let values = (0..128).map(|_| text(4096)).collect();
    let array = AnyValue { value: Some(Any::Array(ArrayValue { values })) };
    let long = request(vec![attribute("a".into(), array)], Vec::new(), Vec::new());
    for body in bodies(&long) {
        let posted = posted(&body).unwrap();
        assert_eq!((posted.series.len(), posted.foreign), (0, POINTS));
    }
}
