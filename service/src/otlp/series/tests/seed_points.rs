//! Points of value zero, which tell a fresh book of each series.

use super::*;
use crate::otlp::tests::Posted;

/// Values of attributes, as keys have them.
pub const VALUES: [&str; 9] = [
    r#"{}"#,
    r#"{"stringValue":""}"#,
    r#"{"stringValue":"\"\\\b\u0001é\n😀"}"#,
    r#"{"boolValue":false}"#,
    r#"{"boolValue":true}"#,
    r#"{"intValue":"0"}"#,
    r#"{"intValue":"-9223372036854775808"}"#,
    r#"{"arrayValue":{"values":[]}}"#,
    r#"{"arrayValue":{"values":[{},{"stringValue":"a"},{"boolValue":false},{"intValue":"-1"}]}}"#,
];
/// The same of kinds.
pub const KINDS: [&str; 4] = [r#""sum""#, r#""monotonic""#, "[]", "[-9007199254740992,0,9007199254740992]"];

/// What a body has points of.
fn found(body: &str) -> Posted {
    posted(body.as_bytes()).unwrap()
}

#[test]
fn zeros_say_once_what_a_series_shares_with_the_one_before() {
    let key = |resource: &str, scope: &str, name: &str, kind: &str, point: &str| {
        let pair = |key: &str| format!(r#"[{{"key":"{key}","value":{{}}}}]"#);
        let text = format!(r#"[{},"{scope}","",[],"{name}","s",{kind},{}]"#, pair(resource), pair(point));
        (SeriesKey(text.into()), 7)
    };
    let series = [
        key("r", "s", "m", "\"sum\"", "a"),
        key("r", "s", "m", "\"sum\"", "b"),
        key("r", "s", "m", "\"monotonic\"", "b"),
        key("r", "s", "m", "[5]", "b"),
        key("r", "s", "m", "[6]", "b"),
        key("r", "t", "m", "[6]", "b"),
        key("q", "t", "m", "[6]", "b"),
        key("q", "t", "n", "[6]", "b"),
    ];
    let body = zeros(series.clone()).unwrap().pop().unwrap();
    let all = found(&body);
    assert_eq!((all.foreign, &all.series), (0, &series.iter().cloned().collect()));
    let request = protobuf_of_forwarded(body.as_bytes()).unwrap();
    let request = ExportMetricsServiceRequest::decode(&*request).unwrap();
    let scopes = || request.resource_metrics.iter().flat_map(|resource| &resource.scope_metrics);
    let metrics = || scopes().flat_map(|scope| &scope.metrics);
    let points = metrics().map(|metric| match &metric.data {
        Some(Data::Sum(sum)) => sum.data_points.len(),
        Some(Data::Histogram(histogram)) => histogram.data_points.len(),
        None => 0,
    });
    assert_eq!((request.resource_metrics.len(), scopes().count()), (2, 3));
    assert_eq!(points.collect::<Vec<_>>(), [2, 1, 2, 1, 1, 1]);
}

/// Else it would be primed as another series than it is, and a late repeat be taken.
#[test]
fn zeros_are_of_the_series_whose_key_it_is() {
    let mut keys: Vec<String> = Vec::new();
    for (place, value) in VALUES.iter().enumerate() {
        let list = format!(r#"[{{"key":"","value":{value}}},{{"key":"k\"é","value":{value}}}]"#);
        let (other, kind) = (if place % 2 == 0 { "[]" } else { &list }, KINDS[place % 4]);
        let texts = ["", "s\\n", "é"].map(|text| format!("\"{text}\""));
        let [scope, version, name] = [0, 1, 2].map(|text| &texts[(place + text) % 3]);
        keys.push(format!("[{list},{scope},{version},{other},{name},{scope},{kind},{other}]"));
        keys.push(format!("[{other},{scope},{version},{list},{name},{version},{kind},{list}]"));
    }
    for wrong in [
        r#"{"doubleValue":1}"#,
        r#"{"bytesValue":""}"#,
        r#"{"kvlistValue":{}}"#,
        r#"{"stringValue":5}"#,
        r#"{"boolValue":"true"}"#,
        r#"{"intValue":1.5}"#,
        r#"{"stringValue":"a","intValue":"1"}"#,
        r#"{"arrayValue":{"values":[{"arrayValue":{"values":[]}}]}}"#,
    ] {
        let list = format!(r#"[{{"key":"a","value":{wrong}}}]"#);
        keys.push(format!(r#"[[],"","",[],"m","","sum",{list}]"#));
        keys.push(format!(r#"[{list},"","",[],"m","","sum",[]]"#));
    }
    keys.push(r#"[[],"","",[],"m","",[9007199254740993],[]]"#.into());
    for key in keys {
        let key = SeriesKey(key.into());
        let body = zeros([(key.clone(), 9)]).unwrap().pop().unwrap();
        let (found, as_json) = (found(&body), posted(request_of(&key, 9).unwrap().as_bytes()).unwrap());
        assert_eq!((found.foreign, &found.series), (as_json.foreign, &as_json.series), "{key:?}");
        assert!(found.foreign == 1 || found.series == [(key.clone(), 9)].into(), "{key:?}");
    }
}

#[test]
fn zeros_are_points_of_each_series_at_its_frontier() {
    let mut series: Vec<(SeriesKey, u64)> =
        posted(FORWARDED.as_bytes()).unwrap().series.into_iter().collect();
    let many = (0..10_000).map(|place| {
        format!(r#"[[],"","",[],"m","","monotonic",[{{"key":"{}","value":{{}}}}]]"#, place + 10_000_000)
    });
    series.extend(many.map(|key| (SeriesKey(key.into()), u64::MAX)));
    let bodies = zeros(series.clone()).unwrap();
    assert!(bodies.iter().all(|body| body.len() <= 3 << 20));
    let mut all = HashMap::new();
    for body in &bodies {
        let body = found(body);
        assert_eq!(body.foreign, 0);
        all.extend(body.series);
    }
    assert_eq!(all, series.iter().cloned().collect());
    assert_eq!(zeros([]).unwrap(), Vec::<String>::new());
    series.sort_unstable();
    let sorted = zeros(series.clone()).unwrap();
    let length = |bodies: &[String]| bodies.iter().map(String::len).sum::<usize>();
    assert!(length(&sorted) <= length(&bodies));
    let in_order = sorted.iter().flat_map(|body| found(body).series);
    assert_eq!(in_order.collect::<HashMap<_, _>>(), all);
    let long = format!(r#"[[],"","",[],"{}","","sum",[]]"#, "x".repeat(4 << 20));
    let bodies = zeros([(SeriesKey(long.into()), 9), series[0].clone()]).unwrap();
    assert_eq!(bodies.len(), 2);
    for frontier in [0, 1] {
        assert!(zeros([(series[0].0.clone(), frontier)]).is_err());
    }
}
