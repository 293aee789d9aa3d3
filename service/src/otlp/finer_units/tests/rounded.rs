//! What `--integer-unit` has rounded, by series and by rule.

use super::super::rounded::{rounded as noted, Mark};
use super::*;

/// A request of these metrics below one resource.
fn request(metrics: &[String]) -> String {
    format!(
        r#"{{"resourceMetrics":[{{"scopeMetrics":[{{"metrics":[{}]}}],"resource":{{"attributes":[{{"key":"service.name","value":{{"stringValue":"shop"}}}}]}}}}]}}"#,
        metrics.join(",")
    )
}

fn rounded(body: String, rules: &[&str]) -> Rounded {
    prepare(Encoding::Json, body.into(), &reading(rules)).unwrap().rounded
}

#[test]
fn a_rounded_point_has_its_series() {
    let attributes = |list: &[(&str, &str)]| {
        let one = |(key, value): &(&str, &str)| format!(r#"{{"key":"{key}","value":{value}}}"#);
        format!(r#""attributes":[{}]"#, list.iter().map(one).collect::<Vec<_>>().join(","))
    };
    let (route, code) = (("route", r#"{"stringValue":"/"}"#), ("code", r#"{"intValue":"200"}"#));
    let found = rounded(
        request(&[
            histogram(&format!(r#""count":1,"sum":0.0000015,{}"#, attributes(&[route, code]))),
            sum(r#""asDouble":0.5"#),
            histogram(&format!(r#""sum":0.00000125,"count":1,{}"#, attributes(&[code, route]))),
            histogram(r#""count":1,"sum":0.0000025"#),
            sum(r#""asDouble":0.00000125"#),
        ]),
        &["s=us"],
    );
    let about: Vec<_> =
        found.points.iter().map(|one| (one.of.metric.as_str(), one.of.attributes.as_str(), one.by)).collect();
    assert_eq!(
        about,
        [("d", "route=/, code=200", 0.5), ("d", "code=200, route=/", 0.25), ("d", "", 0.5), ("", "", 0.25),]
    );
    let series: Vec<u64> = found.points.iter().map(|one| one.of.series).collect();
    assert_eq!(series[0], series[1], "the order of attributes makes no other series");
    assert!(series[1] != series[2] && series[2] != series[3] && series[3] != series[1]);
    assert!(found
        .points
        .iter()
        .all(|one| &*one.of.resource == "service.name=shop" && &*one.of.rule == "s=1000000:us"));
    let together = Rounding { values: 4, together: 1.5 };
    assert_eq!(found.by_rule, [("s=1000000:us".to_string(), together)].into());
}

#[test]
fn what_can_not_be_taken_makes_no_total_less_exact() {
    let early = sum(r#""asDouble":0.00000125"#).replace(r#""timeUnixNano":"2""#, r#""timeUnixNano":"1""#);
    let taken = sum(r#""asDouble":0.00000175"#);
    let found = rounded(request(&[early.clone(), taken, early.clone()]), &["s=us"]);
    let series: Vec<f64> = found.points.iter().map(|one| one.by).collect();
    assert_eq!((series, found.by_rule["s=1000000:us"].values), (vec![0.25], 3));
    // Nothing is taken of a request that the book refuses whole.
    let mark = Mark { at: 1, by: 0.5, rule: &"s=us".parse().unwrap(), resource: "".into() };
    let found = noted(r#"{"resourceMetrics":{}}"#, vec![mark], Default::default()).unwrap();
    assert!(found.points.is_empty());
}

/// Until its post is answered, as its body is.
#[test]
fn what_was_rounded_is_weighed() {
    let name = "n".repeat(100);
    let point = |value: &str| {
        sum(&format!(r#""asDouble":{value}"#)).replace("\"sum\"", &format!("\"name\":\"{name}\",\"sum\""))
    };
    let beside = |value: &str| {
        let body = request(&vec![point(value); 100]);
        let prepared = prepare(Encoding::Json, body.into(), &reading(&["s=us"])).unwrap();
        prepared.rounded.bytes()
    };
    assert_eq!(beside("1"), 0);
    assert!(beside("0.00000125") > 100 * name.len());
}

#[test]
fn rules_are_told_apart_and_one_series_is_one() {
    let one = sum(r#""asDouble":0.0000015"#);
    let finer = one.replace(r#""unit":"s""#, r#""unit":"ms""#);
    let found = rounded(request(&[one, finer]), &["s=us", "ms=us"]);
    let rules: Vec<&str> = found.points.iter().map(|one| &*one.of.rule).collect();
    assert_eq!(rules, ["s=1000000:us", "ms=1000:us"]);
    assert_eq!(found.points[0].of.series, found.points[1].of.series);
    assert_eq!(found.by_rule.len(), 2);
}

#[test]
fn what_is_long_is_cut_and_still_told_apart() {
    let long = |last: &str| {
        let value = format!("{}{last}", "é".repeat(1500));
        let all: Vec<String> = (0..5)
            .map(|one| format!(r#"{{"key":"key{one}","value":{{"stringValue":"{value}"}}}}"#))
            .collect();
        let point = format!(r#""asDouble":0.00000125,"attributes":[{}]"#, all.join(","));
        sum(&point)
    };
    let found = rounded(request(&[long("a"), long("b"), long("a")]), &["s=us"]);
    let series: Vec<u64> = found.points.iter().map(|one| one.of.series).collect();
    assert!(series[0] == series[2] && series[0] != series[1]);
    let attributes = &found.points[0].of.attributes;
    let value = format!("{}..", "é".repeat(100));
    assert_eq!(*attributes, format!("key0={value}, key1={value}, .."));
}

#[test]
fn values_of_attributes_are_shown() {
    for (value, shown) in [
        (r#"{"stringValue":"a\u0000b"}"#, "a\0b"),
        (r#"{"intValue":"-5"}"#, "-5"),
        (r#"{"boolValue":true}"#, "true"),
        (r#"{"arrayValue":{"values":[{"stringValue":"a"},{},{"intValue":5}]}}"#, "[a, , 5]"),
        (r#"{"arrayValue":{}}"#, "[]"),
        ("{}", ""),
    ] {
        let point = format!(r#""asDouble":0.00000125,"attributes":[{{"key":"k","value":{value}}}]"#);
        let found = rounded(request(&[sum(&point)]), &["s=us"]);
        assert_eq!(found.points[0].of.attributes, format!("k={shown}"));
    }
}
