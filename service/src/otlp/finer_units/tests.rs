//! Whole numbers of a finer unit, and what stays as it is.

use super::*;
use crate::otlp::decimal::{Decimal, Nearest};
use crate::otlp::tests::posted;
use crate::otlp::{prepare, Encoding, Prepared, Reading};

mod auto;
mod rounded;

fn reading(rules: &[&str]) -> Reading {
    Reading {
        finer_units: FinerUnits::new(rules.iter().map(|rule| rule.parse().unwrap())).unwrap(),
        ..Reading::default()
    }
}

fn prepared(metric: &str, rules: &[&str]) -> (serde_json::Value, Prepared) {
    let body = format!(r#"{{"resourceMetrics":[{{"scopeMetrics":[{{"metrics":[{metric}]}}]}}]}}"#);
    let prepared = prepare(Encoding::Json, body.into(), &reading(rules)).unwrap();
    let read: serde_json::Value = serde_json::from_slice(&prepared.body).unwrap();
    (read["resourceMetrics"][0]["scopeMetrics"][0]["metrics"][0].clone(), prepared)
}

fn histogram(point: &str) -> String {
    format!(
        r#"{{"name":"d","histogram":{{"dataPoints":[{{"startTimeUnixNano":"1","timeUnixNano":"2",{point}}}],"aggregationTemporality":1}},"unit":"s"}}"#
    )
}

fn sum(point: &str) -> String {
    format!(
        r#"{{"unit":"s","sum":{{"aggregationTemporality":"AGGREGATION_TEMPORALITY_DELTA","is_monotonic":true,"dataPoints":[{{"startTimeUnixNano":"1","timeUnixNano":"2",{point}}}]}}}}"#
    )
}

fn foreign(prepared: &Prepared) -> u64 {
    posted(&prepared.body).unwrap().foreign
}

#[test]
fn rules_are_read_or_refused() {
    for (text, whole) in [
        ("s=us", "s=1000000:us"),
        ("ms=us", "ms=1000:us"),
        ("By", "By=1:By"),
        ("1", "1=1:1"),
        ("=", "=1:"),
        ("KiBy=By", "KiBy=1024:By"),
        ("1=[ppm]", "1=1000000:[ppm]"),
        ("{a}/s=25:{b}/s", "{a}/s=25:{b}/s"),
    ] {
        assert_eq!(text.parse::<Rule>().unwrap().to_string(), whole);
    }
    for text in [
        "",
        "s=",
        "=us",
        "s=h",
        "us=s",
        "s=By",
        "x=y",
        "kBy=KiBy",
        "[ppm]=%",
        "s=0:us",
        "s=-1:us",
        "s=1.5:us",
        "s=:us",
        "s=10:",
        "s=1000000000000000001:x",
        "a b=us",
    ] {
        assert!(text.parse::<Rule>().is_err(), "{text}");
    }
    let twice = ["s=us", "s=ms"].map(|rule| rule.parse().unwrap());
    assert!(FinerUnits::new(twice).unwrap_err().contains("two rules for the unit `s`"));
}

#[test]
fn decimals_are_exact_and_halves_go_to_the_even() {
    let near = |text, factor| Decimal::times(text, factor).unwrap().nearest();
    for (text, factor, whole, by) in [
        ("5e-3", 1_000_000, 5000, 0.0),
        ("1.37", 100, 137, 0.0),
        ("5e-1", 1, 0, 0.5),
        ("1.5", 1, 2, 0.5),
        ("2.5", 1, 2, 0.5),
        ("-2.5", 1, -2, 0.5),
        ("-3.5", 1, -4, 0.5),
        ("2.75", 1, 3, 0.25),
        ("1e-300", 1000, 0, 1e-38),
        ("9.007199254740992e15", 1024, 9_223_372_036_854_775_808, 0.0),
        ("0", 7, 0, 0.0),
        ("-0", 7, 0, 0.0),
    ] {
        assert_eq!(near(text, factor), Nearest { whole, by }, "{text} times {factor}");
    }
    assert!(near("1.2345678901234567e-23", MAX_FACTOR).by > 1.2e-5);
    for text in ["1e300", "NaN", "Infinity", "", "x", "5 s"] {
        let product = Decimal::times(text, MAX_FACTOR);
        assert!(product.is_none() || text.is_empty(), "{text}");
    }
    // By a way of its own: in units of 10^-9.
    let mut draw = 88_172_645_463_325_252u64;
    for _ in 0..20_000 {
        draw ^= draw << 13;
        draw ^= draw >> 7;
        draw ^= draw << 17;
        let (digits, places, factor) = (draw % 1_000_000_007, draw % 10, 1 + draw % 5000);
        let number = digits as f64 / 10f64.powi(places as i32);
        let product = Decimal::times(&format!("{number:e}"), factor).unwrap();
        let scaled = i128::from(digits) * 10i128.pow(9 - places as u32) * i128::from(factor);
        let (below, rest) = (scaled / 1_000_000_000, scaled % 1_000_000_000);
        let is_up = rest > 500_000_000 || (rest == 500_000_000 && below % 2 == 1);
        let whole = below + i128::from(is_up);
        let by = (scaled - whole * 1_000_000_000).abs() as f64 / 1e9;
        assert_eq!(product.nearest(), Nearest { whole, by }, "{number} times {factor}");
        assert_eq!(product.whole(), (rest == 0).then_some(below));
    }
}

#[test]
fn a_histogram_of_seconds_is_one_of_microseconds() {
    let point = r#""min":0.1,"bucketCounts":[1,"2",0],"explicitBounds":[0.005,1e1],"count":3,"sum":1.3700005,"exemplars":[{"asDouble":0.1}]"#;
    let (metric, prepared) = prepared(&histogram(point), &["s=us"]);
    assert_eq!(metric["unit"], "us");
    let point = &metric["histogram"]["dataPoints"][0];
    assert_eq!(point["explicitBounds"], serde_json::json!([5000, 10_000_000]));
    assert_eq!((point["sum"].clone(), point["count"].clone()), (1_370_000.into(), "3".into()));
    let half = Rounding { values: 1, together: 0.5 };
    assert_eq!(prepared.rounded.by_rule, [("s=1000000:us".to_string(), half)].into());
    assert_eq!((foreign(&prepared), prepared.rounded.unfit), (0, None));
}

#[test]
fn sums_of_doubles_and_of_whole_numbers_are_taken() {
    for (point, whole, values) in [
        (r#""asDouble":1.25"#, "1250", 0),
        (r#""as_double":"2.0005e0""#, "2000", 1),
        (r#""asDouble":"0.0015""#, "2", 1),
        (r#""asDouble":-0.0"#, "0", 0),
        (r#""asDouble":597223208286108.25"#, "597223208286108200", 0), // .3 is as short and as near
        (r#""asInt":"7""#, "7000", 0),
        (r#""asInt":7.0,"asDouble":null"#, "7000", 0),
    ] {
        let (metric, prepared) = prepared(&sum(point), &["By", "s=ms"]);
        let found = &metric["sum"]["dataPoints"][0];
        assert_eq!((found["asInt"].as_str(), found.get("asDouble")), (Some(whole), None), "{point}");
        let counted: u64 = prepared.rounded.by_rule.values().map(|one| one.values).sum();
        assert_eq!((foreign(&prepared), counted), (0, values), "{point}");
    }
}

#[test]
fn what_has_no_unit_is_named_without_one() {
    let metric = sum(r#""asDouble":"NaN""#).replace(r#""unit":"s""#, r#""unit":"""#);
    let (_, prepared) = prepared(&metric, &["="]);
    let unfit = prepared.rounded.unfit.clone().unwrap_or_default();
    assert_eq!(unfit, "the value NaN of `` can't be had in whole numbers");
}

#[test]
fn what_can_not_be_had_stays_foreign_and_is_named() {
    let value = |point: &str| sum(point);
    for (metric, named) in [
        (
            histogram(r#""bucketCounts":[1,0],"count":1,"explicitBounds":[2.5e-7]"#),
            "the bound 0.00000025 s of `d` can't be had in whole us",
        ),
        (
            histogram(r#""bucketCounts":[1,0],"count":1,"explicitBounds":[9007199254740992]"#),
            "the bound 9007199254740992 s",
        ),
        (histogram(r#""bucketCounts":[1,0],"count":1,"explicitBounds":["Infinity"]"#), "the bound inf s"),
        (histogram(r#""count":1,"sum":1e12"#), "the sum 1000000000000 s"),
        (histogram(r#""count":1,"sum":-1e-9"#), "the sum -1e-9 s"),
        (histogram(r#""count":1,"sum":"NaN""#), "the sum NaN s"),
        (value(r#""asDouble":1e13"#), "the value 10000000000000 s of ``"),
        (value(r#""asDouble":1e300"#), "the value 1e300 s"),
        (value(r#""asDouble":"-Infinity""#), "the value -inf s"),
        (value(r#""asDouble":-1e-9"#), "the value -1e-9 s"),
        (value(r#""asInt":"9223372036854775807""#), "the value 9223372036854775807 s"),
    ] {
        let (_, prepared) = prepared(&metric, &["s=us"]);
        let unfit = prepared.rounded.unfit.clone().unwrap_or_default();
        assert!(unfit.contains(named), "{metric}: {unfit}");
        assert_eq!((foreign(&prepared), prepared.rounded.by_rule.len()), (1, 0), "{metric}");
    }
    // What is foreign for another reason has nothing to name.
    let cumulative = sum(r#""asDouble":0.5"#).replace("DELTA", "CUMULATIVE");
    for metric in [cumulative, sum(r#""asDouble":0.5,"asInt":1"#), sum(r#""asInt":0.5"#)] {
        let (_, prepared) = prepared(&metric, &["s=us"]);
        assert_eq!((foreign(&prepared), prepared.rounded), (1, Rounded::default()), "{metric}");
    }
}

#[test]
fn metrics_without_a_unit_are_taken_where_they_have_a_rule() {
    for unit in ["", r#""unit":"","#, r#""unit":null,"#] {
        let metric = sum(r#""asDouble":7"#).replace(r#""unit":"s","#, unit);
        let (found, prepared) = prepared(&metric, &["="]);
        assert_eq!(found["sum"]["dataPoints"][0]["asInt"], "7", "{metric}");
        assert_eq!(foreign(&prepared), 0);
    }
}

#[test]
fn other_units_stay_as_they_are() {
    let metric = histogram(r#""count":1,"sum":5"#);
    let body = format!(r#"{{"resourceMetrics":[{{"scopeMetrics":[{{"metrics":[{metric}]}}]}}]}}"#);
    for rules in [&[][..], &["ms=us"][..]] {
        let prepared = prepare(Encoding::Json, body.clone().into(), &reading(rules)).unwrap();
        assert_eq!(prepared.body, body.as_bytes());
    }
    let (metric, _) = prepared(&metric.replace(r#""unit":"s""#, r#""unit":5"#), &["s=us"]);
    assert_eq!(metric["unit"], 5);
}
