//! Metrics of known units without a rule.

use super::*;
use crate::otlp::series::SeriesKey;
use crate::otlp::taken_of_test;

fn auto(choices: &[&str]) -> Reading {
    Reading {
        finer_units: FinerUnits::of(choices.iter().map(|choice| choice.parse().unwrap())).unwrap(),
        ..Reading::default()
    }
}

fn request(metrics: &[String]) -> String {
    format!(r#"{{"resourceMetrics":[{{"scopeMetrics":[{{"metrics":[{}]}}]}}]}}"#, metrics.join(","))
}

fn sum(name: &str, unit: &str, points: &[&str]) -> String {
    let point = |value: &&str| format!(r#"{{"startTimeUnixNano":"1","timeUnixNano":"2",{value}}}"#);
    let points: Vec<String> = points.iter().map(point).collect();
    format!(
        r#"{{"name":"{name}","unit":"{unit}","sum":{{"aggregationTemporality":1,"dataPoints":[{}]}}}}"#,
        points.join(",")
    )
}

fn histogram(name: &str, unit: &str, says: &str) -> String {
    format!(
        r#"{{"name":"{name}","unit":"{unit}","histogram":{{"aggregationTemporality":1,"dataPoints":[{{"startTimeUnixNano":"1","timeUnixNano":"2",{says}}}]}}}}"#
    )
}

/// Of the first metric its unit and what its points have; how many points are foreign, and the first that is named.
fn taken(reading: &Reading, metrics: &[String]) -> (String, Vec<String>, u64, Option<String>) {
    let body = request(metrics);
    let prepared = taken_of_test(Encoding::Json, body.into(), reading).unwrap();
    let read: serde_json::Value = serde_json::from_slice(&prepared.body).unwrap();
    let metric = &read["resourceMetrics"][0]["scopeMetrics"][0]["metrics"][0];
    let points = metric["sum"]["dataPoints"].as_array().into_iter().flatten();
    let plain = |value: &serde_json::Value| value.to_string().replace('"', "");
    let values = points.map(|point| point.get("asInt").map_or("foreign".into(), plain));
    (
        metric["unit"].as_str().unwrap().to_string(),
        values.collect(),
        foreign(&prepared),
        prepared.rounded.unfit.clone(),
    )
}

fn values(values: &[&str]) -> Vec<String> {
    values.iter().map(|value| value.to_string()).collect()
}

const DOUBLE: &str = r#""asDouble":0.25"#;
const WHOLE: &str = r#""asInt":"7""#;

#[test]
fn the_first_points_of_a_sum_decide() {
    let reading = auto(&[]);
    let doubles = |unit, whole, points: &[&str]| {
        let found = taken(&reading, &[sum(&format!("d {unit}"), unit, points)]);
        assert_eq!(found, (whole, found.1.clone(), 0, None));
        found.1
    };
    for (unit, finest, two) in [
        ("s", "us", ["250000", "7000000"]),
        ("us", "us", ["0", "7"]),
        ("ns", "ns", ["0", "7"]),
        ("KiBy", "By", ["256", "7168"]),
        ("By", "By", ["0", "7"]),
        ("%", "[ppm]", ["2500", "70000"]),
        ("1", "[ppm]", ["250000", "7000000"]),
    ] {
        // Any double of the first request, also behind a whole number.
        assert_eq!(doubles(unit, finest.into(), &[WHOLE, DOUBLE])[..], [two[1], two[0]]);
        assert_eq!(doubles(unit, finest.into(), &[WHOLE])[..], [two[1]]);
    }
    assert_eq!(taken(&reading, &[sum("w", "s", &[WHOLE])]), ("s".into(), values(&["7"]), 0, None));
    let named = "the value 0.25 s of `w` is a double, and it was first taken in whole s";
    assert_eq!(
        taken(&reading, &[sum("w", "s", &[WHOLE, DOUBLE])]),
        ("s".into(), values(&["7", "foreign"]), 1, Some(named.into()))
    );
    // One unit a name: also where it comes in another.
    assert_eq!(taken(&reading, &[sum("d s", "ms", &[WHOLE])]), ("us".into(), values(&["7000"]), 0, None));
    for unit in ["", "{request}", "EUR"] {
        assert_eq!(
            taken(&reading, &[sum("x", unit, &[DOUBLE])]),
            (unit.into(), values(&["foreign"]), 1, None)
        );
    }
}

#[test]
fn histograms_of_times_are_taken_in_the_finer_unit_since_some_are_whole_by_chance() {
    let reading = auto(&[]);
    let of = |says: &str| taken(&reading, &[histogram("h", "s", says)]);
    let whole = of(r#""count":1,"sum":3,"bucketCounts":[1,0],"explicitBounds":[5]"#);
    assert_eq!((&*whole.0, whole.2), ("us", 0));
    let fraction = of(r#""count":1,"sum":0.3,"bucketCounts":[1,0],"explicitBounds":[0.005]"#);
    assert_eq!((&*fraction.0, fraction.2), ("us", 0));
    let too_fine = of(r#""count":1,"sum":0.3,"bucketCounts":[1,0],"explicitBounds":[1e-10]"#);
    assert_eq!(too_fine.2, 1);
    assert_eq!(too_fine.3.as_deref(), Some("the bound 1e-10 s of `h` can't be had in whole us"));
}

#[test]
fn rules_win_and_off_is_off() {
    let taken_by = |choices: &[&str], unit| taken(&auto(choices), &[sum("a", unit, &[DOUBLE])]).0;
    assert_eq!(
        [taken_by(&["s=ns"], "s"), taken_by(&["s=ns"], "ms"), taken_by(&["auto", "s=ns"], "ms")],
        ["ns", "us", "us"]
    );
    assert_eq!([taken_by(&["off"], "s"), taken_by(&["off", "s=us"], "s")], ["s", "us"]);
    assert!(FinerUnits::of([Choice::Auto, Choice::Off]).unwrap_err().contains("both auto and off"));
    // A rule's unit is one that the metric is in from then on.
    let reading = auto(&["s=ns"]);
    assert_eq!(taken(&reading, &[sum("a", "s", &[DOUBLE])]).0, "ns");
    assert_eq!(taken(&reading, &[sum("a", "ms", &[DOUBLE])]).0, "ns");
    // But one that is in a finer unit already stays there.
    let reading = auto(&["ms"]);
    let units = ["s", "ms", "s", "min"].map(|unit| taken(&reading, &[sum("a", unit, &[DOUBLE])]).0);
    assert_eq!(units, ["us", "ms", "us", "us"]);
}

#[test]
fn other_histograms_are_taken_so_where_they_have_a_fraction() {
    let reading = auto(&[]);
    let of = |name: &str, says: &str| {
        let found = taken(&reading, &[histogram(name, "1", says)]);
        (found.0, found.2)
    };
    let whole = r#""count":1,"sum":3,"bucketCounts":[1,0],"explicitBounds":[5]"#;
    let fraction = r#""count":1,"sum":0.25,"bucketCounts":[1,0],"explicitBounds":[5]"#;
    let finer = r#""count":1,"sum":3,"bucketCounts":[1,0],"explicitBounds":[0.5]"#;
    assert_eq!([of("a", whole), of("a", fraction)], [("1".into(), 0), ("1".into(), 1)]);
    for says in [fraction, finer] {
        let name = format!("b {says}").replace('"', "");
        assert_eq!([of(&name, says), of(&name, whole)], [("[ppm]".into(), 0), ("[ppm]".into(), 0)]);
    }
}

/// What is not changed goes on as it came once it is decided, with no look at all of it.
#[test]
fn what_stays_as_it_is_is_not_written_anew() {
    let reading = auto(&[]);
    for metrics in [
        vec![sum("a", "By", &[WHOLE]), sum("b", "", &[DOUBLE])],
        vec![histogram("c", "By", r#""count":1,"sum":3"#)],
        vec![sum("d", "1", &[WHOLE])],
        vec![sum("d", "1", &[WHOLE]), sum("a", "By", &[WHOLE])],
    ] {
        let body = request(&metrics);
        let post = || taken_of_test(Encoding::Json, body.clone().into(), &reading).unwrap();
        assert_eq!(post().rounded.unfit, None);
        assert_eq!(post().body, body.as_bytes());
    }
    for (metric, may_go) in [
        (sum("a", "By", &[WHOLE]), true),
        (sum("a", "By", &[WHOLE, DOUBLE]), false),
        (sum("d", "1", &[WHOLE]), true),
        (sum("d", "1", &[DOUBLE]), false),
        (sum("new", "1", &[WHOLE]), false),
        (sum("new", "{request}", &[DOUBLE]), true),
    ] {
        let body = request(&[metric]);
        let found = crate::otlp::json_fast_path::as_it_came(body.as_bytes(), &reading);
        assert_eq!(found.is_some(), may_go, "{body}");
    }
}

/// As a start does it.
#[test]
fn what_a_folder_knows_decides() {
    let before = auto(&[]);
    let request = request(&[sum("a", "s", &[DOUBLE]), sum("b", "s", &[WHOLE])]);
    let posted = prepare(Encoding::Json, request.into(), &before).unwrap();
    let after = auto(&[]);
    assert!(after.finer_units.know_request(&posted.body));
    after.finer_units.know_series(r#"[[],"","",[],"c","ms","monotonic",[]]"#);
    let unit = |name, unit, point| taken(&after, &[sum(name, unit, &[point])]).0;
    assert_eq!(
        [unit("a", "s", WHOLE), unit("b", "s", DOUBLE), unit("c", "s", DOUBLE), unit("d", "s", WHOLE)],
        ["us", "s", "ms", "s"]
    );
}

/// Also of those of which most is as in the key before.
#[test]
fn what_each_key_says_is_known() {
    let reading = auto(&[]);
    let keys = [("a", "ms"), ("a", "ms"), ("ab", "ms"), ("a", "us"), ("b", "ms"), ("c", "ms"), ("c", "s")];
    let key = |(name, unit)| SeriesKey(format!(r#"[[],"","",[],"{name}","{unit}","sum",[["k",1]]]"#).into());
    reading.finer_units.know_keys(&keys.map(key));
    let units = ["a", "ab", "b", "c", "d"].map(|name| taken(&reading, &[sum(name, "s", &[DOUBLE])]).0);
    assert_eq!(units, ["ms", "ms", "ms", "s", "us"]);
    assert_eq!(taken(&reading, &[sum("a", "us", &[WHOLE])]).0, "us");
}

/// A point that is taken says what one before it that is foreign did not.
#[test]
fn what_a_folder_has_of_a_foreign_point_decides_nothing() {
    let reading = auto(&[]);
    let of = |says: &str| bytes::Bytes::from(request(&[sum("a", "ms", &[says])]));
    let foreign = of(r#""asInt":1.5"#);
    reading.finer_units.know_requests(&[foreign.clone(), foreign.clone()]);
    let undecided = auto(&[]);
    let unit = |reading: &Reading| taken(reading, &[sum("a", "s", &[DOUBLE])]).0;
    assert_eq!(unit(&reading), unit(&undecided));
    let reading = auto(&[]);
    reading.finer_units.know_requests(&[foreign, of(WHOLE), of(WHOLE)]);
    assert_eq!(unit(&reading), "ms");
}

/// Else a later unit of its name was taken otherwise than behind a start, or than of protobuf.
#[test]
fn what_is_not_changed_decides_too() {
    let reading = auto(&[]);
    assert_eq!(taken(&reading, &[sum("a", "By", &[WHOLE])]), ("By".into(), values(&["7"]), 0, None));
    assert_eq!(taken(&reading, &[sum("a", "KiBy", &[WHOLE])]), ("By".into(), values(&["7168"]), 0, None));
}

/// Else a name was decided by what is not in the book's form yet: for all senders, and for good.
#[test]
fn what_decides_is_what_a_body_means_however_it_is_written() {
    let reading = auto(&[]);
    let whole = r#""count":1,"sum":3.0,"bucketCounts":[1,0],"explicitBounds":[5.0]"#;
    let found = taken(&reading, &[histogram("h", "1", whole)]);
    assert_eq!((&*found.0, found.2), ("1", 0), "as in protobuf, where it is no fraction");
    let found = taken(&reading, &[sum("d", "s", &[r#""as_double":0.25"#])]);
    assert_eq!(found, ("us".into(), values(&["250000"]), 0, None));
}
