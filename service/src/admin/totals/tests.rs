//! Tests of names, labels and pages. If `promtool` is there, it checks a page.

use super::labels::identity;
use super::names::{label, metric};
use super::page::{write, Times};
use super::Totals;
use crate::sink::sql::exact::Exact;
use crate::sink::sql::totals::{Histogram, Kind, SeriesTotal};
use serde_json::{json, Map, Value};
use std::time::Duration;
use tokio::net::TcpListener;
use tokio::time::timeout;

pub fn object(value: Value) -> Map<String, Value> {
    value.as_object().unwrap().clone()
}

pub fn series(name: &str, unit: &str, kind: Kind, total: i128, attributes: Value) -> SeriesTotal {
    SeriesTotal {
        name: name.into(),
        unit: unit.into(),
        kind,
        attributes: object(attributes),
        resource: Map::new(),
        scope_name: String::new(),
        scope_version: String::new(),
        scope_attributes: Map::new(),
        sender: None,
        digest: [0; 32],
        points: 1,
        start_ns: 1,
        end_ns: 2,
        total: Exact(total),
        histogram: None,
    }
}

fn histogram(name: &str, bounds: &[i64], buckets: &[i128], points_without_sum: u64) -> SeriesTotal {
    let mut made = series(name, "s", Kind::Histogram, 77, json!({}));
    made.histogram = Some(Histogram {
        count: Exact(buckets.iter().sum()),
        points_without_sum,
        bounds: bounds.to_vec(),
        buckets: buckets.iter().copied().map(Exact).collect(),
    });
    made
}

fn page(totals: &[SeriesTotal]) -> String {
    let mut page = Vec::new();
    write(totals, Times::None, &mut page).unwrap();
    String::from_utf8(page).unwrap()
}

/// All lines except the heads.
fn lines(totals: &[SeriesTotal]) -> Vec<String> {
    page(totals).lines().filter(|line| !line.starts_with('#')).map(String::from).collect()
}

/// The same without the labels that identify the series.
fn samples(totals: &[SeriesTotal]) -> Vec<String> {
    let both = |line: String| without(without(line, "otel_metric_name"), "otel_series");
    lines(totals).into_iter().map(both).collect()
}

fn without(line: String, label: &str) -> String {
    let Some((before, rest)) = line.split_once(&format!("{label}=\"")) else {
        return line;
    };
    let (_, behind) = rest.split_once('"').unwrap();
    let joined = match (before.strip_suffix(','), behind.strip_prefix(',')) {
        (Some(before), None) => [before, behind].concat(),
        (_, Some(behind)) => [before, behind].concat(),
        (None, None) => [before, behind].concat(),
    };
    joined.replacen("{}", "", 1)
}

#[test]
fn names_have_units_and_no_word_twice() {
    for (name, unit, kind, expected) in [
        ("orders", "", Kind::Monotonic, "orders_total"),
        ("orders", "{order}", Kind::Monotonic, "orders_total"),
        ("orders.total", "1", Kind::Monotonic, "orders_total"),
        ("total.orders", "1", Kind::Monotonic, "orders_total"),
        ("http.server-sent", "By", Kind::Monotonic, "http_server_sent_bytes_total"),
        ("sent_bytes_total", "By", Kind::Monotonic, "sent_bytes_total"),
        ("wait", "s", Kind::Histogram, "wait_seconds"),
        ("wait.seconds", "s", Kind::Histogram, "wait_seconds"),
        ("wait", "ms", Kind::Histogram, "wait_milliseconds"),
        ("speed", "m/s", Kind::Sum, "speed_meters_per_second"),
        ("speed", "{packet}/s", Kind::Sum, "speed_per_second"),
        ("use", "1", Kind::Sum, "use_ratio"),
        ("use.ratio", "1", Kind::Sum, "use_ratio"),
        ("use", "By{used}", Kind::Sum, "use_bytes"),
        ("area", "m^2", Kind::Sum, "area_m_2"),
        ("2xx", "", Kind::Sum, "_2xx"),
        ("a::b//c", "", Kind::Sum, "a_b_c"),
        ("ä", "", Kind::Sum, "_"),
    ] {
        assert_eq!(metric(name, unit, kind), expected, "{name} {unit}");
    }
}

#[test]
fn names_of_labels() {
    for (key, expected) in [
        ("http.route", "http_route"),
        ("a--b", "a_b"),
        ("__name__", "_name_"),
        ("2xx", "key_2xx"),
        ("", "_"),
        ("ö", "_"),
    ] {
        assert_eq!(label(key), expected, "{key}");
    }
}

#[test]
fn numbers_are_written_in_full_and_values_escaped() {
    let large = i128::from(u64::MAX) * 3;
    let attributes = json!({"a": "\"\\\n\u{0}ä", "code": 200, "on": true, "list": [1, "x"], "none": null});
    assert_eq!(
        samples(&[
            series("a", "", Kind::Monotonic, large, attributes),
            series("b", "", Kind::Sum, -9_007_199_254_740_993, json!({})),
        ]),
        [
            "a_total{a=\"\\\"\\\\\\n\u{fffd}ä\",code=\"200\",list=\"[1,\\\"x\\\"]\",on=\"true\"} 55340232221128654845",
            "b -9007199254740993",
        ]
    );
}

#[test]
fn buckets_add_up() {
    assert_eq!(
        samples(&[histogram("wait", &[-5, 10], &[1, 2, 4], 0)]),
        [
            "wait_seconds_bucket{le=\"-5\"} 1",
            "wait_seconds_bucket{le=\"10\"} 3",
            "wait_seconds_bucket{le=\"+Inf\"} 7",
            "wait_seconds_sum 77",
            "wait_seconds_count 7",
        ]
    );
    let partly = samples(&[histogram("wait", &[], &[4], 1)]);
    assert_eq!(partly, ["wait_seconds_bucket{le=\"+Inf\"} 4", "wait_seconds_count 4"]);
}

#[test]
fn a_resource_is_a_target() {
    let mut one = series("a", "", Kind::Monotonic, 5, json!({"job": "mine", "exported.job": "x"}));
    one.resource =
        object(json!({"service.name": "shop", "service.namespace": "eu", "service.instance.id": 7,
        "host.name": "h", "host_name": "i"}));
    one.scope_name = "lib".into();
    one.scope_version = "1.2".into();
    one.scope_attributes = object(json!({"name": "n", "x": "y"}));
    assert_eq!(
        samples(&[one]),
        [
            "a_total{exported_job=\"x;mine\",exported_otel_scope_name=\"n\",instance=\"7\",job=\"eu/shop\",\
             otel_scope_name=\"lib\",otel_scope_version=\"1.2\",otel_scope_x=\"y\"} 5",
            "target_info{host_name=\"h;i\",instance=\"7\",job=\"eu/shop\"} 1",
        ]
    );
}

#[test]
fn what_comes_to_one_name_is_told_apart() {
    let mixed = lines(&[
        series("a.b", "", Kind::Monotonic, 1, json!({})),
        series("a_b", "", Kind::Monotonic, 2, json!({})),
    ]);
    let mixed: Vec<String> = mixed.into_iter().map(|line| without(line, "otel_series")).collect();
    assert_eq!(mixed, ["a_b_total{otel_metric_name=\"a.b\"} 1", "a_b_total{otel_metric_name=\"a_b\"} 2"]);
    let kinds = samples(&[
        series("a.total", "", Kind::Sum, 1, json!({})),
        series("a", "", Kind::Monotonic, 2, json!({})),
        series("w_seconds_count", "", Kind::Sum, 3, json!({})),
        histogram("w", &[], &[4], 0),
        series("target_info", "", Kind::Sum, 5, json!({})),
    ]);
    for line in [
        "a_total 2",
        "a_total_gauge 1",
        "w_seconds_count 4",
        "w_seconds_count_gauge 3",
        "target_info_gauge 5",
    ] {
        assert!(kinds.iter().any(|found| found == line), "{line} in {kinds:?}");
    }
}

#[test]
fn series_of_the_same_labels_are_told_apart_and_keep_their_names() {
    let mut other = series("a", "", Kind::Monotonic, 2, json!({"code": 5}));
    other.resource = object(json!({"host": "h"}));
    let all = [
        series("a", "", Kind::Monotonic, 1, json!({"code": "5"})),
        series("a", "{x}", Kind::Monotonic, 3, json!({"code": "5"})),
        other,
        histogram("w", &[1], &[1, 1], 0),
        histogram("w", &[2], &[1, 1], 0),
    ];
    let mut found = lines(&all);
    let names: std::collections::HashSet<&str> =
        found.iter().filter_map(|line| Some(line.rsplit_once(' ')?.0)).collect();
    assert_eq!(names.len(), found.len(), "{found:?}");
    assert!(found.iter().filter(|line| line.contains("otel_series=")).count() == 3 + 8);
    let turned: Vec<SeriesTotal> = all.iter().rev().cloned().collect();
    let mut again = lines(&turned);
    again.sort();
    found.sort();
    assert_eq!(again, found);
}

/// Otherwise a series would become another one to Prometheus when others join it, and its history would end.
#[test]
fn a_series_has_the_same_labels_whatever_else_is_there() {
    let one = || series("a.b", "", Kind::Monotonic, 1, json!({"code": "5"}));
    let mut others = vec![
        one(),
        series("a.b", "{x}", Kind::Monotonic, 2, json!({"code": "5"})),
        series("a_b", "", Kind::Monotonic, 3, json!({"code": "5"})),
    ];
    let alone = lines(&others[..1]);
    let beside = lines(&others);
    assert!(beside.contains(&alone[0]), "{alone:?} in {beside:?}");
    others.swap(0, 2);
    assert!(lines(&others).contains(&alone[0]));
}

/// Both resources have the same CRC32, forwards and backwards. If a sender could make two series with one identity,
/// Prometheus would refuse the whole page.
#[test]
fn an_identity_is_a_digest_that_nobody_can_make_meet() {
    let of_resource = |n: &str| {
        let resource = object(json!({ "n": n }));
        SeriesTotal { resource, ..series("a", "", Kind::Monotonic, 1, json!({})) }
    };
    let twins = [
        "0000000000000000000000000000000000000000000000000000000000000000000000",
        "1110111001000011001101000111111111111111000101100110000100111011100000",
    ]
    .map(of_resource);
    let found = lines(&twins);
    assert_ne!(found[0], found[1]);
    // Computed by Python's hashlib over `["a","","monotonic",{"code":5},{},"","",{},null]` and so on.
    for (code, digest) in [
        (json!(5), "0ffa9b65a1bc6f4228d7ec3634e2857b"),
        (json!("5"), "19b69028324f694664dba5f922b87894"),
        (json!([5]), "666d0a11620ef1cbf3c4b4645436ad62"),
    ] {
        assert_eq!(identity(&series("a", "", Kind::Monotonic, 1, json!({ "code": code }))), digest);
    }
}

#[test]
fn promtool_finds_nothing() {
    let mut one = series("http.requests", "{request}", Kind::Monotonic, 5, json!({"http.route": "/\"\\\n"}));
    one.resource = object(json!({"service.name": "shop", "host.name": "h"}));
    one.scope_name = "lib".into();
    let page = page(&[
        one,
        series("queue", "{job}", Kind::Sum, -5, json!({})),
        series("sent", "By", Kind::Monotonic, i128::from(u64::MAX) + 1, json!({"b": 1})),
        series("load", "1", Kind::Sum, 5, json!({})),
        histogram("wait", &[-5, 10], &[1, 2, 4], 0),
        histogram("wait", &[-5, 11], &[1, 2, 4], 1),
    ]);
    use std::io::Write;
    use std::process::{Command, Stdio};
    let started = Command::new("promtool")
        .args(["check", "metrics"])
        .stdin(Stdio::piped())
        .stdout(Stdio::piped())
        .stderr(Stdio::piped())
        .spawn();
    let Ok(mut promtool) = started else {
        eprintln!("skipped: there is no promtool");
        return;
    };
    promtool.stdin.take().unwrap().write_all(page.as_bytes()).unwrap();
    let output = promtool.wait_with_output().unwrap();
    let said = String::from_utf8_lossy(&output.stdout) + String::from_utf8_lossy(&output.stderr);
    assert!(output.status.success() && said.is_empty(), "{said}\n{page}");
}

/// All lines of a histogram have the time. A line that is of no series has none.
#[test]
fn a_sample_has_the_time_of_its_series_last_interval() {
    let mut one = series("a", "", Kind::Monotonic, 7, json!({}));
    one.end_ns = 1_700_000_000_123_456_789;
    one.resource = object(json!({ "service.name": "shop", "host": "h" }));
    let mut other = histogram("wait", &[5], &[1, 2], 0);
    other.end_ns = 1_700_000_010_000_000_000;
    let mut page = Vec::new();
    write(&[one, other], Times::OfIntervals, &mut page).unwrap();
    let page = String::from_utf8(page).unwrap();
    let ends = |name: &str| -> Vec<&str> {
        let lines = page.lines().filter(|line| line.starts_with(name));
        lines.map(|line| line.rsplit("} ").next().unwrap()).collect()
    };
    assert_eq!(ends("a_total{"), ["7 1700000000123"]);
    assert_eq!(ends("wait_seconds_bucket{"), ["1 1700000010000", "3 1700000010000"]);
    assert_eq!(ends("wait_seconds_sum"), ["77 1700000010000"]);
    assert_eq!(ends("wait_seconds_count"), ["3 1700000010000"]);
    assert_eq!(ends("target_info{"), ["1"]);
}

/// Otherwise readers who ask and leave while the server is silent would take one blocking thread after another.
#[tokio::test]
async fn one_reads_the_sink_at_a_time_also_once_who_asked_has_gone() {
    let listener = TcpListener::bind("127.0.0.1:0").await.unwrap();
    let address = format!("postgres://u@{}/d", listener.local_addr().unwrap());
    let totals = Totals::of(&address.parse().unwrap(), Times::None).unwrap();
    let short = Duration::from_millis(300);
    timeout(short, totals.booked()).await.unwrap_err();
    let accepted = |time| timeout(time, listener.accept());
    let silent = accepted(Duration::from_secs(20)).await.unwrap().unwrap();
    timeout(short, totals.hours([0; 32], 0)).await.unwrap_err();
    timeout(short, totals.read(|all| Ok(all.len()))).await.unwrap_err();
    timeout(short, totals.booked()).await.unwrap_err();
    assert!(accepted(short).await.is_err(), "another reads it too");
    drop(silent);
}
