//! Measures how many series a second the sinks take. It is run by hand, as the reason of its `ignore` says.

use crate::server::{own_processor_time, Server};
use crate::{open, taken};
use std::ops::Range;
use std::time::Instant;
use totxegun::sink::Sink;

/// The series of each part, and how often they come again.
const SERIES: u64 = 40_000;
const TURNS: u64 = 2;

/// The length of an interval.
const SPAN: u64 = 60_000_000_000;
const FIRST_START: u64 = 1_700_000_000_000_000_000;

#[derive(Clone, Copy)]
enum Kind {
    Sum,
    /// With 11 buckets.
    Histogram,
}

impl Kind {
    fn name(self) -> &'static str {
        match self {
            Kind::Sum => "sums",
            Kind::Histogram => "histograms",
        }
    }

    /// A request with a point for each of these series, all of the same interval.
    fn request(self, series: Range<u64>, turn: u64) -> String {
        let start = FIRST_START + turn * SPAN;
        let time = format!(r#""startTimeUnixNano":"{start}","timeUnixNano":"{}""#, start + SPAN);
        let points: Vec<String> = series.map(|one| self.point(one, &time)).collect();
        let points = points.join(",");
        let resource = list(&[
            ("host.name", "node-17"),
            ("service.instance.id", "shop-7d9f5c-x2x9q"),
            ("service.name", "shop"),
        ]);
        let metric = match self {
            Kind::Sum => format!(
                r#"{{"name":"http.server.requests","sum":{{"aggregationTemporality":1,"dataPoints":[{points}],"isMonotonic":true}},"unit":"{{request}}"}}"#
            ),
            Kind::Histogram => format!(
                r#"{{"histogram":{{"aggregationTemporality":1,"dataPoints":[{points}]}},"name":"http.server.duration","unit":"ms"}}"#
            ),
        };
        format!(
            r#"{{"resourceMetrics":[{{"resource":{{"attributes":{resource}}},"scopeMetrics":[{{"metrics":[{metric}],"scope":{{"attributes":[],"name":"io.opentelemetry.http","version":"2.9.0"}}}}]}}]}}"#
        )
    }

    fn point(self, series: u64, time: &str) -> String {
        let route = format!("/shop/{series}/items");
        let attributes = list(&[
            ("http.request.method", "GET"),
            ("http.response.status_code", "200"),
            ("http.route", &route),
        ]);
        match self {
            Kind::Sum => format!(r#"{{"asInt":"{series}","attributes":{attributes},{time}}}"#),
            Kind::Histogram => {
                let buckets: Vec<String> = (0..11).map(|place| format!("\"{}\"", series + place)).collect();
                let (buckets, count, sum) = (buckets.join(","), 11 * series + 55, 100 * series);
                format!(
                    r#"{{"attributes":{attributes},"bucketCounts":[{buckets}],"count":"{count}","explicitBounds":[5,10,25,50,75,100,250,500,750,1000],"sum":"{sum}",{time}}}"#
                )
            }
        }
    }
}

fn list(pairs: &[(&str, &str)]) -> String {
    let pair =
        |(key, value): &(&str, &str)| format!(r#"{{"key":"{key}","value":{{"stringValue":"{value}"}}}}"#);
    format!("[{}]", pairs.iter().map(pair).collect::<Vec<String>>().join(","))
}

/// First a PostgreSQL server of its own, then a SQLite file, on one file system.
#[tokio::test(flavor = "multi_thread")]
#[ignore = "it measures: tools/cargo test --release --test postgres -- --ignored --nocapture"]
async fn series_a_second() {
    let Some(server) = Server::start() else { return };
    println!("load average at the start: {}", load());
    let there = || server.processor_time();
    measure("PostgreSQL", &*open(&server.by_socket("postgres")), there).await;
    let folder = tempfile::tempdir().unwrap();
    let file = folder.path().join("metrics.db");
    measure("SQLite", &*open(&format!("sqlite:{}", file.display())), || 0.0).await;
    println!("load average at the end: {}", load());
}

fn load() -> String {
    std::fs::read_to_string("/proc/loadavg").unwrap().trim().into()
}

/// Measures the time, and the processor time of this process and of the server, which can be compared even on a machine
/// that does other work.
async fn measure(name: &str, sink: &dyn Sink, there: impl Fn() -> f64) {
    let mut number = 0;
    for (size, kind) in
        [1000, 10_000].into_iter().flat_map(|size| [(size, Kind::Sum), (size, Kind::Histogram)])
    {
        // The two sizes have no series in common.
        let first = size * SERIES;
        for (part, turns) in [("new", 0..1), ("known", 1..1 + TURNS)] {
            let bodies: Vec<String> = turns
                .flat_map(|turn| (0..SERIES / size).map(move |block| (turn, first + block * size)))
                .map(|(turn, first)| kind.request(first..first + size, turn))
                .collect();
            let series = (bodies.len() as u64 * size) as f64;
            let (began, own, others) = (Instant::now(), own_processor_time(), there());
            for body in bodies {
                number += 1;
                taken(sink, number, body).await;
            }
            let (took, own, others) =
                (began.elapsed().as_secs_f64(), own_processor_time() - own, there() - others);
            println!(
                "{name}, {size} {} a request, {part}: {:.0} series a second; {:.1} us of processor time a series, {:.1} of them the server's",
                kind.name(),
                series / took,
                (own + others) * 1e6 / series,
                others * 1e6 / series,
            );
        }
    }
}
