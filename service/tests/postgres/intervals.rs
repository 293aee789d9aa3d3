//! Tests that intervals are read as they were sent, and take few bytes.

use crate::points::{body, Point, Value};
use crate::server::{histogram, sum, Server};
use crate::{open, taken};

const BUCKETS: [[u64; 3]; 5] = [
    [0, 0, 0],
    [1, 127, 128],
    [16_383, 16_384, 2_097_151],
    [2_097_152, 1 << 62, 9],
    [u64::MAX, 1 << 63, (1 << 63) - 1],
];

/// So is the count, whether it is the sum of the buckets or not.
#[tokio::test(flavor = "multi_thread")]
async fn intervals_read_as_they_came() {
    let Some(server) = Server::start() else { return };
    let sink = open(&server.by_socket("postgres"));
    let mut wanted = Vec::new();
    for (number, buckets) in (1..).zip(BUCKETS) {
        let start = 10 * number;
        // Its count is that of the first bucket.
        taken(&*sink, number, histogram("h", start, start + 5, None, buckets)).await;
        let [one, two, three] = buckets;
        wanted.push(format!("{start}||{one}||{{{one},{two},{three}}}"));
    }
    let (start, buckets) = (1000, [9, 300, 70_000]);
    let point = Point {
        name: "hh".into(),
        start,
        end: start + 1,
        value: Value::Histogram { sum: Some(u64::MAX), buckets },
    };
    taken(&*sink, 90, body(&[point])).await;
    wanted.push(format!("{start}||70309|{}|{{9,300,70000}}", u64::MAX));
    taken(&*sink, 91, sum("s", 2000, 2001, -7)).await;
    wanted.push("2000|-7|||".into());
    let intervals = "select start_ns, value, count, sum, buckets from totxegun.intervals order by 1";
    assert_eq!(server.ask(intervals), wanted.join("\n"));
    let added =
        "select sum(one) from totxegun.intervals, unnest(buckets::numeric[]) as one where start_ns = 1000";
    assert_eq!(server.ask(added), "70309");
    let counts = "select count(*) from totxegun.interval_rows where count is not null";
    assert_eq!(server.ask(counts), "4", "those that are not what the buckets come to");
}

/// 76 bytes for a histogram of 11 buckets, each below 128, and 60 for a sum, with what a page has of each row.
#[tokio::test(flavor = "multi_thread")]
async fn an_interval_takes_few_bytes() {
    let Some(server) = Server::start() else { return };
    let sink = open(&server.by_socket("postgres"));
    taken(&*sink, 1, sum("s", 1 << 60, (1 << 60) + 1, i64::MAX)).await;
    let eleven = r#"{"resourceMetrics":[{"resource":{"attributes":[]},"scopeMetrics":[{"metrics":[{"histogram":{
        "aggregationTemporality":1,"dataPoints":[{"attributes":[],"bucketCounts":["127","1","2","3","4","5","6","7","8","9","10"],
        "count":"182","explicitBounds":[1,2,3,4,5,6,7,8,9,10],"startTimeUnixNano":"1","sum":"123456789012","timeUnixNano":"2"}]},
        "name":"h","unit":"ms"}],"scope":{"attributes":[],"name":"s","version":"1"}}]}]}"#;
    taken(&*sink, 2, eleven.into()).await;
    let bytes = "select (pg_column_size(one) + 7) / 8 * 8 + 4 from totxegun.interval_rows as one order by 1";
    assert_eq!(server.ask(bytes), "60\n76");
}
