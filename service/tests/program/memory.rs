//! Tests how much memory the service takes for the series of a post.

use crate::support::{field, fixed, Place, NO_SINK};

/// More than one book has, so that none is kept. Their keys together take 170 MB.
const SERIES: usize = 10_500;
const MOST: u64 = 100 << 20;

/// Points of one metric, each of its own series, which share a resource of the greatest length.
fn many_series() -> String {
    let text = "r".repeat(4000);
    let attribute = |key: &str| format!("{{\"key\":\"{key}\",\"value\":{{\"stringValue\":\"{text}\"}}}}");
    let resource = ["a", "b", "c", "d"].map(attribute).join(",");
    let point = |number: usize| {
        format!(
            "{{\"attributes\":[{{\"key\":\"{number}\"}}],\"asInt\":\"1\",\"startTimeUnixNano\":\"1\",\
             \"timeUnixNano\":\"2\"}}"
        )
    };
    let points: Vec<String> = (0..SERIES).map(point).collect();
    format!(
        "{{\"resourceMetrics\":[{{\"resource\":{{\"attributes\":[{resource}]}},\"scopeMetrics\":[{{\"metrics\":[{{\
         \"name\":\"m\",\"sum\":{{\"aggregationTemporality\":1,\"dataPoints\":[{}]}}}}]}}]}}]}}",
        points.join(",")
    )
}

/// The same in protobuf.
fn in_protobuf() -> Vec<u8> {
    let text = field(1, "r".repeat(4000).as_bytes());
    let attribute = |key: &&str| field(1, &[field(1, key.as_bytes()), field(2, &text)].concat());
    let resource: Vec<u8> = ["a", "b", "c", "d"].iter().flat_map(attribute).collect();
    let values = [fixed(2, 1), fixed(3, 2), fixed(6, 1)].concat();
    let point = |number: usize| {
        let own = field(7, &field(1, number.to_string().as_bytes()));
        field(1, &[&values[..], &own].concat())
    };
    let points: Vec<u8> = (0..SERIES).flat_map(point).collect();
    let sum = field(7, &[&points[..], &[0x10, 1]].concat());
    let metric = field(2, &[field(1, b"m"), sum].concat());
    field(1, &[field(1, &resource), field(2, &metric)].concat())
}

/// The most memory that a process has had so far, in bytes.
fn greatest_memory(pid: u32) -> u64 {
    let status = std::fs::read_to_string(format!("/proc/{pid}/status")).unwrap();
    let row = status.lines().find_map(|line| line.strip_prefix("VmHWM:"));
    let kibibytes = row.unwrap().trim().strip_suffix(" kB").unwrap();
    kibibytes.parse::<u64>().unwrap() << 10
}

#[test]
fn series_that_share_a_long_resource_take_little_memory() {
    let place = Place::new();
    let service = place.serve_with(&["--sink", NO_SINK, "--max-series", "8000"]);
    let answer = service.post("A", &many_series()).unwrap();
    assert!(answer.0 == 413 && answer.1.contains("too many series"), "{answer:?}");
    for _ in 0..3 {
        assert_eq!(service.post_protobuf("A", &in_protobuf()), 413);
    }
    let most = greatest_memory(service.pid());
    assert!(most < MOST, "{} MiB", most >> 20);
}
