//! How many bytes an outbox takes, and how long a start with a long backlog takes.

use super::*;

/// A request as the service writes it, with points of this many series.
fn request(series: usize, end: u64) -> Vec<u8> {
    let point = |n: usize| {
        format!(
            r#"{{"resource":{{"attributes":[{{"key":"service.instance.id","value":{{"stringValue":"{:08x}-42"}}}},{{"key":"service.name","value":{{"stringValue":"checkout"}}}}]}},"scopeMetrics":[{{"scope":{{"name":"http","version":"1.2.3","attributes":[]}},"metrics":[{{"name":"http.server.requests.{}","unit":"1","sum":{{"aggregationTemporality":1,"isMonotonic":true,"dataPoints":[{{"attributes":[{{"key":"http.route","value":{{"stringValue":"/route/{}"}}}}],"startTimeUnixNano":"{}","timeUnixNano":"{end}","asInt":"{}"}}]}}}}]}}]}}"#,
            (n / 100).wrapping_mul(2654435761) as u32,
            n % 10,
            n % 100,
            end - 10_000_000_000,
            n.wrapping_mul(7919) % 1000,
        )
    };
    format!("{{\"resourceMetrics\":[{}]}}", (0..series).map(point).collect::<Vec<_>>().join(",")).into_bytes()
}

fn request_ends(body: &[u8]) -> Result<Vec<(SeriesKey, u64)>, NotForwarded> {
    let text = String::from_utf8_lossy(body);
    let parts = text.split("\"resource\":").skip(1);
    Ok(parts
        .map(|part| (key_of(part.split("\"startTime").next().unwrap_or("")), 1_700_000_000_000_000_000))
        .collect())
}

#[test]
fn it_is_at_most_a_fifth_of_what_is_forwarded() {
    let folder = tempfile::tempdir().unwrap();
    let free_space = Arc::new(FreeSpace::new(folder.path()).unwrap());
    let disk = Disk::default();
    let outbox = Outbox::read_with(&disk, folder.path(), "e", free_space, request_ends, SEGMENT);
    let outbox = outbox.and_then(Outbox::begun).unwrap();
    let mut forwarded = 0;
    for round in 0..5 {
        let body = request(1000, 1_700_000_000_000_000_000 + round * 10_000_000_000);
        forwarded += body.len() as u64;
        outbox.commit(&[body], round + 2).unwrap();
    }
    let written = std::fs::metadata(last_segment(folder.path())).unwrap().len();
    println!("{written} bytes of {forwarded} forwarded, 1 to {}", forwarded / written);
    assert!(written * 5 <= forwarded);
}

/// Otherwise a disk that posts have filled up to the reserve for commits would end the service, and each start.
#[test]
fn room_for_the_next_snapshot_is_kept_back() {
    let folder = tempfile::tempdir().unwrap();
    let open = || {
        let free_space = Arc::new(FreeSpace::of(|| Ok((66 << 20, 1 << 30, 1000))));
        let read = Outbox::read_with(&Disk::default(), folder.path(), "e", free_space, read_ends, u64::MAX);
        read.and_then(Outbox::begun).unwrap()
    };
    let outbox = open();
    assert!(outbox.free_space.is_left());
    let mut chance = TestRandom(1);
    let noise: String = (0..26 << 20).map(|_| char::from(b'0' + chance.below(64) as u8)).collect();
    let body = serde_json::to_vec(&(Vec::<(String, u64)>::new(), noise)).unwrap();
    outbox.commit(&[body], 2).unwrap();
    let length = std::fs::metadata(last_segment(folder.path())).unwrap().len();
    assert!(length > 18 << 20, "{length}");
    std::thread::sleep(Duration::from_millis(120)); // until the disk is looked at again
    assert!(!outbox.free_space.is_left());
    drop(outbox);
    assert!(open().free_space.is_left(), "its segment has a snapshot alone");
}

/// Their keys are packed: without that, a service with 100,000 series would use 30 MB more.
#[test]
fn a_series_takes_few_bytes_of_memory() {
    let folder = tempfile::tempdir().unwrap();
    let outbox = open_on(&Disk::default(), folder.path(), "e", SEGMENT).unwrap();
    let ends = request_ends(&request(10_000, 1_700_000_000_000_000_000)).unwrap();
    let bytes: usize = ends.iter().map(|(key, _)| key.0.len()).sum();
    let keys: Vec<_> = ends.iter().map(|(key, end)| (&*key.0, *end)).collect();
    outbox.commit(&[body(&keys, "")], 2).unwrap();
    let packed = locked(&outbox.state).series.texts().bytes();
    println!("{packed} bytes of {bytes}");
    assert!(packed * 10 <= bytes);
}

/// Otherwise each acknowledgement would write all series again: hundreds of megabytes for 10,000 long keys.
#[test]
fn a_long_snapshot_is_not_written_with_each_change() {
    const LONGEST: u64 = 2000;
    let folder = tempfile::tempdir().unwrap();
    let made = Arc::new(AtomicUsize::new(0));
    let count = made.clone();
    let disk = Disk::failing(move |call, _| {
        count.fetch_add(usize::from(call == Call::Create), SeqCst);
        Ok(())
    });
    let outbox = open_on(&disk, folder.path(), "e", LONGEST).unwrap();
    let keys: Vec<String> =
        (1..1000u64).map(|n| format!("{:x}", n.wrapping_mul(0x9e37_79b9_7f4a_7c15))).collect();
    let ends: Vec<(&str, u64)> = keys.iter().map(|key| (&**key, 1)).collect();
    outbox.commit(&[body(&ends, "")], 2).unwrap();
    let snapshot = std::fs::metadata(last_segment(folder.path())).unwrap().len();
    assert!(snapshot > 2 * LONGEST, "{snapshot}");
    let mut written = 0;
    for journal in 3..103 {
        let filling = "x".repeat(100);
        written += 100;
        outbox.commit(&[body(&[], &filling)], journal).unwrap();
        outbox.acknowledge(journal - 2).unwrap();
    }
    let made = made.load(SeqCst);
    assert!(made < 10, "{made} segments for {written} bytes behind a snapshot of {snapshot}");
    drop(outbox);
    let outbox = open_on(&Disk::default(), folder.path(), "e", LONGEST).unwrap();
    assert_eq!((outbox.series_count(), outbox.waiting().0), (999, 1));
}

/// Prints how long a start with 1,000,000 waiting requests takes: `cargo test --release -- --ignored --nocapture
/// backlog`.
#[test]
#[ignore]
fn backlog() {
    for in_group in [1000, 1] {
        // In memory no sync takes time, so this measures the start alone.
        let folder = crate::storage::power::place();
        let outbox = open(folder.path());
        let bodies: Vec<_> =
            (0..in_group).map(|n| body(&[(&format!("key {n}"), 5)], &format!("{n}").repeat(100))).collect();
        for round in 0..1_000_000 / in_group as u64 {
            outbox.commit(&bodies, round + 2).unwrap();
        }
        kill(outbox);
        let began = std::time::Instant::now();
        let outbox = open(folder.path());
        println!(
            "{in_group} in a group: {:?} for {} waiting, {} bytes",
            began.elapsed(),
            outbox.waiting().0,
            outbox.waiting().1
        );
        assert_eq!(outbox.waiting().0, 1_000_000);
    }
}
