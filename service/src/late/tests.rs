//! What is kept of late points, in which files, and what happens if that fails.

use super::*;
use crate::book::PointRefusal;
use crate::otlp::Reason;
use crate::storage::test_random::TestRandom;
use serde_json::value::RawValue;
use std::os::unix::fs::PermissionsExt;
use std::path::Path;

const SERIES: &str = r#"[[],"","",[],"shop.orders","1","monotonic",[]]"#;

fn late(number: u64) -> LatePoint {
    LatePoint {
        key: format!("{number:016x}"),
        at: 5,
        sender: "shop-1".into(),
        reason: Reason::OutOfOrder,
        series: RawValue::from_string(SERIES.into()).unwrap(),
        start_ns: number,
        end_ns: number + 1,
        cumulative: false,
        value: LateValue::Sum(-7),
        series_end_ns: Some(9),
        series_sender: None,
    }
}

fn line(number: u64) -> Vec<u8> {
    let mut line = serde_json::to_vec(&late(number)).unwrap();
    line.push(b'\n');
    line
}

fn read(folder: &Path) -> Vec<u64> {
    let mut found = Vec::new();
    segments::read(folder, |_| true, |point| found.push(point.start_ns)).unwrap();
    found
}

/// The form given in docs/FORMATS.md.
#[test]
fn a_point_is_a_line_of_json() {
    let text = String::from_utf8(line(3)).unwrap();
    let wanted = format!(
        r#"{{"key":"0000000000000003","at":5,"sender":"shop-1","reason":"duplicate_or_late","series":{SERIES},"start_ns":3,"end_ns":4,"value":-7,"series_end_ns":9}}"#
    );
    assert_eq!(text, wanted + "\n");
    let histogram = r#"{"count":3,"sum":null,"buckets":[1,2]}"#;
    let read: LatePoint = serde_json::from_str(&text.replace("-7", histogram)).unwrap();
    assert_eq!(read.value, LateValue::Histogram { count: 3, sum: None, buckets: vec![1, 2] });
}

/// Whatever is written, no more bytes are kept than were asked for, and at least half as many of the latest ones.
#[test]
fn the_oldest_goes_first() {
    let (place, mut random) = (tempfile::tempdir().unwrap(), TestRandom(5));
    let folder = place.path().join("late");
    let (max_bytes, length) = (160_000, line(10).len() as u64);
    let (mut segments, mut next) = (Segments::new(folder.clone(), max_bytes), 10);
    for round in 0..200 {
        if random.below(9) == 0 {
            segments = Segments::new(folder.clone(), max_bytes); // as a start finds them
        }
        let count = 1 + random.below(30);
        let lines: Vec<Vec<u8>> = (next..next + count).map(line).collect();
        assert_eq!(append(&mut segments, lines), count);
        next += count;
        let bytes: u64 =
            std::fs::read_dir(&folder).unwrap().map(|entry| entry.unwrap().metadata().unwrap().len()).sum();
        assert!(bytes <= max_bytes && bytes == segments.bytes(), "round {round}: {bytes}");
        let found = read(&folder);
        let first = next - found.len() as u64;
        assert_eq!(found, (first..next).collect::<Vec<_>>(), "round {round}: the last ones, each once");
        let least = (max_bytes / 2 / length).min(next - 10);
        assert!(found.len() as u64 >= least.saturating_sub(30), "round {round}: {} of {least}", found.len());
    }
    let rights = |path: &Path| std::fs::metadata(path).unwrap().permissions().mode() & 0o777;
    let file = std::fs::read_dir(&folder).unwrap().next().unwrap().unwrap().path();
    assert_eq!((rights(&folder), rights(&file)), (0o700, 0o600), "senders' names and values are in it");
}

/// As after a kill: complete lines are read, including those after a torn one.
#[test]
fn a_line_that_was_cut_costs_no_other() {
    let place = tempfile::tempdir().unwrap();
    let folder = place.path().join("late");
    append(&mut Segments::new(folder.clone(), 1 << 20), [line(1), line(2)]);
    let file = folder.join("0000000001.jsonl");
    let bytes = std::fs::read(&file).unwrap();
    std::fs::write(&file, &bytes[..bytes.len() - 9]).unwrap();
    append(&mut Segments::new(folder.clone(), 1 << 20), [line(3)]);
    assert_eq!(read(&folder), [1, 3]);
}

/// Points that can't be written are counted and nothing else happens, even while the folder is missing or is a file.
#[test]
fn what_can_t_be_written_is_counted() {
    let place = tempfile::tempdir().unwrap();
    let folder = place.path().join("late");
    std::fs::write(&folder, "no folder").unwrap();
    let metrics = Arc::new(Metrics::new().unwrap());
    let mut writer = Writer {
        segments: Segments::new(folder.clone(), 1 << 20),
        state: Arc::default(),
        metrics: metrics.clone(),
        rate_limit: RateLimit::every(WARN_EVERY),
    };
    assert!(writer.segments.append([line(1)].into_iter()).1.is_err());
    std::fs::remove_file(&folder).unwrap();
    append(&mut writer.segments, [line(2)]);
    assert_eq!(read(&folder), [2]);
    std::fs::remove_dir_all(&folder).unwrap();
    assert!(read(&folder).is_empty());
}

/// An operator may delete files for room, or after copying them: later points are kept, and only existing bytes are
/// reported.
#[test]
fn what_comes_after_files_were_deleted_is_kept() {
    let place = tempfile::tempdir().unwrap();
    let folder = place.path().join("late");
    let mut segments = Segments::new(folder.clone(), 1 << 20);
    append(&mut segments, [line(10), line(11)]);
    std::fs::remove_file(folder.join("0000000001.jsonl")).unwrap();
    append(&mut segments, [line(12)]);
    assert_eq!((read(&folder), segments.bytes()), (vec![12], line(12).len() as u64));
    std::fs::remove_dir_all(&folder).unwrap();
    append(&mut segments, [line(13)]);
    assert_eq!((read(&folder), segments.bytes()), (vec![13], line(13).len() as u64));
}

fn append(segments: &mut Segments, lines: impl IntoIterator<Item = Vec<u8>>) -> u64 {
    let (written, result) = segments.append(lines.into_iter());
    result.unwrap();
    written
}

/// A line longer than a segment displaces no other.
#[test]
fn a_line_that_is_too_long_is_passed_over() {
    let place = tempfile::tempdir().unwrap();
    let folder = place.path().join("late");
    let mut segments = Segments::new(folder.clone(), 8000);
    assert_eq!(append(&mut segments, [line(1), vec![b'x'; 1001], line(2)]), 2);
    assert_eq!(read(&folder), [1, 2]);
}

/// Lines are made as they are written: otherwise a post with many points of a series with a long text could take
/// gigabytes.
#[test]
fn of_one_post_no_more_is_made_than_a_segment_has_room_for() {
    let place = tempfile::tempdir().unwrap();
    let folder = place.path().join("late");
    let mut segments = Segments::new(folder.clone(), 8000);
    append(&mut segments, [line(1)]);
    let mut made = 0;
    let lines = (10..1_000_000).map(|number| {
        made += 1;
        line(number)
    });
    let written = append(&mut segments, lines);
    assert_eq!(written, 1000 / line(10).len() as u64);
    assert_eq!(made, written + 1);
    assert_eq!(read(&folder)[0], 1, "what others have is there still");
}

/// If the thread stalls no post waits: points that find no room are counted as not kept.
#[test]
fn nobody_waits_for_the_thread_that_writes() {
    use crate::book::Names;
    use crate::journal::Points;
    use crate::outbox::Outbox;
    let metrics = Arc::new(Metrics::new().unwrap());
    let (queue, queued) = sync_channel(2);
    let late = LateData { queue: Some(queue), folder: PathBuf::new(), metrics, state: Arc::default() };
    let names = Names::of_one_post().unwrap();
    let outbox = Arc::<Outbox>::new({
        use crate::storage::shard_store::{self, memory::Store};
        shard_store::open(Arc::<Store>::default().take(), "00000000000000aa").unwrap().1
    });
    let post = |count: usize| {
        let mut points = Points::default();
        (0..count).for_each(|_| points.push(0, 1, 2, [3]));
        let why = vec![(PointRefusal::OtherWriter, false); count];
        late.keep(Refusals::new("A", &names, points, why, &outbox));
    };
    post(0);
    for _ in 0..5 {
        post(3);
    }
    assert_eq!((queued.try_iter().count(), late.points()), (2, [0, 9]), "two posts fit");
    late.state.waiting.store(0, Relaxed);
    post(MAX_WORDS / 4 + 1);
    assert_eq!(late.points(), [0, 9 + MAX_WORDS as u64 / 4 + 1], "it is too long");
    drop(queued);
    post(1);
    assert_eq!(late.points()[1], 9 + MAX_WORDS as u64 / 4 + 2, "the thread has ended");
}

/// A repeat has the key of the first point, and no other point has it.
#[test]
fn a_key_says_which_point_it_is() {
    let series = crate::otlp::series::SeriesKey(SERIES.into());
    let other = crate::otlp::series::SeriesKey(SERIES.replace("orders", "orders2").into());
    let key = point::key("A", &series, &[1, 2, 3], false);
    assert_eq!(key, point::key("A", &series, &[1, 2, 3], false));
    assert!(key.len() == 16 && key.bytes().all(|byte| byte.is_ascii_hexdigit()), "{key}");
    for another in [
        point::key("B", &series, &[1, 2, 3], false),
        point::key("A", &other, &[1, 2, 3], false),
        point::key("A", &series, &[1, 2, 4], false),
        point::key("A", &series, &[1, 3, 3], false),
        point::key("A", &series, &[1, 2, 3], true),
    ] {
        assert_ne!(another, key);
    }
}
