//! Calls of the library: their answers, and that a refused block of memory changes nothing.

use super::*;
use crate::otlp::series::{forwarded, Value};
use std::collections::BTreeMap;

mod blocks;
mod bodies;
mod points;
mod rounds;
mod sizes;
mod statuses;
mod windows;

/// A body with one point for each of these series.
pub(crate) fn points(names: &[String], start: u64, value: i64) -> String {
    let end = start + 10;
    let metric = |name: &String| {
        format!(
            "{{\"name\":\"{name}\",\"sum\":{{\"aggregationTemporality\":1,\"dataPoints\":[{{\"asInt\":\"{value}\",\
             \"startTimeUnixNano\":\"{start}\",\"timeUnixNano\":\"{end}\"}}]}}}}"
        )
    };
    let metrics: Vec<String> = names.iter().map(metric).collect();
    format!("{{\"resourceMetrics\":[{{\"scopeMetrics\":[{{\"metrics\":[{}]}}]}}]}}", metrics.join(","))
}

fn names(prefix: &str, count: usize) -> Vec<String> {
    (0..count).map(|number| format!("{prefix}{number}")).collect()
}

fn post(shared_book: &Arc<SharedBook>, sender: &str, body: &str) -> Result<u64, Refused> {
    let mut read = shared_book.read(sender.into(), body.to_string().into())?;
    shared_book.lock().admit(&mut read)?;
    Ok(read.post.foreign)
}

/// What was flushed, and in how many spans, by series.
fn taken(shared_book: &Arc<SharedBook>) -> BTreeMap<String, (i64, u64)> {
    let mut flushed = shared_book.lock().take_all().unwrap();
    let mut all = BTreeMap::new();
    for number in 0..flushed.count() {
        for point in forwarded(&flushed.text(number).unwrap()).unwrap() {
            let Value::Sum(value) = point.value else { panic!("{point:?}") };
            let name = point.series.parts().unwrap().name;
            assert!(all.insert(name, (value, point.end)).is_none(), "it came twice");
        }
    }
    assert_eq!(flushed.text(flushed.count()), Err(Refused::NoSuch));
    assert_eq!(shared_book.lock().settle(flushed), Ok(()));
    all
}

#[test]
fn what_is_taken_is_forwarded_once_and_refusals_have_their_places() {
    for series in [1, 80_000] {
        let shared_book = SharedBook::new(series).unwrap();
        assert_eq!(shared_book.books(), series.div_ceil(8_000));
        let ab = names("s", 30);
        assert_eq!(post(&shared_book, "A", &points(&ab, 10, 5)), Ok(0));
        assert_eq!(post(&shared_book, "A", &points(&ab, 20, 6)), Ok(0));
        let late = Err(Refused::OutOfOrder { point: 0, frontier: 30 });
        assert_eq!(post(&shared_book, "A", &points(&ab, 20, 6)), late);
        let other = Err(Refused::OtherWriter { point: 2 });
        let mixed = [&names("n", 2)[..], &names("s", 2)[..]].concat();
        assert_eq!(post(&shared_book, "B", &points(&mixed, 20, 6)), other);
        assert_eq!(post(&shared_book, "A", "x"), Err(Refused::NotJson));
        assert_eq!(post(&shared_book, "A", "[]"), Err(Refused::WrongShape));
        assert_eq!(post(&shared_book, "a b", "{}"), Err(Refused::BadSender));
        assert_eq!(post(&shared_book, "A", "{}"), Ok(0));
        let gauge = "{\"resourceMetrics\":[{\"scopeMetrics\":[{\"metrics\":[{\"gauge\":{\"dataPoints\":[{},{}]}}]}]}]}";
        assert_eq!(post(&shared_book, "A", gauge), Ok(2));
        assert_eq!(shared_book.lock().series(), 30, "of what was refused nothing is kept");
        let all = taken(&shared_book);
        assert_eq!(all.len(), 30);
        assert!(all.values().all(|one| *one == (11, 30)), "{all:?}");
        assert!(taken(&shared_book).is_empty());
        let report = String::from_utf8(shared_book.lock().report().unwrap()).unwrap();
        assert_eq!(report.matches("series s").count(), 30, "{report}");
        assert!(report.ends_with("end\n") && report.matches("end\n").count() == 1);
    }
}

#[test]
fn a_quarantine_is_in_all_books_or_in_none() {
    let shared_book = SharedBook::new(40_000).unwrap();
    assert_eq!(post(&shared_book, "A", &points(&names("a", 20), 10, 1)), Ok(0));
    assert_eq!(post(&shared_book, "B", &points(&names("b", 20), 10, 1)), Ok(0));
    assert_eq!(shared_book.lock().lift("A"), Err(Refused::NotQuarantined));
    assert_eq!(shared_book.lock().quarantine("A"), Ok(()));
    assert_eq!(shared_book.lock().quarantine("A"), Err(Refused::AlreadyQuarantined));
    assert_eq!(shared_book.lock().quarantine("a b"), Err(Refused::BadSender));
    let more = points(&names("a", 20), 20, 1);
    assert_eq!(post(&shared_book, "A", &more), Err(Refused::Quarantined));
    assert!(taken(&shared_book).keys().all(|name| name.starts_with('b')));
    assert_eq!(shared_book.lock().lift("A"), Ok(()));
    assert_eq!(post(&shared_book, "A", &more), Ok(0));
    let all = taken(&shared_book);
    assert!(all.len() == 20 && all.values().all(|one| *one == (2, 30)), "{all:?}");
}

#[test]
fn too_many_series_are_refused_and_nothing_is_kept_of_them() {
    let shared_book = SharedBook::new(1).unwrap();
    let all = names("s", 10_000);
    for part in all.chunks(1_000) {
        assert_eq!(post(&shared_book, "A", &points(part, 10, 1)), Ok(0));
    }
    let one_more = [&all[..1], &names("t", 1)[..]].concat();
    assert_eq!(post(&shared_book, "A", &points(&one_more, 20, 1)), Err(Refused::TooManySeries));
    assert_eq!(post(&shared_book, "A", &points(&all[..1], 20, 1)), Ok(0));
    assert_eq!(shared_book.lock().series(), 10_000);
    assert_eq!(taken(&shared_book).len(), 10_000);
}

/// Rounds are closed meanwhile, which no sender notices.
#[test]
fn more_posts_than_a_journal_has_entries_are_taken() {
    let shared_book = SharedBook::new(1).unwrap();
    let a = names("a", 1);
    for number in 1..=40_000 {
        assert_eq!(post(&shared_book, "A", &points(&a, number * 10, 1)), Ok(0), "{number}");
    }
    assert!(shared_book.lock().rounds_closed() >= 9);
    assert_eq!(taken(&shared_book), [("a0".into(), (40_000, 400_010))].into());
}

/// The deepest nesting that is parsed, and what is refused, on a thread with the stack of the runtimes.
#[test]
fn a_thread_has_the_stack_for_what_nests_to_127() {
    let nested = |depth: usize| {
        let (open, close) = ("{\"arrayValue\":{\"values\":[".repeat(depth), "]}}".repeat(depth));
        let list = format!("[{{\"key\":\"k\",\"value\":{open}{{}}{close}}}]");
        points(&names("a", 1), 10, 1).replace("\"asInt\"", &format!("\"attributes\":{list},\"asInt\""))
    };
    let run = move || {
        let shared_book = SharedBook::new(1).unwrap();
        let deepest = (1..60).rev().find(|depth| post(&shared_book, "A", &nested(*depth)).is_ok());
        assert_eq!(deepest, Some(38), "of 127 levels 13 are around it");
        let brackets = |depth: usize| format!("{}{}", "[".repeat(depth), "]".repeat(depth));
        assert_eq!(post(&shared_book, "A", &brackets(127)), Err(Refused::WrongShape));
        assert_eq!(post(&shared_book, "A", &brackets(1 << 20)), Err(Refused::NotJson));
    };
    let thread = std::thread::Builder::new().stack_size(2 << 20);
    thread.spawn(run).unwrap().join().unwrap();
}

/// The linker drops a library that is linked but not needed; then malloc would be the C library's.
#[test]
fn the_allocator_is_the_linked_one() {
    let maps = std::fs::read_to_string("/proc/self/maps").unwrap();
    assert!(maps.contains("/libtcmalloc_minimal.so"), "{maps}");
}

/// Makes a call for which this thread gets no block of memory.
pub(crate) fn without_blocks<T>(call: impl FnOnce() -> T) -> T {
    memory::with_blocks(0, true, call).0
}

/// Gives one block more each time before one is refused, or all are. Returns how many were given when none was refused.
fn blocks_until(mut all_were_given: impl FnMut(u64, bool) -> bool) -> u64 {
    let forms = |blocks| [(blocks, false), (blocks, true)];
    let given = (0..).flat_map(forms).find(|(blocks, refuses_all)| all_were_given(*blocks, *refuses_all));
    given.unwrap().0
}

/// Refuses each block that a call asks for, one after another, until the call succeeds with all. Returns how many
/// blocks there were, and the result. The same call is repeated each time.
fn each_block_fails<T>(does_without: bool, mut call: impl FnMut() -> Result<T, Refused>) -> (u64, T) {
    let mut whole = None;
    let blocks = blocks_until(|blocks, refuses_all| {
        let (done, all_were_given) = memory::with_blocks(blocks, refuses_all, &mut call);
        match done {
            Ok(done) if all_were_given => whole = Some(done),
            // A reader keeps only what it has room for.
            Ok(_) => assert!(does_without, "a block was refused, and it was done all the same"),
            Err(refused) => {
                assert_eq!((refused, all_were_given), (Refused::NoMemory, false), "{blocks} blocks")
            }
        }
        all_were_given
    });
    (blocks, whole.unwrap())
}

#[test]
fn a_block_that_is_refused_changes_nothing() {
    let shared_book = SharedBook::new(24_000).unwrap();
    let (known, new) = (names("s", 6), names("n", 6));
    assert_eq!(post(&shared_book, "A", &points(&known, 10, 5)), Ok(0));
    let body = points(&[known.clone(), new.clone()].concat(), 20, 6);
    let read = || shared_book.read("A".into(), body.clone().into());
    let (blocks, _) = each_block_fails(true, read);
    assert!(blocks > 10, "{blocks} blocks to read");
    let blocks = blocks_until(|blocks, refuses_all| {
        let mut read = read().unwrap();
        let admit = || check(shared_book.lock().desk.admit(read.reader.as_mut().unwrap())).map(drop);
        let (admitted, all_were_given) = memory::with_blocks(blocks, refuses_all, admit);
        let (wanted, series) = if all_were_given { (Ok(()), 12) } else { (Err(Refused::NoMemory), 6) };
        assert_eq!((admitted, shared_book.lock().series()), (wanted, series));
        all_were_given
    });
    assert!(blocks > 5, "{blocks} blocks to admit");
    let (blocks, mut flushed) = each_block_fails(false, || shared_book.lock().take_all());
    assert!(blocks > 5, "{blocks} blocks to take");
    let mut all = BTreeMap::new();
    for number in 0..flushed.count() {
        let (_, text) = each_block_fails(false, || flushed.text(number));
        for point in forwarded(&text).unwrap() {
            all.insert(point.series.parts().unwrap().name, point.value);
        }
    }
    assert_eq!(shared_book.lock().settle(flushed), Ok(()));
    let wanted = known.iter().map(|name| (name.clone(), Value::Sum(11)));
    let wanted = wanted.chain(new.iter().map(|name| (name.clone(), Value::Sum(6))));
    assert_eq!(all, wanted.collect());
    let (blocks, ()) = each_block_fails(false, || check_quarantine(&shared_book));
    assert!(blocks > 0, "{blocks} blocks to quarantine");
    assert_eq!(shared_book.lock().lift("B"), Ok(()));
    let (blocks, _) = each_block_fails(false, || shared_book.lock().report());
    assert!(blocks > 5, "{blocks} blocks to report");
    assert_eq!(post(&shared_book, "A", &points(&known, 30, 1)), Ok(0));
    let all = taken(&shared_book);
    assert!(all.len() == 6 && all.values().all(|one| *one == (1, 40)), "{all:?}");
}

/// Without closing rounds and trying again.
fn check_quarantine(shared_book: &SharedBook) -> Result<(), Refused> {
    let answer = shared_book.lock().desk.quarantine(b"B");
    check(answer).map(drop)
}

/// If memory is short: what was written stays written, and the rest is in the book.
#[test]
fn what_is_written_in_parts_is_there_once_also_after_faults() {
    let shared_book = SharedBook::new(24_000).unwrap();
    let known = names("s", 120);
    assert_eq!(post(&shared_book, "A", &points(&known, 10, 5)), Ok(0));
    let mut texts = Vec::new();
    let (blocks, ()) = each_block_fails(false, || shared_book.lock().write_all(&mut texts));
    assert!(texts.len() >= 12 && blocks > 50, "{} texts, {blocks} blocks", texts.len());
    let points: Vec<_> = texts.iter().flat_map(|text| forwarded(text).unwrap()).collect();
    let series: std::collections::HashSet<_> = points.iter().map(|point| &point.series).collect();
    assert_eq!((points.len(), series.len()), (120, 120));
    assert!(taken(&shared_book).is_empty());
}

/// As `otlp::series`, which finds owners, parses them.
#[test]
fn posts_are_read_alike_on_both_sides() {
    let shared_book = SharedBook::new(8_000).unwrap();
    for (number, bodies) in crate::otlp::requests_of_test(300).into_iter().enumerate() {
        for body in bodies {
            let read = shared_book.read("A".into(), body.clone()).unwrap();
            let posted = crate::otlp::posted_of_test(&body).unwrap();
            assert_eq!(read.post.foreign, posted.foreign, "{number}");
            let fresh = SharedBook::new(8_000).unwrap();
            let mut read = fresh.read("A".into(), body).unwrap();
            // Random points are mostly out of order or too large.
            if fresh.lock().admit(&mut read).is_ok() {
                let mut flushed = fresh.lock().take_all().unwrap();
                let texts = flushed.texts().unwrap();
                let points = texts.iter().flat_map(|text| forwarded(text).unwrap());
                let ends = points.map(|point| (point.series, point.end));
                assert_eq!(ends.collect::<std::collections::HashMap<_, _>>(), posted.series, "{number}");
                fresh.lock().settle(flushed).unwrap();
            }
        }
    }
}

/// How long a checkpoint holds the lock. Run it alone:
/// `cargo test --lib how_long_the_lock_is_held -- --ignored --nocapture`
#[test]
#[ignore]
fn how_long_the_lock_is_held() {
    use std::time::{Duration, Instant};
    for count in [1_000, 10_000, 100_000] {
        let shared_book = SharedBook::new(count).unwrap();
        let all = names("s", count);
        let began = Instant::now();
        for part in all.chunks(250) {
            assert_eq!(post(&shared_book, "A", &points(part, 10, 1)), Ok(0));
        }
        eprintln!("{count} series: made in {:?}", began.elapsed());
        let (mut reading, mut admitting, mut longest) = (Duration::ZERO, Duration::ZERO, Duration::ZERO);
        const POSTS: u32 = 4_000;
        for number in 0..POSTS {
            let first = number as usize * 20 % (count - 20);
            let start = 20 + u64::from(number) * 10;
            let body = points(&all[first..first + 20], start, 1);
            let began = Instant::now();
            let mut read = shared_book.read("A".into(), body.into()).unwrap();
            let read_at = Instant::now();
            shared_book.lock().admit(&mut read).unwrap();
            (reading, admitting) = (reading + (read_at - began), admitting + read_at.elapsed());
            longest = longest.max(read_at.elapsed());
        }
        eprintln!(
            "  a post: read {:?}, admitted {:?}, longest {longest:?}",
            reading / POSTS,
            admitting / POSTS
        );
        let began = Instant::now();
        let mut flushed = shared_book.lock().take_all().unwrap();
        let took = began.elapsed();
        let texts = flushed.texts().unwrap();
        let wrote = began.elapsed() - took;
        let bytes: usize = texts.iter().map(Vec::len).sum();
        shared_book.lock().settle(flushed).unwrap();
        let settled = began.elapsed() - took - wrote;
        eprintln!(
            "  taken in {took:?}, {} texts of {bytes} bytes in {wrote:?}, settled in {settled:?}",
            texts.len()
        );
        let began = Instant::now();
        shared_book.lock().close_rounds();
        eprintln!("  rounds closed in {:?}; memory {:?}", began.elapsed(), memory_used());
    }
}

/// By several threads at once, during flushes: each point is in exactly one flush.
#[test]
fn posts_at_once_are_all_taken_once() {
    let shared_book = SharedBook::new(30_000).unwrap();
    let mut sums = BTreeMap::<String, i64>::new();
    std::thread::scope(|scope| {
        let posting: Vec<_> = (0..4)
            .map(|sender| {
                let shared_book = &shared_book;
                scope.spawn(move || {
                    let own = names(&format!("t{sender}-"), 10);
                    for number in 1..=300 {
                        let body = points(&own, number * 10, number as i64);
                        assert_eq!(post(shared_book, &format!("S{sender}"), &body), Ok(0));
                    }
                })
            })
            .collect();
        while !posting.iter().all(|thread| thread.is_finished()) {
            for (name, (value, _)) in taken(&shared_book) {
                *sums.entry(name).or_default() += value;
            }
        }
    });
    for (name, (value, _)) in taken(&shared_book) {
        *sums.entry(name).or_default() += value;
    }
    assert_eq!(sums.len(), 40);
    assert!(sums.values().all(|sum| *sum == 300 * 301 / 2), "{sums:?}");
}

/// Otherwise the room of a book, most of which it never uses, would be on pages that were used before.
#[test]
fn what_nobody_has_is_given_back_before_a_book_gets_its_room() {
    const BLOCK: usize = 1 << 20;
    const BLOCKS: usize = 128;
    // Every second block is freed: by itself the allocator returns only one of many to the system.
    let block = || vec![1u8; BLOCK];
    let (freed, _kept): (Vec<_>, Vec<_>) = (0..BLOCKS).map(|_| (block(), block())).unzip();
    let before = given_back();
    drop(freed);
    let _core = SharedBook::new(1).unwrap();
    // Other tests allocate and free meanwhile.
    assert!(given_back() > before + BLOCK * BLOCKS / 2);
}
