//! Refuses blocks of memory in single calls of the library, and checks which calls ask for none.

use super::library::{Names as Numbers, Reader};
use super::*;
use crate::otlp::plain_posts_of_test;

/// A histogram and a sum with attributes of each kind, and two foreign points.
const MIXED: &str = r#"{"resourceMetrics":[{"resource":{"attributes":[
    {"key":"host","value":{"stringValue":"h"}}]},
    "scopeMetrics":[{"scope":{"name":"s","version":"1"},"metrics":[
    {"name":"h","unit":"ms","histogram":{"aggregationTemporality":1,"dataPoints":[
    {"count":"7","sum":30,"explicitBounds":[0,5,10],"bucketCounts":["1","2","0","4"],
    "startTimeUnixNano":"10","timeUnixNano":"20"}]}},
    {"name":"m","sum":{"aggregationTemporality":1,"dataPoints":[
    {"attributes":[{"key":"b","value":{"intValue":"1"}},{"key":"a","value":{"arrayValue":
    {"values":[{"stringValue":"x"},{"boolValue":true},{}]}}}],
    "asInt":"5","startTimeUnixNano":"10","timeUnixNano":"20"},
    {"asDouble":1.5,"startTimeUnixNano":"10","timeUnixNano":"20"}]}},
    {"name":"g","gauge":{"dataPoints":[{}]}}]}]}]}"#;

/// The same body in protobuf, with a resource and a sum in two parts each.
const MIXED_PROTOBUF: &[u8] = &[
    10, 131, 2, 10, 13, 10, 11, 10, 4, 104, 111, 115, 116, 18, 3, 10, 1, 104, 10, 13, 10, 11, 10, 4, 122,
    111, 110, 101, 18, 3, 10, 1, 122, 18, 226, 1, 10, 6, 10, 1, 115, 18, 1, 49, 18, 109, 10, 1, 104, 26, 2,
    109, 115, 74, 100, 10, 96, 17, 10, 0, 0, 0, 0, 0, 0, 0, 25, 20, 0, 0, 0, 0, 0, 0, 0, 33, 7, 0, 0, 0, 0,
    0, 0, 0, 41, 0, 0, 0, 0, 0, 0, 62, 64, 50, 32, 1, 0, 0, 0, 0, 0, 0, 0, 2, 0, 0, 0, 0, 0, 0, 0, 0, 0, 0,
    0, 0, 0, 0, 0, 4, 0, 0, 0, 0, 0, 0, 0, 58, 24, 0, 0, 0, 0, 0, 0, 0, 0, 0, 0, 0, 0, 0, 0, 20, 64, 0, 0, 0,
    0, 0, 0, 36, 64, 16, 1, 18, 96, 10, 1, 109, 58, 58, 10, 56, 58, 7, 10, 1, 98, 18, 2, 24, 1, 58, 18, 10,
    1, 97, 18, 13, 42, 11, 10, 3, 10, 1, 120, 10, 2, 16, 1, 10, 0, 17, 10, 0, 0, 0, 0, 0, 0, 0, 25, 20, 0, 0,
    0, 0, 0, 0, 0, 49, 5, 0, 0, 0, 0, 0, 0, 0, 58, 31, 10, 27, 33, 0, 0, 0, 0, 0, 0, 248, 63, 17, 10, 0, 0,
    0, 0, 0, 0, 0, 25, 20, 0, 0, 0, 0, 0, 0, 0, 16, 1, 18, 7, 10, 1, 103, 42, 2, 10, 0,
];

/// Parses JSON or protobuf.
type ReadBy = fn(&mut Reader, &[u8], &[u8], usize) -> Answer;
/// The number of points of a body, the number of foreign ones, and the points in words; or why it can't be parsed.
type Said = Result<(u64, u64, Vec<u64>), Refused>;

/// Parses a body, writes its points in words, and reads these again. The outer error is want of memory.
fn said(reader: &mut Reader, numbers: &mut Numbers, read_by: ReadBy, body: &[u8]) -> Result<Said, Refused> {
    let read = match check(read_by(reader, b"A", body, 3)) {
        Err(refused) if refused != Refused::NoMemory => return Ok(Err(refused)),
        read => read?,
    };
    let mut words = Vec::new();
    check(reader.words(numbers, &mut words))?;
    assert_eq!(check(reader.put(numbers, b"A", &words, 3))?.number, read.number);
    Ok(Ok((read.number, read.at, words)))
}

/// How many blocks `said` takes, and its result. Each block is refused once to a new reader, which then has to say the
/// same.
fn blocks_to_say(read_by: ReadBy, body: &[u8]) -> (u64, Said) {
    let new = || (Reader::new().unwrap(), Numbers::new().unwrap());
    let say = |(reader, numbers): &mut (Reader, Numbers)| said(reader, numbers, read_by, body);
    let wanted = say(&mut new());
    let blocks = blocks_until(|blocks, refuses_all| {
        let mut by = new();
        let (said, all_were_given) = memory::with_blocks(blocks, refuses_all, || say(&mut by));
        if said != wanted {
            assert_eq!((said, all_were_given), (Err(Refused::NoMemory), false));
        }
        assert_eq!(say(&mut by), wanted);
        all_were_given
    });
    (blocks, wanted.unwrap())
}

#[test]
fn a_body_says_the_same_once_there_is_memory() {
    let json = |text: &str| blocks_to_say(Reader::read, text.as_bytes());
    let protobuf = |body: &[u8]| blocks_to_say(Reader::read_protobuf, body);
    // Its nesting is so deep that it is parsed by a tree.
    let nested = format!(r#"{{"x":{}{},"#, "[".repeat(101), "]".repeat(101));
    let nested = MIXED.replacen('{', &nested, 1);
    for (blocks, said) in [json(MIXED), json(&nested), protobuf(MIXED_PROTOBUF)] {
        assert!(blocks > 30 && matches!(said, Ok((2, 2, _))), "{blocks} blocks: {said:?}");
    }
    let unread =
        [json(r#"{"resourceMetrics":[{"a":"b"}"#), json(r#"{"resourceMetrics":[null]}"#), protobuf(b"{}")];
    let faults = [Refused::NotJson, Refused::WrongShape, Refused::NotProtobuf];
    assert_eq!(unread.map(|(_, said)| said), faults.map(Err));
    let posts = plain_posts_of_test(7, 10).into_iter().map(|body| protobuf(&body).1);
    assert!(posts.flatten().map(|said| said.0).sum::<u64>() > 10);
}

#[test]
fn what_a_service_begins_with_is_made_once_there_is_memory() {
    fn blocks<T>(made: impl Fn() -> Option<T>) -> u64 {
        each_block_fails(false, || made().ok_or(Refused::NoMemory)).0
    }
    let all = [blocks(|| Desk::new(3)), blocks(Reader::new), blocks(Numbers::new), blocks(Flushes::new)];
    assert!(all.iter().all(|blocks| *blocks > 0), "{all:?}");
}

/// How many blocks a call asks for.
fn asked_for(mut call: impl FnMut() -> Answer) -> u64 {
    each_block_fails(false, || check(call())).0
}

fn read(reader: &mut Reader, start: u64) {
    let body = points(&names("s", 20), start, 1);
    check(reader.read(b"A", body.as_bytes(), 1)).unwrap();
}

#[test]
fn what_only_looks_or_ends_something_asks_for_no_block() {
    let (mut desk, mut reader) = (Desk::new(1).unwrap(), Reader::new().unwrap());
    read(&mut reader, 10);
    check(desk.admit(&mut reader)).unwrap();
    read(&mut reader, 20);
    assert_eq!(asked_for(|| reader.ends()), 0);
    assert_eq!(asked_for(|| desk.crosses(&mut reader, 20, 0)), 0);
    for end in [Desk::give_back as fn(&mut Desk, &mut Flushes) -> Answer, Desk::settle] {
        let mut flushes = Flushes::new().unwrap();
        check(desk.take(&mut flushes, MAX_TAKEN)).unwrap();
        assert_eq!(asked_for(|| end(&mut desk, &mut flushes)), 0);
    }
    check(desk.quarantine(b"B")).unwrap();
    assert!(asked_for(|| desk.lift(b"B")) > 0, "its name is a block");
    let close = || desk.close_round(0).then_some(()).ok_or(Refused::NoMemory);
    assert!(each_block_fails(false, close).0 > 0);
}

/// The next test runs this in a process of its own.
#[test]
#[ignore]
fn finds_no_memory_for_a_name() {
    if std::env::var_os("TOTXEGUN_TEST_NAME").is_none() {
        return;
    }
    let by = crate::book::Names::new().unwrap();
    assert_eq!(by.number_of(points(&["a".into()], 10, 1).as_bytes()), Ok(0));
    memory::with_blocks(0, true, || crate::journal::Names::text(&*by, 0));
}

#[test]
fn a_process_without_memory_for_a_name_ends_and_says_what_helps() {
    let mut this = std::process::Command::new(std::env::current_exe().unwrap());
    this.args(["--exact", "--ignored", "--nocapture", "book::tests::blocks::finds_no_memory_for_a_name"]);
    let ended = this.env("TOTXEGUN_TEST_NAME", "1").output().unwrap();
    let said = String::from_utf8_lossy(&ended.stderr);
    assert_eq!(ended.status.code(), Some(memory::NONE_LEFT), "{said}");
    assert!(said.contains("raise --max-memory"), "{said}");
}
