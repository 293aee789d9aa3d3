//! For each status of the library, a call that answers it.

use super::library::{status, Names as Numbers, Reader};
use super::*;
use std::collections::BTreeSet;

/// More series than one book takes, in posts that are short enough.
const MOST_OF_ONE: usize = 10_000;
/// More senders than can be quarantined.
const MOST_HELD: usize = 1_000;

/// Checks each answer and collects the statuses seen.
struct Answered {
    desk: Desk,
    reader: Reader,
    numbers: Numbers,
    flushes: Flushes,
    seen: BTreeSet<u32>,
}

impl Answered {
    fn new() -> Answered {
        let new = (Desk::new(1), Reader::new(), Numbers::new(), Flushes::new());
        let (Some(desk), Some(reader), Some(numbers), Some(flushes)) = new else { panic!("no memory") };
        Answered { desk, reader, numbers, flushes, seen: BTreeSet::new() }
    }

    fn is(&mut self, wanted: u32, answer: Answer) {
        assert_eq!(answer.status, wanted, "{answer:?}");
        self.seen.insert(wanted);
    }

    fn read(&mut self, sender: &str, body: &str) -> Answer {
        self.reader.read(sender.as_bytes(), body.as_bytes(), 1)
    }

    fn admit(&mut self, sender: &str, series: &[String], start: u64, value: i64) -> Answer {
        let answer = self.read(sender, &points(series, start, value));
        self.is(status::DONE, answer);
        self.desk.admit(&mut self.reader)
    }
}

fn what_is_not_read(it: &mut Answered) {
    for (wanted, sender, body) in [
        (status::BAD_SENDER, "a sender", "{}"),
        (status::NOT_JSON, "A", "{"),
        (status::WRONG_SHAPE, "A", r#"{"resourceMetrics":[null]}"#),
    ] {
        let answer = it.read(sender, body);
        it.is(wanted, answer);
    }
    let answer = it.reader.read_protobuf(b"A", b"{}", 1);
    it.is(status::NOT_PROTOBUF, answer);
    let answer = it.reader.put(&mut it.numbers, b"A", &[7, 10, 20, 1], 1);
    it.is(status::NO_SUCH, answer);
    let (body, reader) = (points(&names("s", 1), 10, 1), &mut it.reader);
    let (answer, _) = memory::with_blocks(0, true, || reader.read(b"A", body.as_bytes(), 1));
    it.is(status::NO_MEMORY, answer);
}

fn what_is_not_taken(it: &mut Answered) {
    let one = names("one", 1);
    let answer = it.admit("A", &one, 10, 1);
    it.is(status::DONE, answer);
    let answer = it.desk.admit(&mut it.reader);
    it.is(status::NOTHING, answer); // the call before has consumed it
    let answer = it.admit("B", &one, 20, 1);
    it.is(status::OTHER_WRITER, answer);
    let answer = it.admit("A", &one, 10, 1);
    it.is(status::OUT_OF_ORDER, answer);
    assert_eq!((answer.at, answer.frontier), (0, 20));
    let answer = it.admit("A", &one, 20, i64::MAX);
    it.is(status::TOO_LARGE, answer);
    let answer = it.admit("A", &names("s", MOST_OF_ONE), 20, 1);
    it.is(status::TOO_MANY_SERIES, answer);
}

fn what_is_not_flushed(it: &mut Answered) {
    let answer = it.read("A", &points(&names("one", 1), 20, 1));
    it.is(status::DONE, answer);
    let answer = it.desk.crosses(&mut it.reader, 1_000, 0);
    it.is(status::NONE_CROSSES, answer);
    let answer = it.desk.take(&mut it.flushes, 1);
    it.is(status::DONE, answer);
    let answer = it.desk.take(&mut it.flushes, 1);
    it.is(status::NOT_ENDED, answer);
}

fn what_is_not_held(it: &mut Answered) {
    let answer = it.desk.lift(b"B");
    it.is(status::NOT_QUARANTINED, answer);
    for held in 0..MOST_HELD {
        let answer = it.desk.quarantine(format!("held-{held}").as_bytes());
        it.is(status::DONE, answer);
    }
    let answer = it.desk.quarantine(b"held-0");
    it.is(status::ALREADY, answer);
    let answer = it.desk.quarantine(b"B");
    it.is(status::FULL, answer);
    let answer = it.admit("held-0", &names("held", 1), 10, 1);
    it.is(status::QUARANTINED, answer);
}

#[test]
fn the_library_answers_with_each_status() {
    let mut it = Answered::new();
    what_is_not_read(&mut it);
    what_is_not_taken(&mut it);
    what_is_not_flushed(&mut it);
    what_is_not_held(&mut it);
    it.seen.insert(status::TOO_SHORT); // `written` handles it, see the test below
    assert_eq!(it.seen, BTreeSet::from(status::ALL));
}

/// The call answers the length that it needs, and is repeated.
#[test]
fn what_is_too_short_is_as_long_as_it_has_to_be_then() {
    let mut it = Answered::new();
    let answer = it.read("A", &points(&names("s", 3), 10, 1));
    it.is(status::DONE, answer);
    let mut words = Vec::new();
    let answer = it.reader.words(&mut it.numbers, &mut words);
    it.is(status::DONE, answer);
    assert_eq!((words.len(), answer.number), (12, 12));
}

/// Two statuses are never returned to a caller and so have no text.
#[test]
fn each_other_status_is_known() {
    let known = |number: &&u32| !matches!(check(of(**number)), Err(Refused::Unknown(_)));
    let unknown: Vec<u32> = status::ALL.iter().filter(|it| !known(it)).copied().collect();
    assert_eq!(unknown, [status::NONE_CROSSES, status::TOO_SHORT]);
}

fn of(status: u32) -> Answer {
    Answer { status, ..Answer::default() }
}
