//! Calls that may answer `NO_MEMORY`, at the largest sizes: with enough memory they do not answer so, and do their
//! work. No contract can state that. `service/wrong` has a library for each call that answers so anyway.

use super::library::{Names as Numbers, Reader};
use super::*;

/// The longest request.
const MOST_BYTES: usize = 4_194_304;
/// The most series of one book, and the default limit of all, in so many books.
const MOST_OF_ONE: usize = 10_000;
const MOST: usize = 100_000;
const BOOKS: usize = MOST.div_ceil(SERIES_OF_A_BOOK);
/// The most senders that can be quarantined.
const MOST_HELD: usize = 1_000;
/// About as many points of one series as fit in a request.
const MANY: u64 = 60_000;
/// Nearly the longest name: a thousand of them nearly fill a request.
const LONG: usize = 3_900;

/// A request with so many consecutive points of each of these sums.
fn request(names: &[String], start: u64, count: u64) -> String {
    let point = |at| format!(r#"{{"asInt":1,"startTimeUnixNano":{at},"timeUnixNano":{}}}"#, at + 1);
    let points: Vec<String> = (start..start + count).map(point).collect();
    let points = points.join(",");
    let sum = format!(r#""sum":{{"aggregationTemporality":1,"dataPoints":[{points}]}}"#);
    let metrics: Vec<String> = names.iter().map(|name| format!(r#"{{"name":"{name}",{sum}}}"#)).collect();
    let metrics = metrics.join(",");
    format!(r#"{{"resourceMetrics":[{{"scopeMetrics":[{{"metrics":[{metrics}]}}]}}]}}"#)
}

/// The same request, padded to the longest one.
fn at_its_longest(body: String) -> String {
    let spaces = " ".repeat(MOST_BYTES - body.len());
    body + &spaces
}

/// The same request with a field that is nested too deep for the reader without a tree.
fn nested(body: &str) -> String {
    let (open, close) = ("[".repeat(101), "]".repeat(101));
    body.replacen('{', &format!(r#"{{"x":{open}{close},"#), 1)
}

fn long_names(count: usize) -> Vec<String> {
    names(&"z".repeat(LONG), count)
}

fn number(answer: Answer) -> usize {
    check(answer).unwrap().number as usize
}

/// A desk that has a point of each of these series, from small posts.
fn desk_with(books: usize, series: &[String]) -> (Desk, Reader) {
    let (mut desk, mut reader) = (Desk::new(books).unwrap(), Reader::new().unwrap());
    for some in series.chunks(100) {
        number(reader.read(b"A", request(some, 10, 1).as_bytes(), books));
        check(desk.admit(&mut reader)).unwrap();
    }
    assert_eq!(desk.series(), series.len());
    (desk, reader)
}

#[test]
fn what_a_service_begins_with_is_made() {
    assert!(Desk::new(MOST_SERIES.div_ceil(SERIES_OF_A_BOOK)).is_some());
    let others = (Reader::new(), Numbers::new(), Flushes::new());
    assert!(matches!(others, (Some(_), Some(_), Some(_))));
}

#[test]
fn the_longest_texts_are_read() {
    let mut reader = Reader::new().unwrap();
    let one = names("s", 1);
    let bodies = [
        (request(&one, 10, 1_000), 1_000),
        (request(&one, 10, MANY), MANY as usize),
        (request(&names("s", 2_000), 10, 30), 60_000),
        (request(&long_names(1_000), 10, 1), 1_000),
    ];
    for (body, count) in bodies {
        for text in [nested(&body), body] {
            let text = at_its_longest(text);
            assert_eq!(text.len(), MOST_BYTES);
            assert_eq!(number(reader.read(b"A", text.as_bytes(), BOOKS)), count);
        }
    }
}

/// Gives numbers to all series of a request; returns how many there are then.
fn numbered(numbers: &mut Numbers, reader: &mut Reader, series: &[String]) -> usize {
    number(reader.read(b"A", request(series, 1, 1).as_bytes(), BOOKS));
    let mut words = Vec::new();
    let answer = check(reader.words(numbers, &mut words)).unwrap();
    assert_eq!(words.len(), 4 * series.len());
    answer.at as usize
}

#[test]
fn so_many_series_get_numbers_and_have_names() {
    let (mut numbers, mut reader) = (Numbers::new().unwrap(), Reader::new().unwrap());
    for (some, before) in names("s", MOST).chunks(1_000).zip((0..).step_by(1_000)) {
        assert_eq!(numbered(&mut numbers, &mut reader, some), before + 1_000);
    }
    for name in [0, MOST - 1] {
        assert!(number(numbers.text(name as u64, &mut Vec::new())) > 100);
    }
}

#[test]
fn many_points_are_read_by_number() {
    let (mut numbers, mut reader) = (Numbers::new().unwrap(), Reader::new().unwrap());
    assert_eq!(numbered(&mut numbers, &mut reader, &names("s", 1_000)), 1_000);
    let of_all = (0..MANY).flat_map(|point| [point % 1_000, 10 + point, 11 + point, 1]);
    let of_one = (0..MANY).flat_map(|point| [7, 10 + point, 11 + point, 1]);
    let of_each = (0..1_000).flat_map(|series| [series, 10, 20, 1]);
    for words in [of_all.collect::<Vec<u64>>(), of_one.collect(), of_each.collect()] {
        let count = words.len() / 4;
        assert_eq!(number(reader.put(&mut numbers, b"A", &words, BOOKS)), count);
    }
}

#[test]
fn posts_of_many_points_are_tried_and_taken() {
    let one = names("one", 1);
    let posts = [
        (BOOKS, request(&one, 10, MANY), 1),
        (BOOKS, request(&names("thirty", 2_000), 10, 30), 2_000),
        (BOOKS, request(&long_names(1_000), 10, 1), 1_000),
        (BOOKS, request(&names("s", 30_000), 10, 1), 30_000),
        (1, request(&names("s", MOST_OF_ONE), 10, 1), MOST_OF_ONE),
    ];
    let mut reader = Reader::new().unwrap();
    for (books, body, series) in posts {
        let mut desk = Desk::new(books).unwrap();
        for call in [Desk::try_admit, Desk::admit] {
            number(reader.read(b"A", body.as_bytes(), books));
            assert_eq!(check(call(&mut desk, &mut reader)).map(drop), Ok(()), "{series} series");
        }
        assert_eq!(desk.series(), series);
    }
}

#[test]
fn all_is_taken_of_the_most_series() {
    let (mut desk, mut reader) = desk_with(BOOKS, &names("s", MOST));
    let mut flushes = Flushes::new().unwrap();
    for end in [Desk::give_back as fn(&mut Desk, &mut Flushes) -> Answer, Desk::settle] {
        assert_eq!(number(desk.take(&mut flushes, MAX_TAKEN)), BOOKS);
        let series: u64 = (0..BOOKS).map(|book| check(flushes.text(book)).unwrap().at).sum();
        assert_eq!(series, 1_000 * BOOKS as u64);
        assert_eq!(check(end(&mut desk, &mut flushes)).map(drop), Ok(()));
    }
    for book in 0..BOOKS {
        assert!(desk.close_round(book), "book {book}");
    }
    number(reader.read(b"A", request(&names("s", 100), 20, 1).as_bytes(), BOOKS));
    assert_eq!(check(desk.admit(&mut reader)).map(drop), Ok(()));
}

#[test]
fn one_book_is_taken_of_the_most_series() {
    let (mut desk, _) = desk_with(BOOKS, &names("s", MOST));
    let mut flushes = Flushes::new().unwrap();
    for book in 0..BOOKS {
        assert_eq!(number(desk.take_book(&mut flushes, book, MAX_TAKEN)), 1);
        assert_eq!(check(flushes.text(0)).unwrap().at, 1_000);
        check(desk.settle(&mut flushes)).unwrap();
    }
}

#[test]
fn the_longest_request_is_written() {
    let (mut desk, _) = desk_with(1, &long_names(1_000));
    let mut flushes = Flushes::new().unwrap();
    assert_eq!(number(desk.take(&mut flushes, MAX_TAKEN)), 1);
    let text = check(flushes.text(0)).unwrap();
    assert!(text.at == 1_000 && text.number as usize > 1_000 * LONG, "{text:?}");
    assert!(flushes.copy(&mut vec![0; text.number as usize]));
}

#[test]
fn the_longest_reports_are_written() {
    let mut flushes = Flushes::new().unwrap();
    let (mut desk, _) = desk_with(1, &long_names(1_000));
    assert!(number(desk.report(&mut flushes, 0)) > 1_000 * LONG);
    let (mut desk, _) = desk_with(1, &names("s", MOST_OF_ONE));
    let mut text = vec![0; number(desk.report(&mut flushes, 0))];
    assert!(flushes.copy(&mut text));
    let lines = text.split(|byte| *byte == b'\n');
    assert_eq!(lines.filter(|line| line.starts_with(b"series s")).count(), MOST_OF_ONE);
}

#[test]
fn rounds_with_the_most_series_are_closed() {
    let (mut desk, mut reader) = desk_with(1, &names("s", MOST_OF_ONE));
    for start in [20, 30] {
        assert!(desk.close_round(0));
        number(reader.read(b"A", request(&names("s", 1), start, 1).as_bytes(), 1));
        assert_eq!(check(desk.admit(&mut reader)).map(drop), Ok(()));
    }
    assert_eq!(desk.series(), MOST_OF_ONE);
}

#[test]
fn so_many_senders_are_quarantined_and_released() {
    let mut desk = Desk::new(BOOKS).unwrap();
    let senders = names("h", MOST_HELD);
    for sender in &senders {
        let held = check(desk.quarantine(sender.as_bytes())).map(drop);
        assert_eq!(held, Ok(()), "{sender}");
    }
    let one_more = check(desk.quarantine(b"i")).map(drop);
    assert_eq!(one_more, Err(Refused::Full));
    for book in 0..BOOKS {
        assert!(desk.close_round(book), "book {book}");
    }
    for sender in &senders {
        let released = check(desk.lift(sender.as_bytes())).map(drop);
        assert_eq!(released, Ok(()), "{sender}");
    }
}
