//! Gives each request to two books, once as JSON and once by number, and compares them.

use super::*;
use crate::book::{FlushWindow, Read};
use crate::journal;
use crate::journal::Body;
use crate::otlp::{posts_of_test, requests_of_test, taken_of_test, Choice, Clock, FinerUnits, Rule};
use crate::shard::posted::{Posted, RequestReader};
use crate::storage::{Durability, Folder};
use std::collections::HashSet;

mod proved;

struct Both {
    slow: Arc<SharedBook>,
    fast: Arc<SharedBook>,
    numbers: Numbers,
    reading: Arc<Reading>,
    by_number: usize,
    taken: usize,
    foreign: u64,
}

impl Both {
    fn new(reading: Reading) -> Both {
        Both {
            slow: SharedBook::apart(20_000, FlushWindow::None).unwrap(),
            fast: SharedBook::apart(20_000, FlushWindow::None).unwrap(),
            numbers: Numbers::default(),
            reading: Arc::new(reading),
            by_number: 0,
            taken: 0,
            foreign: 0,
        }
    }

    fn post(&mut self, sender: &str, body: Vec<u8>) {
        let body = Bytes::from(body);
        let slow = self.text(&body).and_then(|text| admitted(&self.slow, &self.numbers, sender, text));
        let by_number = self.numbers.read(&self.fast, &body, &self.reading);
        self.by_number += usize::from(by_number.is_some());
        let request = by_number.map_or_else(|| self.text(&body), |by| Ok(by.into()));
        let fast = request.and_then(|request| admitted(&self.fast, &self.numbers, sender, request));
        assert_eq!(fast, slow, "{body:02x?}");
        if let Ok(foreign) = slow {
            (self.taken, self.foreign) = (self.taken + 1, self.foreign + foreign);
        }
    }

    fn text(&self, body: &Bytes) -> Result<Request, String> {
        let prepared = taken_of_test(Encoding::Protobuf, body.clone(), &self.reading);
        prepared.map(|prepared| Request::Text(prepared.body)).map_err(|refused| refused.to_string())
    }

    /// Both forward the same bytes, and their reports are equal. Returns how many requests there were.
    fn flush(&self) -> usize {
        let [slow, fast] = [&self.slow, &self.fast].map(flushed);
        assert_eq!(fast.1, slow.1);
        assert_eq!(fast.0, slow.0);
        fast.0.len()
    }
}

/// The requests of a flush of everything, and the report after it.
fn flushed(shared_book: &Arc<SharedBook>) -> (Vec<Vec<u8>>, String) {
    let mut flushed = shared_book.lock().take_all().unwrap();
    let texts = flushed.texts().unwrap();
    shared_book.lock().settle(flushed).unwrap();
    (texts, String::from_utf8(shared_book.lock().report().unwrap()).unwrap())
}

/// How many points are foreign, or why it was refused.
fn admitted(
    shared_book: &Arc<SharedBook>,
    numbers: &Numbers,
    sender: &str,
    request: Request,
) -> Result<u64, String> {
    let admitted = read(shared_book, numbers, sender, request).and_then(|mut read| {
        shared_book.lock().admit(&mut read)?;
        let is_sound = |points: &Points| points.each().all(|point| 0 < point[1] && point[1] < point[2]);
        assert!(by_number(&read).is_none_or(is_sound), "it is in the journal");
        Ok(read.post.foreign)
    });
    admitted.map_err(|refused| refused.to_string())
}

fn read(
    shared_book: &Arc<SharedBook>,
    numbers: &Numbers,
    sender: &str,
    request: Request,
) -> Result<Read, Refused> {
    let window = Clock::default().window();
    RequestReader { shared_book, numbers, window }
        .read(sender.into(), request)
        .map(|Posted { read, .. }| read)
}

fn by_number(read: &Read) -> Option<&Points> {
    match &read.post.body {
        Body::Text(_) => None,
        Body::Points(points) => Some(points),
    }
}

fn rules(rules: &[&str]) -> FinerUnits {
    let rules = rules.iter().map(|rule| rule.parse::<Rule>().unwrap());
    FinerUnits::new(rules).unwrap()
}

/// The same for texts of both encodings.
#[test]
fn a_text_by_number_is_what_the_library_reads_of_it() {
    let reading = Arc::new(Reading::default());
    let of_protobuf = posts_of_test(11, 2_000).into_iter().flat_map(|body| {
        let prepared = prepare(Encoding::Protobuf, body.into(), &reading);
        prepared.map(|prepared| prepared.body)
    });
    let mut both = Both::new(Reading::default());
    for (number, text) in of_protobuf.chain(requests_of_test(2_000).into_iter().flatten()).enumerate() {
        let sender = ["A", "B"][number / 7 % 2];
        let slow = admitted(&both.slow, &both.numbers, sender, text.clone().into());
        let by_number = both.numbers.read_text(&both.fast, &text).unwrap();
        both.by_number += usize::from(by_number.is_some());
        let fast = match by_number {
            None => admitted(&both.fast, &both.numbers, sender, text.clone().into()),
            // Not by way of its text.
            Some(by) => admitted_as_it_is(&both.fast, sender, deltas(by)),
        };
        assert_eq!(fast, slow, "{text:?}");
        if let Ok(foreign) = slow {
            (both.taken, both.foreign) = (both.taken + 1, both.foreign + foreign);
        }
        if number % 100 == 99 {
            both.flush();
        }
    }
    assert!(both.by_number > 5_000 && both.taken > 2_000, "{} {}", both.by_number, both.taken);
    assert!(both.foreign > 2_000, "{}", both.foreign);
}

/// The points without the cumulative ones, which are foreign to the library.
fn deltas(by: ByNumber) -> ByNumber {
    let mut points = Points::default();
    for (place, point) in (0..).zip(by.points.each()) {
        if !by.cumulative.contains(&place) {
            points.push_words(point[0], &point[1..]);
        }
    }
    let foreign = by.foreign + by.cumulative.len() as u64;
    ByNumber { points, foreign, ..by }
}

fn admitted_as_it_is(shared_book: &Arc<SharedBook>, sender: &str, by: ByNumber) -> Result<u64, String> {
    let read = shared_book.read_points(sender.into(), by.points, by.names, by.foreign);
    let admitted = read.and_then(|mut read| {
        assert_eq!(read.post.foreign, by.foreign, "the library finds no other foreign");
        shared_book.lock().admit(&mut read)?;
        Ok(read.post.foreign)
    });
    admitted.map_err(|refused| refused.to_string())
}

/// Each request is read as JSON by the library, by number, and as a start reads what the journal has of it.
#[test]
fn what_a_text_goes_by_is_what_it_says() {
    let reading = Arc::new(Reading::default());
    let of_protobuf = posts_of_test(21, 1_500).into_iter().flat_map(|body| {
        let prepared = prepare(Encoding::Protobuf, body.into(), &reading);
        prepared.map(|prepared| prepared.body)
    });
    let (mut both, again) =
        (Both::new(Reading::default()), SharedBook::apart(20_000, FlushWindow::None).unwrap());
    let start = Names::new().unwrap();
    for (number, text) in of_protobuf.chain(requests_of_test(2_000).into_iter().flatten()).enumerate() {
        let sender = ["A", "B"][number / 7 % 2];
        let as_text = both.slow.read(sender.into(), text.clone());
        let slow = as_text.and_then(|mut read| both.slow.lock().admit(&mut read).map(|()| read.post.foreign));
        let fast = read(&both.fast, &both.numbers, sender, text.clone().into());
        let fast = fast.and_then(|mut read| both.fast.lock().admit(&mut read).map(|()| read));
        assert_eq!(fast.as_ref().map(|read| read.post.foreign), slow.as_ref().copied(), "{text:?}");
        if let Ok(fast) = fast {
            let mut replayed = replayed(&again, &start, &fast);
            assert_eq!(again.lock().admit(&mut replayed), Ok(()), "{text:?}");
            assert_eq!(replayed.post.foreign, fast.post.foreign);
            (both.taken, both.foreign) = (both.taken + 1, both.foreign + fast.post.foreign);
        }
        if number % 100 == 99 {
            let [slow, fast, again] =
                [&both.slow, &both.fast, &again].map(|shared_book| flushed(shared_book).0);
            assert!(slow == fast && slow == again);
        }
    }
    assert!(both.taken > 2_000 && both.foreign > 2_000, "{} {}", both.taken, both.foreign);
}

/// Reads a post by the names that a start makes of those in the journal.
fn replayed(shared_book: &Arc<SharedBook>, start: &Arc<Names>, read: &Read) -> Read {
    let mut own = Points::default();
    for point in by_number(read).unwrap().each() {
        let number = start.learn(read.names().text(point[0])).unwrap();
        own.push_words(number, &point[1..]);
    }
    let sender = read.post.sender.clone();
    shared_book.read_points(sender, own, start.clone(), read.post.foreign).unwrap()
}

/// If there is no room for its series a text stays text, unless it has points of several hours.
#[test]
fn a_text_stays_one_where_there_is_no_room_for_its_series() {
    const HOUR: u64 = 3_600_000_000_000;
    let point =
        |end: u64| format!(r#"{{"asInt":"5","startTimeUnixNano":"{}","timeUnixNano":"{end}"}}"#, end - 1);
    let text = |ends: &[u64]| {
        let points: Vec<String> = ends.iter().map(|end| point(*end)).collect();
        let sum = format!(r#"{{"aggregationTemporality":1,"dataPoints":[{}]}}"#, points.join(","));
        format!(r#"{{"resourceMetrics":[{{"scopeMetrics":[{{"metrics":[{{"name":"a","sum":{sum}}}]}}]}}]}}"#)
    };
    let shared_book = SharedBook::new(1).unwrap();
    for (bytes, one_hour, two_hours) in [(0, 0, 2), (1 << 10, 1, 2)] {
        let limits = Limits { bytes, kept: Duration::from_secs(60) };
        let numbers = Numbers { limits, ..Numbers::default() };
        for (ends, wanted) in [(&[5][..], one_hour), (&[5, HOUR + 5], two_hours), (&[7], one_hour)] {
            let read = read(&shared_book, &numbers, "A", Bytes::from(text(ends)).into()).unwrap();
            assert_eq!(by_number(&read).map_or(0, Points::count), wanted, "{bytes} bytes, {ends:?}");
        }
    }
}

/// If there is room for few series, the text gets numbers of its own.
#[test]
fn a_text_has_numbers_also_where_there_is_no_room_for_them() {
    let shared_book = SharedBook::new(1).unwrap();
    let numbers =
        Numbers { limits: Limits { bytes: 0, kept: Duration::from_secs(60) }, ..Numbers::default() };
    let text = requests_of_test(20).into_iter().flatten().max_by_key(Bytes::len).unwrap();
    let generation = |by: &ByNumber| journal::Names::generation(&*by.names);
    let [one, other] = [(); 2].map(|()| numbers.read_text(&shared_book, &text).unwrap().unwrap());
    assert!(one.points.count() > 0);
    assert_eq!(one.points, other.points);
    assert_ne!(generation(&one), generation(&other));
}

/// Otherwise a post of 4 MiB could need gigabytes for them: each of its series has all attributes that its points
/// share.
#[test]
fn numbers_of_one_post_alone_have_a_bound_too() {
    const HOUR: u64 = 3_600_000_000_000;
    let limits = Limits { bytes: 0, kept: Duration::from_secs(60) };
    let numbers = Numbers { limits, most_of_one: 100 << 10, ..Numbers::default() };
    let shared_book = SharedBook::new(1).unwrap();
    let text = |series: u64, apart: u64| {
        let point = |number: u64| {
            let end = 5 + apart * (number % 2);
            let attributes = format!(r#"[{{"key":"{number}","value":{{"intValue":"1"}}}}]"#);
            format!(
                r#"{{"asInt":"5","attributes":{attributes},"startTimeUnixNano":"{}","timeUnixNano":"{end}"}}"#,
                end - 1
            )
        };
        let points = (0..series).map(point).collect::<Vec<String>>().join(",");
        let (name, sum) =
            ("n".repeat(4000), format!(r#"{{"aggregationTemporality":1,"dataPoints":[{points}]}}"#));
        Bytes::from(format!(
            r#"{{"resourceMetrics":[{{"scopeMetrics":[{{"metrics":[{{"name":"{name}","sum":{sum}}}]}}]}}]}}"#
        ))
    };
    let by_number = |series| {
        let read = numbers.read_text(&shared_book, &text(series, 0));
        read.map(|by| by.map_or(0, |by| by.points.count()))
    };
    assert_eq!((by_number(5), by_number(50)), (Ok(5), Err(Refused::LongSeries)));
    let of_two_hours = |series| {
        let request = text(series, HOUR).into();
        read(&shared_book, &numbers, "A", request).map(|read| read.parts())
    };
    assert_eq!((of_two_hours(10), of_two_hours(50)), (Ok(2), Err(Refused::LongSeries)));
}

/// Otherwise many such posts at once could use up the room that the disk keeps back.
#[test]
fn a_post_asks_for_the_room_that_it_takes_in_the_journal() {
    const HEAD: u64 = 80; // of its record, and of the durable watermark before it
    const NAME: u64 = 16; // the record of a name, without its text
    let place = tempfile::tempdir().unwrap();
    let folder = Folder::open(place.path(), Durability::Process).unwrap();
    let (journal, _) = folder.shard().unwrap();
    let segment = place.path().join("shard-0/journal/000000000001.seg");
    let written = || std::fs::metadata(&segment).unwrap().len();
    let (reading, mut by) = (Arc::new(Reading::default()), [0; 2]);
    for body in posts_of_test(10, 300).into_iter().map(Bytes::from) {
        // Fresh numbers, so that the journal defines all their names.
        let (shared_book, numbers, own) =
            (SharedBook::new(1).unwrap(), Numbers::default(), Numbers::default());
        let text = prepare(Encoding::Protobuf, body.clone(), &reading).map(|prepared| prepared.body.into());
        let by_number = own.read(&shared_book, &body, &reading).map(Request::from);
        let requests = [(false, by_number), (true, text.ok())].into_iter();
        let requests = requests.filter_map(|(is_text, request)| Some((is_text, request?)));
        for (is_text, request) in requests {
            let Ok(read) = read(&shared_book, &numbers, "A", request) else {
                continue;
            };
            let names: HashSet<u64> = read.post.numbers().collect();
            let (before, asked) = (written(), read.bytes() as u64);
            journal.write(journal.append(&read.post, read.names())).unwrap();
            let (took, heads) = (written() - before, HEAD + NAME * names.len() as u64);
            assert!(took <= asked + heads, "{took} > {asked} + {heads}: {body:02x?}");
            by[usize::from(is_text)] += u64::from(!names.is_empty());
        }
    }
    assert!(by.iter().all(|number| *number >= 50), "{by:?}");
}

/// If there is room for few series.
#[test]
fn numbers_begin_anew_and_posts_under_way_keep_theirs() {
    let mut both = Both::new(Reading::default());
    both.numbers.limits = Limits { bytes: 1, kept: Duration::ZERO };
    let first = Bytes::from(posts_of_test(9, 1).remove(0));
    let mut generations = HashSet::new();
    for (number, body) in posts_of_test(8, 2_000).into_iter().enumerate() {
        let under_way = both.numbers.read(&both.fast, &first, &both.reading);
        both.post(["A", "B"][number / 7 % 2], body);
        let now = both.numbers.now(&both.fast).unwrap();
        generations.insert(journal::Names::generation(&*now.names));
        let points = under_way.and_then(|by| read(&both.fast, &both.numbers, "C", by.into()).ok());
        let wanted = read(&both.slow, &both.numbers, "C", both.text(&first).unwrap()).unwrap();
        assert!(points.is_none_or(|read| read.post.foreign == wanted.post.foreign));
        if number % 100 == 99 {
            both.flush();
        }
    }
    assert!(generations.len() > 20, "{}", generations.len());
    assert!(both.by_number > 1_000, "{}", both.by_number);
}

#[test]
fn what_goes_by_number_is_what_its_json_says() {
    let dropping = Reading { dropped: vec!["a".into(), "long name".into()], ..Reading::default() };
    let finer = Reading { finer_units: rules(&["s=us", "a\"b=3:c"]), ..Reading::default() };
    let all_finer = Reading { finer_units: rules(&["=", "s"]), ..Reading::default() };
    let decided = Reading { finer_units: FinerUnits::of([Choice::Auto]).unwrap(), ..Reading::default() };
    for (reading, seed, least) in [
        (Reading::default(), 3, 0.5),
        (Reading::default(), 4, 0.5),
        (dropping, 5, 0.5),
        (finer, 6, 0.05),
        (all_finer, 7, 0.0),
        (decided, 8, 0.2),
    ] {
        const POSTS: usize = 3_000;
        let (mut both, mut requests) = (Both::new(reading), 0);
        for (number, body) in posts_of_test(seed, POSTS).into_iter().enumerate() {
            both.post(["A", "B"][number / 7 % 2], body);
            if number % 100 == 99 {
                requests += both.flush();
            }
        }
        let share = both.by_number as f64 / POSTS as f64;
        eprintln!("{share} by number, {} taken, {} foreign, {requests} requests", both.taken, both.foreign);
        assert!(share >= least && (least > 0.0 || both.by_number == 0), "{share}");
        assert!(both.taken > POSTS / 4 && both.foreign > POSTS as u64 && requests > 20);
    }
}
