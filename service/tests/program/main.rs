//! Tests the program itself: owners of series, kills, how many series fit, and what an operator is told.

mod acts;
mod amend;
mod another;
mod begun;
mod held;
mod instance;
mod late;
mod letters;
mod load;
mod log;
mod log_form;
mod memory;
mod numbers;
mod pages;
mod reload;
mod renamed;
mod repeats;
mod sender_attribute;
mod shares;
mod socket;
mod stuck;
mod support;
mod told;
mod unfilled;

use load::Load;
use std::time::Duration;
use support::{points, until, Place, NO_SINK};

fn refused(why: &str) -> (u16, String) {
    (400, format!("{{\"code\":3,\"message\":\"{why}\"}}"))
}

/// With one book and with many, since nothing on disk depends on their number.
#[test]
fn owners_and_frontiers_outlive_kills_and_other_numbers_of_books() {
    let place = Place::new();
    let senders: Vec<String> = (0..12).map(|number| format!("s{number}")).collect();
    let runs = ["8000", "100000", "13", "1000000", "20000"];
    for (run, max_series) in (0..).zip(runs) {
        let sink = format!("sqlite:{}", place.folder.path().join("sink.db").display());
        let mut service = place.serve_with(&["--max-series", max_series, "--sink", &sink]);
        let end = 110 + run * 10;
        for sender in &senders {
            if run > 0 {
                let last = points(&[sender], end - 10, 1);
                assert_eq!(service.post(sender, &last).unwrap(), (200, "{}".into()), "a repeat");
                let late = service.post(sender, &points(&[sender], end - 10, 2)).unwrap();
                let begin = refused(&format!("duplicate or late: point 0, frontier {}: ", end - 10)).1;
                let begin = begin.trim_end_matches("\"}");
                assert!(late.0 == 400 && late.1.starts_with(begin), "{late:?}");
            }
            let taken = service.post(sender, &points(&[sender], end, 1)).unwrap();
            assert_eq!(taken, (200, "{}".into()), "{sender}");
            let other = service.post("other", &points(&[sender], end + 10, 1)).unwrap();
            let wanted = format!(
                "other writer: point 0: `{sender}` {{}} is another sender's, so 1970-01-01T00:00:00.000000Z to \
                 1970-01-01T00:00:00.000000Z is not counted: give each process its own service.instance.id, or, if only this \
                 sender's name has changed, have it renamed"
            );
            assert_eq!(other, refused(&wanted));
        }
        if run % 2 == 0 {
            service.drain();
            assert_eq!(service.series(), 12);
        }
        let page = service.metrics();
        let line = format!("totxegun_series_limit {max_series}");
        assert!(page.lines().any(|it| it == line), "{line} in\n{page}");
        service.has_no_fault();
        // Every other run leaves its posts in the journal alone.
        match run % 2 {
            1 => service.kill(),
            _ => assert_eq!(service.end(), Some(0)),
        }
    }
    let totals = place.totals();
    assert_eq!(totals.len(), 12);
    assert!(totals.values().all(|total| *total == runs.len() as i64), "{totals:?}");
}

#[test]
fn nothing_is_lost_or_doubled_by_kills() {
    let place = Place::new();
    let mut service = place.serve();
    let load = Load::begin(9, 1000);
    load.goes_to(&service);
    for round in 0..8 {
        std::thread::sleep(Duration::from_millis(150 + 70 * (round % 3)));
        service.kill();
        service = place.serve();
        load.goes_to(&service);
    }
    let wanted = load.end();
    service.drain();
    service.has_no_fault();
    assert_eq!(service.end(), Some(0));
    assert_eq!(place.totals(), wanted);
}

#[test]
fn two_senders_at_once_never_share_a_series() {
    let place = Place::new();
    let service = place.serve();
    let mut wanted = std::collections::BTreeMap::new();
    for round in 0..40 {
        let name = format!("n{round}");
        let body = points(&[&name], 100, 1);
        let (service, body) = (&service, &body);
        let answers = std::thread::scope(|scope| {
            let tries =
                ["one", "other"].map(|sender| scope.spawn(move || service.post(sender, body).unwrap()));
            tries.map(|it| it.join().unwrap())
        });
        let mut statuses = answers.map(|(status, _)| status);
        statuses.sort_unstable();
        assert_eq!(statuses, [200, 400]);
        wanted.insert(name, 1);
    }
    service.drain();
    service.has_no_fault();
    assert_eq!(service.end(), Some(0));
    assert_eq!(place.totals(), wanted);
}

/// A single book of the library has room for 10,000.
#[test]
fn there_are_no_more_series_than_may_be() {
    let place = Place::new();
    let service = place.serve_with(&["--sink", &place.sink(), "--max-series", "2000"]);
    let names: Vec<String> = (0..2_100).map(|number| format!("n{number}")).collect();
    let names: Vec<&str> = names.iter().map(String::as_str).collect();
    let post = |names: &[&str], end| service.post("A", &points(names, end, 1)).unwrap();
    for part in names[..2_000].chunks(500) {
        assert_eq!(post(part, 100).0, 200);
    }
    let refused = post(&names[1_990..2_010], 110);
    assert!(refused.0 == 503 && refused.1.contains("too many series"), "{refused:?}");
    until("the log says that it is met", || place.log().contains("max_series=2000"));
    for end in [110, 120] {
        assert_eq!(post(&names[..2_000], end).0, 200, "what is there goes on");
        service.drain();
        assert_eq!((service.series(), post(&names[2_000..], 100).0), (2_000, 503));
    }
    assert_eq!(service.end(), Some(0));
}

/// What ran before must start. Otherwise all its senders would be refused until an operator comes, and nothing
/// delivered.
#[test]
fn a_service_whose_book_was_full_starts_again_as_it_was() {
    let place = Place::new();
    let sink = place.sink();
    let words = ["--sink", &sink, "--max-series", "20000", "--max-memory", "64MiB"];
    let mut service = place.serve_with(&words);
    let long = "x".repeat(400);
    let body = |part: usize, end| {
        let names: Vec<String> = (0..500).map(|number| format!("n{part}.{number}{long}")).collect();
        points(&names.iter().map(String::as_str).collect::<Vec<_>>(), end, 1)
    };
    let mut parts = 0;
    let why = loop {
        match service.post("A", &body(parts, 100)).unwrap() {
            (200, _) => parts += 1,
            other => break other,
        }
    };
    assert!(parts > 5 && why.0 == 503 && why.1.contains("no memory"), "{parts}: {why:?}");
    for run in 1..=3 {
        match run % 2 {
            1 => service.kill(),
            _ => assert_eq!(service.end(), Some(0)),
        }
        service = place.serve_with(&words);
        for part in (0..parts).step_by(7) {
            let answer = service.post_until_answered("A", &body(part, 100 + 10 * run));
            assert_eq!(answer.0, 200, "{run}, {part}: {answer:?}");
        }
    }
    service.drain();
    service.has_no_fault();
    assert_eq!(service.end(), Some(0));
    let totals = place.totals();
    assert_eq!(totals.len(), 500 * parts);
    let wanted = |part: usize| if part.is_multiple_of(7) { 4 } else { 1 };
    assert!((0..parts).all(|part| totals[&format!("n{part}.0{long}")] == wanted(part)));
}

/// A number smaller than the folder's series is refused by name, and changes nothing.
#[test]
fn a_folder_with_more_series_than_fit_is_refused_by_name() {
    let place = Place::new();
    let service = place.serve_with(&["--sink", NO_SINK]);
    let names: Vec<String> = (0..10_500).map(|number| format!("n{number}")).collect();
    let names: Vec<&str> = names.iter().map(String::as_str).collect();
    for part in names.chunks(1_000) {
        assert_eq!(service.post("A", &points(part, 100, 1)).unwrap().0, 200);
    }
    assert_eq!(service.order("/flush").0, 200);
    assert_eq!(service.end(), Some(0));
    let mut small = place.begin(&["--sink", NO_SINK, "--max-series", "8000"]);
    assert_eq!(small.status_of_end(), Some(1));
    let log = place.log();
    assert!(log.contains("too many series") && log.contains("--max-series"), "{log}");
    let service = place.serve_into_another();
    assert_eq!(service.post("A", &points(&names[..1], 110, 1)).unwrap().0, 200);
    service.drain();
    assert_eq!(service.end(), Some(0));
    let totals = place.totals();
    assert_eq!((totals.len(), totals["n0"], totals["n1"]), (10_500, 2, 1));
}

/// Posts get 503 before the memory is used up, what was taken is forwarded, and a start with more memory goes on.
#[test]
fn a_book_without_memory_takes_no_posts_and_forwards_all_that_it_took() {
    let place = Place::new();
    let sink = format!("sqlite:{}", place.folder.path().join("sink.db").display());
    let words = ["--sink", &sink, "--max-series", "20000", "--max-memory", "64MiB"];
    let service = place.serve_with(&words);
    let long = "x".repeat(4_000);
    let mut taken: Vec<String> = Vec::new();
    let why = loop {
        let of_post = |number: usize| format!("n{}{long}", taken.len() + number);
        let names: Vec<String> = (0..20).map(of_post).collect();
        let named: Vec<&str> = names.iter().map(String::as_str).collect();
        match service.post("A", &points(&named, 100, 1)).unwrap() {
            (200, text) if text == "{}" => taken.extend(names),
            other => break other,
        }
        assert!(taken.len() < 20_000, "it never has too little");
    };
    assert!(why.0 == 503 && why.1.contains("no memory"), "{why:?}");
    assert!(taken.len() > 100, "{}", taken.len());
    service.drain();
    service.has_no_fault();
    assert_eq!(service.end(), Some(0));
    let service = place.serve();
    for name in taken.iter().step_by(20) {
        let repeat = service.post("A", &points(&[name], 100, 1)).unwrap();
        // Points that had no room for numbers are late.
        assert!(repeat == (200, "{}".into()) || repeat.0 == 400, "{repeat:?}");
    }
    assert_eq!(service.end(), Some(0));
    let totals = place.totals();
    assert_eq!(totals, taken.into_iter().map(|name| (name, 1)).collect());
}
