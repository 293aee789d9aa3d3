//! Tests a start whose book has too little memory for the journal: the service does everything but take posts.

use crate::support::{points, until, Place, NO_SINK};

/// A book with these series needs more memory than the next one may have.
const SERIES: usize = 60_000;
const OF_A_POST: usize = 1_000;

/// Otherwise an operator who gave too little memory would get no status, and the sink would wait for what is flushed
/// already.
#[test]
fn a_start_without_memory_for_its_journal_delivers_and_shows_and_takes_no_posts() {
    let place = Place::new();
    let sink = place.sink();
    let start = |sink: &[&str], memory: &str| {
        let words = ["--max-series", "64000", "--flush-interval", "1h", "--max-memory", memory];
        place.begin(&[sink, &words].concat())
    };
    let mut first = start(&["--sink", NO_SINK], "160MiB");
    until("it is ready", || first.is_ready());
    assert_eq!(first.post("A", &points(&["flushed"], 100, 7)).unwrap().0, 200);
    assert_eq!(first.order("/flush").0, 200);
    let names: Vec<String> = (0..SERIES).map(|number| format!("m{number}")).collect();
    let names: Vec<&str> = names.iter().map(String::as_str).collect();
    for names in names.chunks(OF_A_POST) {
        assert_eq!(first.post("A", &points(names, 100, 5)).unwrap().0, 200);
    }
    first.kill();

    let second = start(&["--new-sink", "--sink", &sink], "64MiB");
    let why = "takes no posts until the service is restarted";
    until("the log says so", || place.log().contains(why));
    assert!(place.log().contains("raise --max-memory"), "{}", place.log());
    let (status, text) = second.post("A", &points(&["m1"], 200, 5)).unwrap();
    assert!(status == 503 && text.contains("the book does not take what the journal has"), "{status} {text}");
    let (status, text) = second.asked_for("/readyz").unwrap();
    assert!(status == 503 && text.contains("no memory"), "{status} {text}");
    let (status, text) = second.order("/flush");
    assert!(status == 503 && text.contains("no memory"), "{status} {text}");
    assert!(
        second.said(&["status"]).contains("no memory: the book does not take"),
        "{}",
        second.said(&["status"])
    );
    until("what was flushed is delivered", || place.totals_if_any().get("flushed") == Some(&7));
    assert_eq!(second.end(), Some(0));

    // With as much memory as before, all of it is there.
    let third = start(&["--sink", &sink], "160MiB");
    let mut seen = Vec::new();
    until("it has started", || {
        let (status, text) = third.asked_for("/startupz").unwrap_or_default();
        if status == 503 {
            seen.push(text);
        }
        status == 200
    });
    let says_how_far =
        |text: &String| text.contains("recovering: ") && text.contains(" of the journal so far, which has ");
    assert!(!seen.is_empty() && seen.iter().all(says_how_far), "{seen:?}");
    until("it is ready", || third.is_ready());
    third.drain();
    third.has_no_fault();
    let totals = place.totals();
    assert_eq!((totals.len(), totals["m0"], totals["m59999"]), (SERIES + 1, 5, 5));
    assert_eq!(third.end(), Some(0));
}
