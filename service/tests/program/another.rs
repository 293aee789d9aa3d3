//! Tests a lost setting of the sink, for example because its file was lost.

use crate::support::{points, Place, NO_SINK};

#[test]
fn a_lost_setting_delivers_nothing_into_another_sink() {
    let place = Place::new();
    let service = place.serve_with(&["--sink", NO_SINK]);
    assert_eq!(service.post("A", &points(&["a"], 100, 5)).unwrap().0, 200);
    assert_eq!(service.order("/flush").0, 200);
    assert_eq!(service.end(), Some(0));
    let mut lost = place.begin(&[]);
    assert_eq!(lost.status_of_end(), Some(1));
    let said = "this folder delivers to otlp http://127.0.0.1:9/v1/metrics, but --sink is now sqlite ";
    let log = place.log();
    assert!(log.contains(said) && log.contains("waiting requests: 1."), "{log}");
    assert!(!place.data().join("metrics.db").exists());
    let service = place.serve_into_another();
    service.drain();
    assert_eq!(service.end(), Some(0));
    assert!(place.log().contains("--new-sink: from now on everything is delivered to this sink"));
    assert_eq!(place.totals(), [("a".to_string(), 5)].into());
    assert_eq!(place.serve().end(), Some(0));
}

/// Otherwise the next start, without the option, would find another sink than the folder has.
#[test]
fn a_start_that_fails_for_its_journal_leaves_the_sink_as_it_was() {
    let place = Place::new();
    let mut service = place.serve_with(&["--flush-interval", "1h", "--sink", NO_SINK]);
    assert_eq!(service.post("A", &points(&["a"], 100, 5)).unwrap().0, 200);
    service.kill();
    let version = || std::fs::read_to_string(place.data().join("version")).unwrap();
    let before = version();
    for segment in std::fs::read_dir(place.data().join("shard-0/journal")).unwrap() {
        std::fs::remove_file(segment.unwrap().path()).unwrap();
    }
    assert_eq!(place.begin(&["--new-sink", "--sink", &place.sink()]).status_of_end(), Some(70));
    assert_eq!(version(), before);
    assert!(!place.folder.path().join("sink.db").exists());
    assert!(!place.log().contains("--new-sink: from now on"));
}
