//! Tests a waiting request that was changed on disk: its delivery stops, with a message, until the file is restored.

use crate::support::{points, until, Place, NO_SINK};
use std::path::PathBuf;

/// The kind of a request's record. A record is its length, a checksum of the rest, its kind, and bytes.
const ITEM: u8 = 18;

/// The position at which the first request of a segment ends.
fn end_of_request(bytes: &[u8]) -> Option<usize> {
    let mut at = 0;
    loop {
        let length = bytes.get(at..at + 4)?;
        let end = at + 8 + u32::from_le_bytes(length.try_into().ok()?) as usize;
        if bytes.get(at + 8) == Some(&ITEM) {
            return Some(end);
        }
        at = end;
    }
}

fn file_of_request(place: &Place) -> (PathBuf, Vec<u8>, usize) {
    let files = std::fs::read_dir(place.data().join("shard-0/outbox")).unwrap();
    let mut found = files.filter_map(|file| {
        let path = file.unwrap().path();
        let bytes = std::fs::read(&path).unwrap();
        let end = end_of_request(&bytes)?;
        Some((path, bytes, end))
    });
    found.next().unwrap()
}

/// Changes a byte of the first request that waits. Returns its file, and what the file had before.
pub fn change_request(place: &Place) -> (PathBuf, Vec<u8>) {
    let (path, sound, end) = file_of_request(place);
    let mut changed = sound.clone();
    changed[end - 1] ^= 1;
    std::fs::write(&path, &changed).unwrap();
    (path, sound)
}

#[test]
fn a_changed_request_is_told_and_its_delivery_goes_on_once_it_is_put_back() {
    let place = Place::new();
    let service = place.serve_with(&["--sink", NO_SINK]);
    assert_eq!(service.post("A", &points(&["a"], 100, 5)).unwrap().0, 200);
    assert_eq!(service.order("/flush").0, 200);
    assert_eq!(service.end(), Some(0));
    let (path, sound) = change_request(&place);
    let service = place.serve_into_another();
    until("it is told", || !service.status()["shards"][0]["stuck"].is_null());
    assert!(service.metrics().contains("totxegun_delivery_stuck 1"));
    let said = service.said(&["status"]);
    assert!(said.contains("the delivery stops: ") && said.contains(path.to_str().unwrap()), "{said}");
    assert_eq!(service.post("A", &points(&["a"], 110, 6)).unwrap().0, 200);
    std::fs::write(&path, &sound).unwrap();
    service.drain();
    assert!(service.status()["shards"][0]["stuck"].is_null());
    assert!(service.metrics().contains("totxegun_delivery_stuck 0"));
    service.has_no_fault();
    assert_eq!(service.end(), Some(0));
    assert_eq!(place.totals(), [("a".to_string(), 11)].into());
}
