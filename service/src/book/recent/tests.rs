//! What is kept of series while no group has them, and when numbers begin anew.

use super::*;
use crate::book::SharedBook;
use crate::otlp::series::SeriesKey;
use bytes::Bytes;

#[test]
fn an_entry_has_sixteen_bytes() {
    assert_eq!(size_of::<Entry>(), 16);
}

fn text(name: &str) -> Bytes {
    crate::book::tests::points(&[name.into()], 10, 1).into()
}

fn key(name: &str) -> SeriesKey {
    only(&text(name)).unwrap()
}

fn point(number: u64, end: u64) -> Points {
    let mut points = Points::default();
    points.push(number, end - 1, end, [5]);
    points
}

/// Otherwise the tables of all earlier numbers would stay in memory as long as a sender is quarantined.
#[test]
fn of_what_is_held_no_earlier_numbers_are_kept() {
    let shared_book = SharedBook::new(1).unwrap();
    let mut book = shared_book.lock();
    let mut names = Names::new().unwrap();
    let held = names.learn(text("held")).unwrap();
    book.recent.note("Q", &names, &point(held, 10));
    let known = book.recent(&names, held);
    assert_eq!(known.len(), 1);
    for round in 0..3 {
        names = Names::new().unwrap();
        let other = names.learn(text("other")).unwrap();
        book.recent.note("B", &names, &point(other, 20 + round));
        let taken = book.changed_recents();
        assert_eq!(book.recent(&names, names.learn(text("held")).unwrap()), known); // no group has it yet
        let noted = taken.by_series(0);
        let owner = |name| noted.recents.by_digest[&key(name).digest()].owner.clone();
        assert_eq!(["held", "other"].map(owner).map(|it| it.unwrap().to_string()), ["Q", "B"]);
        let ids = noted.digests().map(|digest| (*digest != key("held").digest()).then_some(7)).collect();
        book.note_ids(0, noted, ids);
    }
    let held = names.learn(text("held")).unwrap();
    assert_eq!(book.recent(&names, held), known);
    book.changed_recents();
    assert_eq!(book.recent.tables.len(), 1);
}

/// The number of one post says nothing about the next post.
#[test]
fn a_series_without_a_number_that_lasts_has_its_owner_alone() {
    let shared_book = SharedBook::new(1).unwrap();
    let mut book = shared_book.lock();
    let names = Names::of_one_post().unwrap();
    let number = names.learn(text("a")).unwrap();
    let read = shared_book.read_points("A".into(), point(number, 10), names, 0).unwrap();
    book.note_recent(&read, &[]);
    let noted = book.changed_recents().by_series(0);
    let wanted = Noted { owner: Some("A".into()), recent: Recent::default() };
    assert_eq!(noted.recents.by_digest, [(key("a").digest(), wanted)].into());
    let ids = vec![Some(3)];
    book.note_ids(0, noted, ids);
    assert!(book.recent.apart.is_empty());
}
