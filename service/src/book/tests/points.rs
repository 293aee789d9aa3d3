//! Points by number: what they mean, what is refused, and what is parsed again.

use super::*;
use crate::otlp::series::only;
use std::collections::BTreeSet;

/// Names for the sums with these names, in this order.
pub(super) fn named(all: &[String]) -> Arc<Names> {
    let names = Names::new().unwrap();
    for (number, name) in (0..).zip(all) {
        let request = points(std::slice::from_ref(name), 1, 0);
        assert_eq!(names.learn(request.into()), Ok(number));
    }
    names
}

/// Points of sums with these numbers, all with the same span and value.
fn of(numbers: impl IntoIterator<Item = u64>, start: u64, value: i64) -> Points {
    let mut all = Points::default();
    for number in numbers {
        all.push(number, start, start + 10, [value as u64]);
    }
    all
}

fn put(
    shared_book: &Arc<SharedBook>,
    names: &Arc<Names>,
    sender: &str,
    points: Points,
) -> Result<u64, Refused> {
    let mut read = shared_book.read_points(sender.into(), points, names.clone(), 1)?;
    let mut book = shared_book.lock();
    book.admit(&mut read)?;
    book.note_recent(&read, &[]);
    Ok(read.post.foreign - 1)
}

#[test]
fn points_by_number_are_those_of_their_requests() {
    for series in [1, 80_000] {
        let shared_book = SharedBook::new(series).unwrap();
        let all = names("s", 30);
        let by = named(&all);
        assert_eq!(put(&shared_book, &by, "A", of(0..30, 10, 5)), Ok(0));
        // The same series as text.
        assert_eq!(post(&shared_book, "A", &points(&all, 20, 6)), Ok(0));
        let late = Err(Refused::OutOfOrder { point: 0, frontier: 30 });
        assert_eq!(put(&shared_book, &by, "A", of(0..30, 20, 6)), late);
        assert_eq!(post(&shared_book, "B", &points(&names("t", 2), 10, 1)), Ok(0));
        let mixed = named(&[&names("t", 2)[..], &all[..2]].concat());
        let other = Err(Refused::OtherWriter { point: 2 });
        assert_eq!(put(&shared_book, &mixed, "B", of(0..4, 40, 6)), other);
        assert_eq!(put(&shared_book, &by, "a b", of(0..1, 40, 6)), Err(Refused::BadSender));
        assert_eq!(put(&shared_book, &by, "A", of([30], 40, 6)), Err(Refused::NoSuch));
        assert_eq!(put(&shared_book, &by, "A", Points::default()), Ok(0));
        // Spans that end before they begin, and one that begins at 0.
        let mut faulty = of([0], 40, 1);
        faulty.push(1, 50, 50, [1]);
        faulty.push(2, 0, 50, [1]);
        assert_eq!(put(&shared_book, &by, "A", faulty), Ok(2));
        assert_eq!(shared_book.lock().series(), 32);
        let taken = taken(&shared_book);
        assert_eq!(taken["s0"], (12, 50));
        assert!(all[1..].iter().all(|name| taken[name] == (11, 30)), "{taken:?}");
    }
}

/// The book itself names only the first such point.
#[test]
fn each_point_that_its_series_refuses_is_known() {
    for series in [1, 80_000] {
        let shared_book = SharedBook::new(series).unwrap();
        let by = named(&names("s", 4));
        assert_eq!(put(&shared_book, &by, "A", of([0, 2], 10, 5)), Ok(0));
        assert_eq!(put(&shared_book, &by, "B", of([3], 10, 5)), Ok(0));
        let mut points = of(0..4, 15, 6);
        for (number, start) in [(1, 20), (1, 25), (0, 20), (3, 40), (0, 29)] {
            points.append(&of([number], start, 7));
        }
        let mut read = shared_book.read_points("A".into(), points, by.clone(), 0).unwrap();
        let late = Refused::OutOfOrder { point: 0, frontier: 20 };
        assert_eq!(shared_book.lock().admit(&mut read), Err(late));
        let late = |frontier, is_by_post| Some(PointRefusal::OutOfOrder { frontier, is_by_post });
        let other = Some(PointRefusal::OtherWriter);
        let wanted = [
            late(20, false),
            None,
            late(20, false),
            other,
            late(25, true),
            None,
            None,
            other,
            late(30, true),
        ];
        assert_eq!(shared_book.lock().point_refusals(&mut read), Ok(wanted.to_vec()));
        assert_eq!(shared_book.lock().series(), 3, "nothing of it is kept");
        assert_eq!(put(&shared_book, &by, "B", of([1], 20, 1)), Ok(0));
        assert_eq!(put(&shared_book, &by, "A", of([0, 2], 20, 1)), Ok(0));
        // So many trials do not fit into one round.
        let mut read = shared_book.read_points("A".into(), of([0, 2], 15, 6), by.clone(), 0).unwrap();
        for _ in 0..20_000 {
            assert_eq!(shared_book.lock().point_refusals(&mut read), Ok(vec![late(30, false); 2]));
        }
        assert_eq!(taken(&shared_book)["s0"], (6, 30));
    }
}

/// If something refuses the whole post, no point is refused for its series.
#[test]
fn what_refuses_a_whole_post_is_no_refusal_of_a_point() {
    let shared_book = SharedBook::new(1).unwrap();
    let by = named(&names("s", 2));
    assert_eq!(put(&shared_book, &by, "A", of([0], 10, i64::MAX)), Ok(0));
    assert_eq!(shared_book.lock().quarantine("B"), Ok(()));
    for (sender, wanted) in [("A", Refused::TooLarge), ("B", Refused::Quarantined)] {
        let mut read = shared_book.read_points(sender.into(), of([1, 0], 20, 6), by.clone(), 0).unwrap();
        assert_eq!(shared_book.lock().point_refusals(&mut read), Err(wanted));
    }
    assert_eq!(shared_book.lock().series(), 1);
}

#[test]
fn only_a_request_of_one_point_names_a_series() {
    let names = Names::new().unwrap();
    let gauge =
        "{\"resourceMetrics\":[{\"scopeMetrics\":[{\"metrics\":[{\"gauge\":{\"dataPoints\":[{}]}}]}]}]}";
    let two = points(&super::names("s", 2), 1, 0);
    for request in [gauge, "{}", &two] {
        assert_eq!(names.learn(request.to_string().into()), Err(Refused::NotOne));
    }
    assert_eq!(names.learn("x".into()), Err(Refused::NotJson));
    let one = Bytes::from(points(&super::names("s", 1), 1, 0));
    assert_eq!((names.learn(one.clone()), names.learn(one.clone())), (Ok(0), Ok(0)));
    use crate::journal::Names as _;
    assert_eq!((names.text(0), names.text(1)), (one, Bytes::new()));
    assert_ne!(names.generation(), Names::new().unwrap().generation());
}

/// Otherwise a start would not know what the series' run had come to, and its next point would count that twice.
#[test]
fn a_request_that_is_not_kept_is_said_also_where_a_block_is_refused() {
    use crate::journal::Names as _;
    let names = Names::new().unwrap();
    let one = points(&super::names("s", 1), 1, 0);
    assert_eq!(names.number_of(one.as_bytes()), Ok(0));
    let text = names.text(0);
    assert_eq!(only(&text), only(one.as_bytes()));
    assert_eq!(memory::with_blocks(0, false, || names.text(0)), (text, false));
}

/// Otherwise the sender would get 503 for ever.
#[test]
fn points_by_number_are_read_again_once_a_round_is_closed() {
    let shared_book = SharedBook::new(1).unwrap();
    let by = named(&names("a", 1));
    for (start, value) in [(10, i64::MAX), (20, -9)] {
        assert_eq!(put(&shared_book, &by, "A", of([0], start, value)), Ok(0));
    }
    assert_eq!(taken(&shared_book), [("a0".into(), (i64::MAX - 9, 30))].into());
    assert_eq!(put(&shared_book, &by, "A", of([0], 30, 10)), Ok(0));
    assert_eq!(shared_book.lock().rounds_closed(), 1);
    assert_eq!(taken(&shared_book), [("a0".into(), (10, 40))].into());
}

#[test]
fn a_block_that_is_refused_names_nothing_and_reads_nothing() {
    let shared_book = SharedBook::new(24_000).unwrap();
    let all = names("s", 20);
    let by = named(&all);
    let one = Bytes::from(points(&names("t", 1), 1, 0));
    let (blocks, number) = each_block_fails(true, || by.learn(one.clone()));
    assert!(blocks > 5, "{blocks} blocks to name");
    use crate::journal::Names as _;
    assert_eq!((number, by.text(20), by.text(21)), (20, one, Bytes::new()));
    let read = || shared_book.read_points("A".into(), of(0..21, 10, 5), by.clone(), 0);
    let (blocks, mut read) = each_block_fails(true, read);
    assert!(blocks > 3, "{blocks} blocks to read");
    shared_book.lock().admit(&mut read).unwrap();
    assert_eq!(taken(&shared_book).len(), 21);
}

/// Which of these posts closed rounds, and of how many books.
fn closing(shared_book: &Arc<SharedBook>, by: &Arc<Names>, posts: std::ops::Range<u64>) -> Vec<(u64, usize)> {
    let mut closed = Vec::new();
    for number in posts {
        assert_eq!(put(shared_book, by, "A", of(0..20, number * 10, 1)), Ok(0));
        match shared_book.lock().rounds_closed() {
            0 => {}
            rounds => closed.push((number, rounds)),
        }
    }
    closed
}

/// No post waits for the rounds of two books.
#[test]
fn rounds_are_closed_book_by_book() {
    let shared_book = SharedBook::new(24_000).unwrap();
    let by = named(&names("s", 20)); // some in each book
    let closed = closing(&shared_book, &by, 1..3_401);
    assert_eq!(closed, [(2_500, 1), (2_917, 1), (3_334, 1)]);
    assert!(taken(&shared_book).values().all(|one| *one == (3_400, 34_010)));
}

/// A book that was passed over would have twice as many entries in its journal.
#[test]
fn while_something_is_in_flight_rounds_wait() {
    let shared_book = SharedBook::new(24_000).unwrap();
    let by = named(&names("s", 20));
    assert_eq!(closing(&shared_book, &by, 1..2_601), [(2_500, 1)]);
    let flushed = shared_book.lock().take_all().unwrap();
    assert_eq!(closing(&shared_book, &by, 2_601..3_401), []);
    shared_book.lock().settle(flushed).unwrap();
    assert_eq!(closing(&shared_book, &by, 3_401..3_404), [(3_401, 1), (3_402, 1)]);
}

/// A post that was parsed from text; whether its points got numbers.
fn numbered(shared_book: &Arc<SharedBook>, names: &Arc<Names>, body: &str) -> (Read, bool) {
    let mut read = shared_book.read("A".into(), body.to_string().into()).unwrap();
    let is_numbered = read.number(names, |_| true);
    (read, is_numbered)
}

fn by_number(read: &Read) -> Vec<Vec<u64>> {
    let Body::Points(points) = &read.post.body else { panic!("{:?}", read.post) };
    points.each().map(<[u64]>::to_vec).collect()
}

/// The name of the series with this number.
fn name_of(names: &Arc<Names>, number: u64) -> String {
    let text = crate::journal::Names::text(&**names, number);
    crate::otlp::series::only(&text).unwrap().parts().unwrap().name
}

#[test]
fn a_text_has_its_points_by_number() {
    for series in [1, 80_000] {
        let (shared_book, by) = (SharedBook::new(series).unwrap(), Names::new().unwrap());
        let all = names("s", 30);
        let (mut read, is_numbered) = numbered(&shared_book, &by, &points(&all, 10, 5));
        assert!(is_numbered);
        let mut found = by_number(&read);
        found.sort_unstable();
        let each = (0..30).map(|number| vec![number, 10, 20, 5]);
        assert_eq!(found, each.collect::<Vec<_>>());
        let named: BTreeSet<_> = (0..30).map(|number| name_of(&by, number)).collect();
        assert_eq!(named, all.iter().cloned().collect());
        shared_book.lock().admit(&mut read).unwrap();
        // A series keeps its number, and a refusal names a point by its index in the text.
        let other = points(&[&names("n", 2)[..], &all[..1]].concat(), 15, 1);
        let (mut read, _) = numbered(&shared_book, &by, &other);
        let known = by_number(&read).into_iter().find(|point| point[0] < 30);
        assert_eq!(name_of(&by, known.unwrap()[0]), "s0");
        let late = Refused::OutOfOrder { point: 2, frontier: 20 };
        assert_eq!(shared_book.lock().admit(&mut read), Err(late));
        assert!(taken(&shared_book).values().all(|one| *one == (5, 20)));
    }
}

/// Named by posts and by requests of one point.
#[test]
fn series_that_are_named_at_once_have_their_own_names() {
    let (shared_book, by) = (SharedBook::new(80_000).unwrap(), Names::new().unwrap());
    let name_some = |thread: usize| {
        for round in 0..50 {
            let all = names(&format!("s{}-{round}-", thread / 2), 20);
            let found: BTreeSet<String> = match thread % 2 {
                0 => {
                    let (read, is_numbered) = numbered(&shared_book, &by, &points(&all, 10, 1));
                    assert!(is_numbered);
                    by_number(&read).iter().map(|point| name_of(&by, point[0])).collect()
                }
                _ => {
                    let learnt = |name| by.learn(points(std::slice::from_ref(name), 1, 0).into());
                    all.iter().map(|name| name_of(&by, learnt(name).unwrap())).collect()
                }
            };
            assert_eq!(found, all.into_iter().collect());
        }
    };
    std::thread::scope(|scope| {
        for thread in 0..4 {
            let name_some = &name_some;
            scope.spawn(move || name_some(thread));
        }
    });
}

/// Such a post stays text and is taken.
#[test]
fn where_a_block_is_refused_a_text_has_no_numbers_and_no_other_has() {
    let shared_book = SharedBook::new(24_000).unwrap();
    let all = names("s", 20);
    let mut blocks = 0;
    loop {
        let by = Names::new().unwrap();
        let mut read = shared_book.read("A".into(), points(&all, 10 + 10 * blocks, 1).into()).unwrap();
        let (is_numbered, all_were_given) = memory::with_blocks(blocks, false, || read.number(&by, |_| true));
        assert_eq!(by.are_closed(), !is_numbered, "{blocks}");
        assert_eq!(matches!(read.post.body, Body::Points(_)), is_numbered, "{blocks}");
        shared_book.lock().admit(&mut read).unwrap();
        if all_were_given {
            assert!(is_numbered);
            break;
        }
        let (_, again) = numbered(&shared_book, &by, &points(&all, 1_000_000, 1));
        assert_eq!(again, is_numbered, "{blocks}");
        blocks += 1;
    }
    assert!(blocks > 30, "{blocks} blocks");
    assert_eq!(taken(&shared_book)["s0"].0, blocks as i64 + 1);
}

#[test]
fn where_there_is_no_room_for_a_name_no_series_gets_a_number() {
    let (shared_book, by) = (SharedBook::new(1).unwrap(), Names::new().unwrap());
    let room = std::cell::Cell::new(2);
    let two_fit = |_| room.replace(room.get() - 1) > 0;
    let post = |names: &[String], has_room: &dyn Fn(usize) -> bool| {
        let mut read = shared_book.read("A".into(), points(names, 10, 1).into()).unwrap();
        read.number(&by, has_room)
    };
    assert!(post(&names("s", 2), &two_fit));
    assert!(!post(&names("t", 2), &two_fit));
    assert!(!post(&names("s", 2), &|_| true));
    let one = Bytes::from(points(&names("u", 1), 1, 0));
    assert_eq!(by.learn(one), Err(Refused::NoMemory));
    // Posts that have numbers are still taken.
    assert_eq!(put(&shared_book, &by, "A", of([0, 1], 10, 5)), Ok(0));
}

/// A start does it, so that the points it puts in share the books' own identities.
#[test]
fn series_that_a_post_was_read_of_have_numbers_before_anybody_names_them() {
    let one = |name: &String| points(std::slice::from_ref(name), 1, 0);
    for series in [1, 80_000] {
        let (shared_book, by) = (SharedBook::new(series).unwrap(), Names::new().unwrap());
        let all = names("s", 30);
        let mut read = shared_book.read("A".into(), points(&all, 10, 0).into()).unwrap();
        read.note(&by);
        shared_book.lock().admit(&mut read).unwrap();
        let new = names("t", 1);
        for name in all.iter().chain(&new) {
            let number = by.number_of(one(name).as_bytes()).unwrap();
            assert_eq!((number < 30, name_of(&by, number)), (name != "t0", name.clone()));
        }
        assert_eq!(put(&shared_book, &by, "A", of(0..31, 20, 5)), Ok(0));
        let taken = taken(&shared_book);
        assert!(taken.len() == 31 && taken.values().all(|one| *one == (5, 30)), "{taken:?}");
    }
}

#[test]
fn where_a_block_is_refused_a_series_gets_its_number_later() {
    let shared_book = SharedBook::new(24_000).unwrap();
    let all = names("s", 20);
    for blocks in 0.. {
        let by = Names::new().unwrap();
        let mut read = shared_book.read("A".into(), points(&all, 10, 0).into()).unwrap();
        let ((), all_were_given) = memory::with_blocks(blocks, false, || read.note(&by));
        for name in &all {
            let number = by.number_of(points(std::slice::from_ref(name), 1, 0).as_bytes()).unwrap();
            assert!(number < 20 && name_of(&by, number) == *name, "{blocks}");
        }
        if all_were_given {
            assert!(blocks > 3, "{blocks} blocks");
            return;
        }
    }
}

/// Otherwise a start would report a duplicate as late: the outbox ignores ids of an earlier numbering.
#[test]
fn what_went_by_ids_of_an_earlier_numbering_is_told_once_more() {
    let shared_book = SharedBook::new(1).unwrap();
    let by = named(&names("s", 2));
    let told = |numbering| {
        let noted = shared_book.lock().changed_recents().by_series(numbering);
        ((noted.recents.by_id.len(), noted.recents.by_digest.len()), noted)
    };
    assert_eq!(put(&shared_book, &by, "A", of(0..2, 10, 5)), Ok(0));
    let (found, noted) = told(7);
    assert_eq!(found, (0, 2));
    shared_book.lock().note_ids(7, noted, vec![Some(3), Some(4)]);
    assert_eq!(put(&shared_book, &by, "A", of(0..1, 20, 5)), Ok(0));
    let (found, noted) = told(7);
    assert_eq!(found, (1, 0));
    shared_book.lock().note_ids(8, noted, Vec::new());
    let (found, noted) = told(8);
    assert_eq!(found, (0, 1), "by the digest of its key");
    shared_book.lock().note_ids(8, noted, vec![Some(5)]);
    assert_eq!(told(8).0, (0, 0));
}
