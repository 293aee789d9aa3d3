//! What continues when rounds of the books end.

use super::*;

/// Otherwise the sender would get 503 for ever, since the sum of a series in one round is bounded.
#[test]
fn a_sum_that_has_all_of_a_round_goes_on_in_the_next() {
    let shared_book = SharedBook::new(1).unwrap();
    let a = names("a", 1);
    for (start, value) in [(10, i64::MAX), (20, -9)] {
        assert_eq!(post(&shared_book, "A", &points(&a, start, value)), Ok(0));
    }
    let pending = post(&shared_book, "A", &points(&a, 30, 10));
    assert_eq!(pending, Err(Refused::TooLarge), "no flush can take so much");
    assert_eq!(taken(&shared_book), [("a0".into(), (i64::MAX - 9, 30))].into());
    assert_eq!(post(&shared_book, "A", &points(&a, 30, 10)), Ok(0));
    assert_eq!(taken(&shared_book), [("a0".into(), (10, 40))].into());
}

/// Pending points, owners and ends stay.
#[test]
fn rounds_that_are_closed_at_rest_keep_what_is_pending() {
    let shared_book = SharedBook::new(1).unwrap();
    let a = names("a", 1);
    let rest = || while shared_book.lock().close_round_at_rest() {};
    rest();
    assert_eq!(shared_book.lock().rounds_closed(), 0, "nothing came");
    for number in 1..=10 {
        assert_eq!(post(&shared_book, "A", &points(&a, number * 10, 1)), Ok(0));
    }
    rest();
    assert_eq!(shared_book.lock().rounds_closed(), 1);
    assert!(post(&shared_book, "A", &points(&a, 100, 1)).is_err(), "it ends at 110");
    assert!(post(&shared_book, "B", &points(&a, 110, 1)).is_err(), "it is A's");
    assert_eq!(post(&shared_book, "A", &points(&a, 110, 1)), Ok(0));
    assert_eq!(taken(&shared_book), [("a0".into(), (11, 120))].into());
}

/// Closing takes long if there are many series, and nobody waits for a post that is put in again.
#[test]
fn rounds_are_closed_seldom_while_posts_are_put_in_again() {
    let shared_book = SharedBook::new(24_000).unwrap();
    let a = names("a", 1);
    let mut book = shared_book.lock();
    book.note_seeded();
    let closed: Vec<(u64, usize)> = (1..=40_000)
        .filter_map(|number| {
            let mut read = shared_book.read("A".into(), points(&a, number * 10, 1).into()).unwrap();
            book.admit_again(&mut read).unwrap();
            Some((number, book.rounds_closed())).filter(|(_, closed)| *closed > 0)
        })
        .collect();
    assert_eq!(closed, [(30_000, 1)], "of one book, which the series is in");
    book.note_filled();
    assert_eq!(book.rounds_closed(), 1, "whoever posts finds room");
    book.note_filled();
    assert_eq!(book.rounds_closed(), 0);
    drop(book);
    assert_eq!(taken(&shared_book), [("a0".into(), (40_000, 400_010))].into());
}

/// Two senders in several books, and a post of B that is refused because it has a series of A among many of its own.
fn two_senders() -> (Arc<SharedBook>, Vec<String>, String) {
    let shared_book = SharedBook::new(24_000).unwrap();
    let (theirs, own) = (names("a", 1), names("b", 60));
    assert_eq!(post(&shared_book, "A", &points(&theirs, 10, 1)), Ok(0));
    assert_eq!(post(&shared_book, "B", &points(&own, 10, 1)), Ok(0));
    let both = points(&[own.clone(), theirs].concat(), 1_000_000, 1);
    (shared_book, own, both)
}

/// Otherwise any sender could fill the books so that good posts are refused. The books and all answers are as without
/// such posts.
#[test]
fn refused_posts_take_nothing_of_a_book() {
    let [with, without] = [two_senders(), two_senders()];
    let (own, refused) = (&with.1, &with.2);
    let entries = |shared_book: &Arc<SharedBook>| shared_book.lock().desk.entries();
    assert_eq!(entries(&with.0), 4, "two posts in A's book");
    for number in 0..40_000 {
        let answer = post(&with.0, "B", refused);
        assert_eq!(answer, Err(Refused::OtherWriter { point: 60 }), "{number}");
        if number % 400 == 0 {
            let good = points(own, 20 + number, 1);
            assert_eq!([&with, &without].map(|it| post(&it.0, "B", &good)), [Ok(0), Ok(0)], "{number}");
        }
        assert_eq!(entries(&with.0), 6 + 2 * (number as usize / 400), "{number}");
    }
    let [report, wanted] = [&with, &without].map(|it| it.0.lock().report().unwrap());
    assert_eq!(String::from_utf8(report), String::from_utf8(wanted));
    assert_eq!((entries(&with.0), with.0.lock().rounds_closed()), (entries(&without.0), 0));
    assert_eq!(taken(&with.0), taken(&without.0));
}

/// Two entries for each post that is taken, for each flush, and for a sender that is quarantined and released.
#[test]
fn what_a_round_has_room_for_is_known() {
    let entries = |shared_book: &Arc<SharedBook>| shared_book.lock().desk.entries();
    let (shared_book, _, refused) = two_senders();
    assert_eq!(entries(&shared_book), 4);
    assert!(post(&shared_book, "B", &refused).is_err());
    assert_eq!(entries(&shared_book), 4);
    shared_book.lock().quarantine("C").unwrap();
    shared_book.lock().lift("C").unwrap();
    assert_eq!(entries(&shared_book), 6);
    let shared_book = SharedBook::new(1).unwrap();
    assert_eq!(post(&shared_book, "A", &points(&names("a", 2_500), 10, 1)), Ok(0));
    assert_eq!(taken(&shared_book).len(), 2_500);
    assert_eq!(entries(&shared_book), 2 + 3 * 2, "a flush takes a thousand series");
}
