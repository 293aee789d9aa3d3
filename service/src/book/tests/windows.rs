//! Forwarded points never cross an hour.

use super::points::named;
use super::*;

const HOUR: u64 = 3_600_000_000_000;

/// Points by number, end and value; each begins a second before its end.
fn of(all: &[(u64, u64, i64)]) -> Points {
    let mut points = Points::default();
    for (number, end, value) in all {
        points.push(*number, end - 1_000_000_000, *end, [*value as u64]);
    }
    points
}

fn put(
    shared_book: &Arc<SharedBook>,
    names: &Arc<Names>,
    sender: &str,
    points: Points,
) -> Result<(), Refused> {
    let mut read = shared_book.read_points(sender.into(), points, names.clone(), 0)?;
    shared_book.lock().admit(&mut read)
}

/// The spans of these requests, in order: name, hour, value.
fn spans(texts: &[Vec<u8>]) -> Vec<(String, u64, i64)> {
    let points = texts.iter().flat_map(|text| forwarded(text).unwrap());
    let spans = points.map(|point| {
        let Value::Sum(value) = point.value else { panic!("{point:?}") };
        let hours = [point.start, point.end - 1].map(|time| time / HOUR);
        assert_eq!(hours[0], hours[1], "a span of two hours: {point:?}");
        (point.series.parts().unwrap().name, hours[1], value)
    });
    spans.collect()
}

/// Everything that was taken, in order; in each series no hour comes after a later one.
fn group(shared_book: &Arc<SharedBook>) -> Vec<(String, u64, i64)> {
    let mut flushed = shared_book.lock().take_all().unwrap();
    let texts = flushed.texts().unwrap();
    shared_book.lock().settle(flushed).unwrap();
    let spans = spans(&texts);
    let mut last = BTreeMap::new();
    for (name, hour, _) in &spans {
        let before = last.insert(name.clone(), *hour);
        assert!(before.is_none_or(|before| before <= *hour), "{spans:?}");
    }
    spans
}

/// The sums by series and hour.
fn sums(spans: Vec<(String, u64, i64)>) -> BTreeMap<(String, u64), i64> {
    let mut sums = BTreeMap::new();
    for (name, hour, value) in spans {
        *sums.entry((name, hour)).or_default() += value;
    }
    sums
}

#[test]
fn where_a_later_hour_comes_its_book_is_taken_first() {
    for series in [1, 24_000] {
        let shared_book = SharedBook::new(series).unwrap();
        let all = names("s", 20);
        let by = named(&all);
        let at = |hour: u64, minute: u64| hour * HOUR + minute * 60_000_000_000;
        let every = |end, value| of(&(0..20).map(|number| (number, end, value)).collect::<Vec<_>>());
        put(&shared_book, &by, "A", every(at(5, 10), 1)).unwrap();
        put(&shared_book, &by, "A", every(at(5, 60), 2)).unwrap(); // its end is the full hour
        assert!(!shared_book.lock().has_earlier());
        put(&shared_book, &by, "A", of(&[(0, at(6, 1), 4)])).unwrap();
        assert!(shared_book.lock().has_earlier());
        assert_eq!(post(&shared_book, "A", &points(&all[1..], at(7, 1), 8)), Ok(0));
        put(&shared_book, &by, "A", of(&[(0, at(7, 2), 16)])).unwrap();
        let mut wanted = BTreeMap::new();
        for name in &all {
            wanted.insert((name.clone(), 5), 3);
            wanted.insert((name.clone(), 7), if name == "s0" { 16 } else { 8 });
        }
        wanted.insert(("s0".into(), 6), 4);
        assert_eq!(sums(group(&shared_book)), wanted);
        assert!(group(&shared_book).is_empty() && !shared_book.lock().has_earlier());
        // A gap of an hour in one series, and an hour that other series have passed already.
        put(&shared_book, &by, "A", of(&[(0, at(9, 1), 1), (1, at(9, 1), 1)])).unwrap();
        put(&shared_book, &by, "A", of(&[(2, at(8, 1), 1)])).unwrap();
        put(&shared_book, &by, "A", of(&[(3, at(9, 1), 1)])).unwrap();
        assert!(!shared_book.lock().has_earlier(), "no series goes over an hour");
        assert_eq!(group(&shared_book).len(), 4);
    }
}

#[test]
fn days_are_kept_apart_or_nothing() {
    for (window, spans) in [(FlushWindow::Hour, 4), (FlushWindow::Day, 2), (FlushWindow::None, 1)] {
        let shared_book = SharedBook::apart(1, window).unwrap();
        let by = named(&names("s", 1));
        for hour in [1, 2, 23, 24] {
            put(&shared_book, &by, "A", of(&[(0, hour * HOUR + HOUR / 2, 1)])).unwrap();
        }
        let mut flushed = shared_book.lock().take_all().unwrap();
        let texts = flushed.texts().unwrap();
        shared_book.lock().settle(flushed).unwrap();
        assert_eq!(texts.len(), spans, "{window:?}");
    }
}

#[test]
fn a_post_of_several_hours_is_taken_whole_and_hour_by_hour() {
    let shared_book = SharedBook::new(24_000).unwrap();
    let by = named(&names("s", 20));
    let lump = |first: u64| {
        let points = (0..20).flat_map(|number| (first..first + 24).map(move |hour| (number, hour, 1)));
        of(&points.map(|(number, hour, value)| (number, hour * HOUR + HOUR / 2, value)).collect::<Vec<_>>())
    };
    put(&shared_book, &by, "A", lump(100)).unwrap();
    let late = put(&shared_book, &by, "A", lump(110));
    assert!(matches!(late, Err(Refused::OutOfOrder { point: 0, .. })), "{late:?}");
    // The last point's series belongs to another sender.
    let theirs = named(&names("t", 1));
    put(&shared_book, &theirs, "B", of(&[(0, 500 * HOUR, 1)])).unwrap();
    let both = named(&[names("s", 20), names("t", 1)].concat());
    let mut mixed = lump(124);
    mixed.push(20, 501 * HOUR, 502 * HOUR, [1]);
    let report = shared_book.lock().report().unwrap();
    let other = put(&shared_book, &both, "A", mixed);
    assert_eq!(other, Err(Refused::OtherWriter { point: 480 }));
    assert_eq!(shared_book.lock().report().unwrap(), report, "nothing of it is there");
    put(&shared_book, &by, "A", lump(124)).unwrap();
    let sums = sums(group(&shared_book));
    assert_eq!(sums.len(), 20 * 48 + 1);
    assert!(sums.values().all(|sum| *sum == 1), "{sums:?}");
}

/// What is in flight can't be taken again: a post of a later hour waits for it.
#[test]
fn what_is_in_flight_is_waited_for() {
    let shared_book = SharedBook::new(1).unwrap();
    let by = named(&names("s", 2));
    let at = |hour: u64| hour * HOUR + HOUR / 2;
    put(&shared_book, &by, "A", of(&[(0, at(1), 1)])).unwrap();
    let mut flushed = shared_book.lock().take_all().unwrap();
    put(&shared_book, &by, "A", of(&[(0, at(1) + 2_000_000_000, 2)])).unwrap();
    let mut next = shared_book.read_points("A".into(), of(&[(0, at(2), 4)]), by.clone(), 0).unwrap();
    assert_eq!(shared_book.lock().admit(&mut next), Err(Refused::InFlight));
    // Other posts are still taken, but a post of several hours waits too.
    put(&shared_book, &by, "A", of(&[(1, at(2), 1)])).unwrap();
    let mut lump =
        shared_book.read_points("A".into(), of(&[(0, at(3), 8), (0, at(4), 16)]), by.clone(), 0).unwrap();
    assert_eq!(shared_book.lock().admit(&mut lump), Err(Refused::InFlight));
    let first = spans(&flushed.texts().unwrap());
    shared_book.lock().settle(flushed).unwrap();
    assert_eq!(shared_book.lock().admit(&mut next), Ok(()));
    assert_eq!(shared_book.lock().admit(&mut lump), Ok(()));
    let group = sums([first, group(&shared_book)].concat());
    let wanted = [(("s0", 1), 3), (("s0", 2), 4), (("s0", 3), 8), (("s0", 4), 16), (("s1", 2), 1)];
    assert_eq!(group, wanted.map(|((name, hour), sum)| ((name.to_string(), hour), sum)).into());
}

/// Otherwise a post of several hours could lack room after its first hours, which ends the service.
#[test]
fn a_book_that_was_in_flight_while_others_were_closed_has_room_for_a_post_of_several_hours() {
    let shared_book = SharedBook::new(24_000).unwrap();
    let all = names("s", 30);
    let (one, others) = all.split_at(1);
    let each = |numbers: std::ops::RangeInclusive<u64>| {
        for number in numbers {
            assert_eq!(post(&shared_book, "A", &points(one, number * 10, 1)), Ok(0), "{number}");
        }
    };
    each(1..=1);
    let mut flushed = shared_book.lock().take_all().unwrap();
    each(2..=16_000);
    assert_eq!(post(&shared_book, "A", &points(others, 10, 1)), Ok(0));
    shared_book.lock().close_rounds();
    assert!(shared_book.lock().rounds_closed() > 0);
    each(16_001..=32_600);
    let first = spans(&flushed.texts().unwrap());
    shared_book.lock().settle(flushed).unwrap();
    let lump: Vec<_> = (1..=100).map(|hour| (0, hour * HOUR + HOUR / 2, 1)).collect();
    assert_eq!(put(&shared_book, &named(one), "A", of(&lump)), Ok(()));
    let sums = sums([first, group(&shared_book)].concat());
    assert_eq!((sums[&("s0".to_string(), 0)], sums.len()), (32_600, 100 + 30));
}

/// Otherwise any sender could end the service, by refused posts that leave no room and then one post of two hours.
#[test]
fn behind_refused_posts_there_is_room_for_a_post_of_several_hours() {
    let shared_book = SharedBook::new(24_000).unwrap();
    let by = named(&[names("b", 12), names("a", 1)].concat());
    put(&shared_book, &by, "A", of(&[(12, HOUR / 4, 1)])).unwrap();
    let all =
        |end, numbers: std::ops::Range<u64>| of(&numbers.map(|number| (number, end, 1)).collect::<Vec<_>>());
    put(&shared_book, &by, "B", all(HOUR / 4, 0..12)).unwrap();
    for _ in 0..32_765 {
        let refused = put(&shared_book, &by, "B", all(HOUR / 2, 0..13));
        assert_eq!(refused, Err(Refused::OtherWriter { point: 12 }));
    }
    let both = [HOUR / 2, HOUR + HOUR / 2].map(|end| (0..12).map(move |number| (number, end, 1)));
    assert_eq!(put(&shared_book, &by, "B", of(&both.into_iter().flatten().collect::<Vec<_>>())), Ok(()));
    assert_eq!(sums(group(&shared_book)).len(), 12 + 12 + 1);
}

#[test]
fn a_released_sender_s_points_are_not_merged_with_a_later_hour() {
    let shared_book = SharedBook::new(1).unwrap();
    let by = named(&names("s", 1));
    put(&shared_book, &by, "A", of(&[(0, HOUR / 2, 1)])).unwrap();
    shared_book.lock().quarantine("A").unwrap();
    assert!(group(&shared_book).is_empty());
    let later = of(&[(0, HOUR + HOUR / 2, 2)]);
    assert_eq!(put(&shared_book, &by, "A", later.clone()), Err(Refused::Quarantined));
    shared_book.lock().lift("A").unwrap();
    put(&shared_book, &by, "A", later).unwrap();
    assert_eq!(group(&shared_book).iter().map(|span| span.1).collect::<Vec<_>>(), [0, 1]);
}

/// A refused block refuses the post and leaves nothing of it in the book; after the first hour it is `HalfTaken`.
#[test]
fn a_post_of_several_hours_is_whole_also_without_memory() {
    let shared_book = SharedBook::new(1).unwrap();
    let by = named(&names("s", 3));
    put(&shared_book, &by, "A", of(&[(0, HOUR / 2, 1), (1, HOUR / 2, 1)])).unwrap();
    let lump = of(&[(0, 2 * HOUR, 1), (1, 3 * HOUR, 1), (2, 4 * HOUR, 1), (0, 5 * HOUR, 1)]);
    let mut half = 0;
    blocks_until(|blocks, refuses_all| {
        let mut read = shared_book.read_points("A".into(), lump.clone(), by.clone(), 0).unwrap();
        let admit = || shared_book.lock().admit(&mut read);
        let (admitted, all_were_given) = memory::with_blocks(blocks, refuses_all, admit);
        match admitted {
            Ok(()) if all_were_given => return true,
            Ok(()) | Err(Refused::HalfTaken) => {
                // As after the end of a service: a fresh book takes its place.
                half += usize::from(admitted.is_err());
                let mut fresh = shared_book.fresh().unwrap();
                std::mem::swap(&mut *shared_book.lock(), &mut fresh);
                put(&shared_book, &by, "A", of(&[(0, HOUR / 2, 1), (1, HOUR / 2, 1)])).unwrap();
            }
            Err(refused) => assert_eq!(refused, Refused::NoMemory),
        }
        false
    });
    assert!(half > 0);
    let sums = sums(group(&shared_book));
    assert!(sums.len() == 6 && sums.values().all(|sum| *sum == 1), "{sums:?}");
}

/// Whatever is posted, in any order: each hour has its own sum.
#[test]
fn sums_by_hour_are_those_of_the_posts() {
    let mut seed = 7_u64;
    let mut random = |most: u64| {
        seed = seed.wrapping_mul(6_364_136_223_846_793_005).wrapping_add(1);
        (seed >> 33) % most
    };
    let shared_book = SharedBook::new(24_000).unwrap();
    let all = names("s", 12);
    let by = named(&all);
    let mut ends = [HOUR; 12];
    let (mut wanted, mut found) = (BTreeMap::<(String, u64), i64>::new(), Vec::new());
    for post in 0..2_000 {
        let mut points = Vec::new();
        for _ in 0..=random(6) {
            let number = random(12);
            let end = &mut ends[number as usize];
            *end += 2_000_000_000 + random(4).pow(3) * random(900) * 1_000_000_000;
            if (*end - 1) / HOUR != (*end - 1_000_000_000) / HOUR {
                *end += 1_000_000_000; // otherwise the point itself would cross the hour
            }
            points.push((number, *end, post + 1));
            let key = (all[number as usize].clone(), (*end - 1) / HOUR);
            *wanted.entry(key).or_default() += post + 1;
        }
        put(&shared_book, &by, "A", of(&points)).unwrap();
        if random(20) == 0 {
            found.extend(group(&shared_book));
        }
    }
    found.extend(group(&shared_book));
    assert!(wanted.len() > 1_000);
    assert_eq!(sums(found), wanted);
}
