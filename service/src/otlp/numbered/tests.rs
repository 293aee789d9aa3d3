//! What is read by number: nearly all that encoders write. That it says the same as its JSON is tried over the book.

use super::*;
use crate::otlp::wire::field;
use std::cell::RefCell;

fn fixed(number: u8, bits: u64) -> Vec<u8> {
    [&[number << 3 | 1][..], &bits.to_le_bytes()].concat()
}

/// A request with these data of a metric.
fn request(data: &[u8]) -> Vec<u8> {
    let metric = [&field(1, b"m")[..], &field(2, b"what it is"), &field(3, b"1"), data].concat();
    let scope = [field(1, &field(1, b"s")), long(2, &metric)].concat();
    let resource = field(1, &field(1, &field(1, b"r")));
    long(1, &[resource, long(2, &scope), field(3, b"https://schema")].concat())
}

/// A field of 128 bytes to 16 KiB, or less.
fn long(number: u8, inner: &[u8]) -> Vec<u8> {
    let (low, high) = (inner.len() as u8 | 128, (inner.len() >> 7) as u8);
    [&[number << 3 | 2, low, high], inner].concat()
}

const DELTA: &[u8] = &[0x10, 1];
const CUMULATIVE: &[u8] = &[0x10, 2];

fn sum(points: &[&[Vec<u8>]], tail: &[u8]) -> Vec<u8> {
    let points: Vec<u8> = points.iter().flat_map(|point| long(1, &point.concat())).collect();
    request(&long(7, &[&points[..], tail].concat()))
}

fn histograms(points: &[Vec<u8>]) -> Vec<u8> {
    let points: Vec<u8> = points.iter().flat_map(|point| long(1, point)).collect();
    request(&long(9, &[&points[..], DELTA].concat()))
}

fn attribute(number: u32, key: &[u8]) -> Vec<u8> {
    field(number, &[field(1, key), field(2, &field(1, b"v"))].concat())
}

/// Names nothing twice, and knows what the book does not take.
struct Book {
    series: Series,
    named: RefCell<Vec<String>>,
}

impl Book {
    fn new(most: usize) -> Book {
        Book { series: Series::new(most), named: RefCell::default() }
    }

    fn read(&self, body: &[u8]) -> Option<(Vec<u64>, u64)> {
        let read = self.series.read(body, &Reading::default(), |request| {
            let text = String::from_utf8(request.to_vec()).unwrap();
            let posted = crate::otlp::tests::posted(&request).unwrap();
            if posted.foreign == 1 {
                return Some(Learnt::Foreign);
            }
            let mut named = self.named.borrow_mut();
            assert!(posted.series.len() == 1 && !named.contains(&text), "{text}");
            named.push(text);
            Some(Learnt::Number(named.len() as u64 - 1))
        })?;
        Some((read.points.words().to_vec(), read.foreign))
    }
}

/// A point of these fields behind its times.
fn at(book: &Book, fields: &[&Vec<u8>]) -> Option<(Vec<u64>, u64)> {
    let fields = fields.iter().map(|field| (*field).clone());
    let point: Vec<_> = [fixed(2, 10), fixed(3, 20)].into_iter().chain(fields).collect();
    book.read(&sum(&[&point], DELTA))
}

#[test]
fn points_are_read_as_encoders_write_them() {
    let book = Book::new(1 << 20);
    let (value, flags) = (&fixed(6, 5), &vec![0x40, 2]);
    let (a, b) = (&attribute(7, b"a"), &attribute(7, b"b"));
    let parts = [fixed(2, 1), fixed(6, 5), field(4, b"12345678"), attribute(7, b"k")];
    let exemplar = &field(5, &parts.concat());
    let orders: [&[&Vec<u8>]; 5] = [
        &[value, a, b],
        &[a, b, flags, value],
        &[exemplar, value, a, b],
        &[value, exemplar, exemplar, a, b],
        &[exemplar, a, b, value],
    ];
    let is = |number: u64| Some((vec![number, 10, 20, 5], 0));
    for order in orders {
        assert_eq!(at(&book, order), is(0));
    }
    assert_eq!(at(&book, &[value]), is(1));
    assert_eq!(at(&book, &[value, b]), is(2));
    assert_eq!(at(&book, &[value, a]), is(3));
    // Also a series by other bytes has a number: the book finds that these are the same.
    assert_eq!(at(&book, &[value, b, a]), is(4));
    assert_eq!(book.named.borrow().len(), 5);
}

#[test]
fn points_that_are_not_taken_are_counted() {
    let book = Book::new(1 << 20);
    let (value, a) = (&fixed(6, 5), &attribute(7, b"a"));
    let (nothing_recorded, double) = (&vec![0x40, 1], &double(4, 5.0));
    let foreign: [&[&Vec<u8>]; 3] = [&[value, a, nothing_recorded], &[double, a], &[a]];
    for point in foreign {
        assert_eq!(at(&book, point), Some((vec![], 1)));
    }
}

/// A packed list of eight bytes each.
fn eights(number: u32, all: &[u64]) -> Vec<u8> {
    let bytes: Vec<u8> = all.iter().flat_map(|one| one.to_le_bytes()).collect();
    field(number, &bytes)
}

fn double(number: u8, value: f64) -> Vec<u8> {
    fixed(number, value.to_bits())
}

#[test]
fn histograms_are_read_by_their_bounds() {
    let book = Book::new(1 << 20);
    let bound = |bound: f64| eights(7, &[bound.to_bits()]);
    let span = &[fixed(2, 10), fixed(3, 20), fixed(4, 3)].concat();
    let (total, buckets) = (&double(5, 12.0), &eights(6, &[1, 2]));
    let (least, most) = (&double(11, 0.5), &double(12, 9.5));
    let (five, six, a) = (&bound(5.0), &bound(6.0), &attribute(9, b"a"));
    let at = |points: &[&[&Vec<u8>]]| {
        let point = |parts: &&[&Vec<u8>]| parts.iter().copied().flatten().copied().collect();
        book.read(&histograms(&points.iter().map(point).collect::<Vec<_>>()))
    };
    let says = |number| vec![number, 10, 20, 3, 1, 12, 1, 2];
    for order in [[span, total, buckets, five, a, least, most], [span, total, least, most, buckets, five, a]]
    {
        assert_eq!(at(&[&order]), Some((says(0), 0)));
    }
    // Of one metric each has its own.
    let two: [&[&Vec<u8>]; 2] = [&[span, total, buckets, five, a], &[span, total, buckets, six, a]];
    assert_eq!(at(&two), Some(([says(0), says(1)].concat(), 0)));
    let no_sum = at(&[&[span, buckets, five, a]]);
    assert_eq!(no_sum, Some((vec![0, 10, 20, 3, 0, 0, 1, 2], 0)));
    let no_buckets = at(&[&[span, a]]);
    assert_eq!(no_buckets, Some((vec![2, 10, 20, 3, 0, 0, 3], 0)), "one bucket has all");
    let (half, half_bound) = (&double(5, 0.5), &bound(0.5));
    let foreign: [&[&Vec<u8>]; 3] =
        [&[span, half, buckets, five, a], &[span, total, buckets, a], &[span, total, buckets, half_bound, a]];
    assert_eq!(at(&foreign), Some((vec![], 3)));
}

#[test]
fn metrics_that_are_not_taken_are_counted() {
    let book = Book::new(1 << 20);
    let point = &[fixed(2, 10), fixed(3, 20), fixed(6, 5)][..];
    assert_eq!(book.read(&sum(&[point, point], CUMULATIVE)), Some((vec![], 2)));
    let gauge = field(5, &[field(1, &point.concat()), field(1, b"")].concat());
    assert_eq!(book.read(&request(&gauge)), Some((vec![], 2)));
    assert_eq!(book.read(&request(b"")), Some((vec![], 0)));
    assert_eq!(book.read(b""), Some((vec![], 0)));
    assert!(book.named.borrow().is_empty());
}

#[test]
fn what_is_not_plain_is_read_otherwise() {
    let book = Book::new(1 << 20);
    let point = [fixed(2, 10), fixed(3, 20), fixed(6, 5)];
    let with = |more: Vec<u8>| sum(&[&[&point[..], &[more]].concat()], DELTA);
    let sound = request(&field(7, &[&field(1, &point.concat())[..], DELTA].concat()));
    assert!(book.read(&sound).is_some());
    let not_plain = [
        with(fixed(6, 6)),                  // its value is there twice
        with(field(1, b"old")),             // labels of an old version
        with(field(5, &[0x15])),            // an exemplar that is cut
        with(field(7, &field(1, b"\xff"))), // no UTF-8
        with(vec![0xba, 0, 0]),             // a longer key than need be
        with(field(7, &[field(2, b"\x18\x05"), field(2, b"\x18\x06")].concat())), // a value in parts
        request(&[field(5, b""), field(7, b"")].concat()), // data of two kinds
        request(&[field(7, b""), field(1, b"n")].concat()), // another name behind
        [&sound[..], &field(1, &[field(1, b""), field(1, b"")].concat())].concat(), // a resource in parts
        [&sound[..], &[0xff]].concat(),
    ];
    for body in not_plain {
        assert_eq!(book.read(&body), None, "{body:02x?}");
    }
    assert_eq!(book.named.borrow().len(), 1);
}

/// And what is known is read on.
#[test]
fn there_is_a_bound() {
    let book = Book::new(4 << 10);
    let body = |name: u8| {
        let point = [fixed(2, 10), fixed(3, 20), fixed(6, 5), attribute(7, &[name])];
        sum(&[&point], DELTA)
    };
    let read = |name| book.read(&body(name)).is_some();
    let fit = (b'a'..=b'z').take_while(|name| read(*name)).count();
    assert!((3..12).contains(&fit) && book.series.is_full(), "{fit}");
    assert!(read(b'a') && !read(b'z'));
}

/// Else who finds it takes its points in its own unit.
#[test]
fn a_metric_in_another_unit_is_known_with_its_scale_or_not_at_all() {
    use crate::otlp::finer_units::{scale_of, FinerUnits, Scaled};
    let request = br#"{"resourceMetrics":[{"scopeMetrics":[{"metrics":[{"unit":"s","sum":{"aggregationTemporality":1}}]}]}]}"#;
    let finer_units = FinerUnits::new(["s=us".parse().unwrap()]).unwrap();
    for most in 0..1000 {
        let Some(Scaled::By(scale)) = scale_of(request, &finer_units) else { panic!("it has a rule") };
        let mut levels = Levels::new(most);
        let made = levels.scaled(levels::TOP, b"m", scale);
        let known = levels.find(levels::TOP, b"m");
        assert_eq!((known, known.is_some()), (made.ok(), known.is_some_and(|of| levels.scale(of).is_some())));
    }
}

/// Else a post of 4 MiB, of metrics of some bytes under a resource of 16 KiB, took a minute.
#[test]
fn what_a_request_may_learn_has_a_bound_and_the_next_one_goes_on() {
    let resource = field(1, &field(1, b"").repeat(8 << 10)); // attributes without a key
    let metrics: Vec<u8> =
        (0..1200).flat_map(|number| field(2, &field(1, format!("{number}").as_bytes()))).collect();
    let body = field(1, &[resource, field(2, &metrics)].concat());
    let book = Book::new(4 << 20);
    let reads: Vec<bool> = (0..4).map(|_| book.read(&body).is_some()).collect();
    assert_eq!((reads, book.series.is_full()), (vec![false, false, true, true], false));
}

/// Else it is written once more for each metric below it: a post of 4 MiB took minutes.
#[test]
fn what_is_long_above_points_is_read_otherwise() {
    let point = [fixed(2, 10), fixed(3, 20), fixed(6, 5)].concat();
    let body = |resource: &[u8], scope: &[u8], about: &[u8]| {
        let sum = field(7, &[field(1, &point), DELTA.to_vec()].concat());
        let metric = field(2, &[field(1, b"m"), field(2, about), sum].concat());
        field(1, &[field(1, resource), field(2, &[field(1, scope), metric].concat())].concat())
    };
    let book = Book::new(1 << 20);
    let long = vec![b'x'; crate::otlp::output::LONGEST_LIST + 1];
    let attribute = |number| field(number, &[field(1, b"k"), field(2, &field(1, &long))].concat());
    assert!(book.read(&body(b"", b"", b"")).is_some());
    for body in [body(&attribute(1), b"", b""), body(b"", &attribute(3), b""), body(b"", b"", &long)] {
        assert_eq!(book.read(&body), None);
    }
}

/// Else a series that came then was named in the one unit, and its values were in the other.
#[test]
fn a_metric_keeps_its_unit_where_a_rule_puts_another_of_its_name_into_a_coarser_one() {
    use crate::otlp::{taken_of_test, Encoding, FinerUnits};
    let choices = ["auto", "ms"].map(|choice| choice.parse().unwrap());
    let reading = Reading { finer_units: FinerUnits::of(choices).unwrap(), ..Reading::default() };
    let body = |unit: &[u8], key: &[u8]| {
        let point = [fixed(2, 10), fixed(3, 20), double(4, 0.5), attribute(7, key)].concat();
        let sum = field(7, &[&field(1, &point)[..], DELTA].concat());
        let metric = [field(1, b"m"), field(3, unit), sum].concat();
        field(1, &field(2, &field(2, &metric)))
    };
    let as_text = |body: Vec<u8>| taken_of_test(Encoding::Protobuf, body.into(), &reading).unwrap().body;
    let (series, named) = (Series::new(1 << 20), RefCell::new(Vec::new()));
    let read = |body: Vec<u8>| {
        let read = series.read(&body, &reading, |request| {
            named.borrow_mut().push(String::from_utf8(request.to_vec()).unwrap());
            Some(Learnt::Number(named.borrow().len() as u64 - 1))
        });
        read.unwrap().points.words().to_vec()
    };
    let is_in =
        |text: &[u8], unit: &str| String::from_utf8_lossy(text).contains(&format!(r#""unit":"{unit}""#));
    assert!(is_in(&as_text(body(b"s", b"a")), "us"), "its first point decides");
    assert_eq!(read(body(b"s", b"a")), [0, 10, 20, 500_000]);
    assert!(is_in(&as_text(body(b"ms", b"a")), "ms"), "by the rule");
    assert_eq!(read(body(b"s", b"b")), [1, 10, 20, 500_000]);
    assert!(named.borrow().iter().all(|text| is_in(text.as_bytes(), "us")), "{named:?}");
    assert!(is_in(&as_text(body(b"s", b"c")), "us"));
}
