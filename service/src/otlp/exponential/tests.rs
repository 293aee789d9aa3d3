//! Edges beside powers that are taken in full, buckets by the data model's definition, and whole requests in both encodings.

use super::view::{Bucket, WhyNot};
use super::*;
use std::cmp::Ordering;

mod requests;

fn bounds(text: &str) -> Bounds {
    text.parse().unwrap()
}

fn edge(text: &str) -> Edge {
    Edge::of(edge::number(text).unwrap()).unwrap()
}

/// A number without limits, its lowest digit first.
#[derive(Clone, PartialEq)]
struct Large(Vec<u32>);

impl Large {
    fn times(&self, other: &Large) -> Large {
        let mut product = vec![0u64; self.0.len() + other.0.len() + 1];
        for (place, digit) in self.0.iter().enumerate() {
            for (more, other) in other.0.iter().enumerate() {
                let at = place + more;
                product[at] += u64::from(*digit) * u64::from(*other);
                product[at + 1] += product[at] >> 32;
                product[at] &= u64::from(u32::MAX);
            }
        }
        let mut digits: Vec<u32> = product.iter().map(|digit| *digit as u32).collect();
        while digits.last() == Some(&0) {
            digits.pop();
        }
        Large(digits)
    }

    fn power(base: u64, exponent: u32) -> Large {
        let base = Large(vec![base as u32, (base >> 32) as u32]).times(&Large(vec![1]));
        (0..exponent).fold(Large(vec![1]), |power, _| power.times(&base))
    }

    fn compared(&self, other: &Large) -> Ordering {
        let digits = |number: &Large| number.0.iter().rev().copied().collect::<Vec<u32>>();
        self.0.len().cmp(&other.0.len()).then_with(|| digits(self).cmp(&digits(other)))
    }
}

/// base^index to a fraction: both to the power 2^scale.
fn in_full(numerator: u64, denominator: u64, scale: u32, index: i64) -> Ordering {
    let two = Large::power(2, index.unsigned_abs() as u32);
    let (over, under) = (Large::power(numerator, 1 << scale), Large::power(denominator, 1 << scale));
    match index >= 0 {
        true => two.times(&under).compared(&over),
        false => under.compared(&over.times(&two)),
    }
}

#[test]
fn edges_compare_as_powers_that_are_taken_in_full() {
    let numbers = [
        ("1", 1, 1),
        ("3", 3, 1),
        ("0.005", 5, 1000),
        ("0.25", 1, 4),
        ("100", 100, 1),
        ("2.5", 25, 10),
        ("0.1", 1, 10),
    ];
    for (text, numerator, denominator) in numbers {
        let logarithm = (numerator as f64 / denominator as f64).log2();
        for scale in 0..6u32 {
            let near = (logarithm * f64::from(1 << scale)).floor() as i64;
            for index in near - 2..near + 4 {
                let wanted = in_full(numerator, denominator, scale, index);
                assert_eq!(edge(text).compared(scale as i32, index), wanted, "{text} {scale} {index}");
            }
        }
    }
}

/// The bases of the data model's table, to five places.
#[test]
fn bases_are_those_of_the_data_model() {
    let table = [
        (10, "1.00068"),
        (9, "1.00135"),
        (8, "1.00271"),
        (7, "1.00543"),
        (6, "1.01089"),
        (5, "1.02190"),
        (4, "1.04427"),
        (3, "1.09051"),
        (2, "1.18921"),
        (1, "1.41421"),
    ];
    for (scale, base) in table {
        let [less, more] = [-1, 1].map(|half| {
            let double = base.parse::<f64>().unwrap() + f64::from(half) * 5.1e-6;
            edge(&format!("{double:.7}"))
        });
        assert_eq!(less.compared(scale, 1), Ordering::Greater, "{base}");
        assert_eq!(more.compared(scale, 1), Ordering::Less, "{base}");
    }
    for (scale, base) in [(0, "2"), (-1, "4"), (-2, "16"), (-3, "256"), (-4, "65536")] {
        assert_eq!(edge(base).compared(scale, 1), Ordering::Equal, "{base}");
        assert_eq!(edge(base).compared(scale, 2), Ordering::Greater, "{base}");
    }
}

fn within(bucket: Bucket, bound: f64) -> Result<usize, WhyNot> {
    Err(WhyNot::Within { bucket, bound })
}

#[test]
fn a_bucket_falls_into_one_of_the_view_or_has_a_bound_within() {
    let view = bounds("1,2,4,8,100");
    let positive = |scale, index| Bucket::Positive { scale, index };
    for (bucket, wanted) in [
        // (1/2, 1], (1, 2], (2, 4], (8, 16], (32, 64], (128, 256]
        (positive(0, -1), Ok(0)),
        (positive(0, 0), Ok(1)),
        (positive(0, 1), Ok(2)),
        (positive(0, 3), Ok(4)),
        (positive(0, 5), Ok(4)),
        (positive(0, 6), within(positive(0, 6), 100.0)),
        (positive(0, 7), Ok(5)),
        // (1/4, 1], (1, 4], (256, 1024]
        (positive(-1, -1), Ok(0)),
        (positive(-1, 0), within(positive(-1, 0), 2.0)),
        (positive(-1, 4), Ok(5)),
        // Up to 98.7, and 107.6.
        (positive(3, 52), Ok(4)),
        (positive(3, 53), within(positive(3, 53), 100.0)),
        (positive(3, 54), Ok(5)),
        // log2(100) is 6.643856189774724.
        (positive(20, 6_966_587), Ok(4)),
        (positive(20, 6_966_588), within(positive(20, 6_966_588), 100.0)),
        (positive(20, 6_966_589), Ok(5)),
        (positive(20, i64::from(i32::MIN)), Ok(0)),
        (positive(20, i64::from(i32::MAX)), Ok(5)),
        (Bucket::Negative { scale: 0, index: 5 }, Ok(0)),
        (Bucket::Zero { threshold: 0.0 }, Ok(0)),
        (Bucket::Zero { threshold: 1.0 }, Ok(0)),
        (Bucket::Zero { threshold: 1.5 }, within(Bucket::Zero { threshold: 1.5 }, 1.0)),
    ] {
        assert_eq!(view.place(bucket), wanted, "{bucket:?}");
    }
}

/// The lower end of a negative bucket is in it, and that of the view's is not.
#[test]
fn negative_buckets_have_their_lower_end() {
    let view = bounds("-5,-4,-0.75,0,0.5");
    let negative = |scale, index| Bucket::Negative { scale, index };
    for (bucket, wanted) in [
        // [-8, -4), [-4, -2), [-2, -1), [-1, -1/2), [-1/2, -1/4)
        (negative(0, 2), within(negative(0, 2), -5.0)),
        (negative(0, 1), within(negative(0, 1), -4.0)),
        (negative(0, 0), Ok(2)),
        (negative(0, -1), within(negative(0, -1), -0.75)),
        (negative(0, -2), Ok(3)),
        (negative(0, 3), Ok(0)),
        (negative(-1, 1), within(negative(-1, 1), -5.0)),
        (Bucket::Positive { scale: 0, index: -2 }, Ok(4)),
        (Bucket::Positive { scale: 0, index: -1 }, Ok(5)),
        (Bucket::Zero { threshold: 0.0 }, Ok(3)),
        (Bucket::Zero { threshold: 0.25 }, within(Bucket::Zero { threshold: 0.25 }, 0.0)),
    ] {
        assert_eq!(view.place(bucket), wanted, "{bucket:?}");
    }
    assert_eq!(
        bounds("-1,1").place(Bucket::Zero { threshold: 1.0 }),
        within(Bucket::Zero { threshold: 1.0 }, -1.0)
    );
    assert_eq!(bounds("-1,1").place(Bucket::Zero { threshold: 0.5 }), Ok(1));
    // A threshold that is the nearest double of the bound may be more than it.
    let tenth = Bucket::Zero { threshold: 0.1 };
    assert_eq!(bounds("0.1").place(tenth), within(tenth, 0.1));
}

#[test]
fn bounds_are_read_or_refused() {
    assert_eq!(bounds("-1,0,0.015625,0.1,4096").written(), r#"-1,0,"0.015625","0.1",4096"#);
    let many: Vec<String> = (0..256).map(|bound| bound.to_string()).collect();
    for (text, why) in [
        ("", "no"),
        ("1,,2", "a bound is a number"),
        ("1,x", "`x`"),
        ("1e3", "`1e3`"),
        (".5", "`.5`"),
        ("5.", "`5.`"),
        ("--5", "`--5`"),
        ("1234567890123456", "at most 15 digits"),
        ("2,1", "after 2 comes 1"),
        ("1,1.0", "after 1 comes 1"),
        (&many.join(","), "at most 255"),
    ] {
        let error = text.parse::<Bounds>().unwrap_err();
        assert!(error.contains(why), "{text}: {error}");
    }
    assert_eq!(bounds(&many[..255].join(",")).0.len(), 255);
}
