//! Where a number is among the edges of exponential buckets: base^index, where base is 2^(2^-scale).
//!
//! A fraction that is no power of two is no edge of any scale, since no power of it is one of two. So of two numbers nothing but
//! the order counts, which is that of their logarithms: `Edge` has the number's to the finest scale, by squares that are bounded
//! from both sides.

use crate::otlp::decimal::Decimal;
use std::cmp::Ordering;

/// The scales that OpenTelemetry's SDKs have.
pub const FINEST: u32 = 20;
pub const COARSEST: i32 = -10;

/// The digits of a bound. So many are exact in a double.
const MOST_DIGITS: usize = 15;
/// The binary places in which squares are taken.
const PLACES: u32 = 62;
const ONE: u128 = 1 << PLACES;

/// Reads a bound: `0.5`, `-1`.
pub fn number(text: &str) -> Result<Decimal, String> {
    let size = text.strip_prefix('-').unwrap_or(text);
    let (before, after) = size.split_once('.').unwrap_or((size, "0"));
    let are_digits = |part: &str| !part.is_empty() && part.bytes().all(|byte| byte.is_ascii_digit());
    let is_short = size.bytes().filter(u8::is_ascii_digit).count() <= MOST_DIGITS;
    let number = Decimal::times(text, 1).filter(|_| is_short && are_digits(before) && are_digits(after));
    number.ok_or_else(|| {
        format!(
            "a bound is a number of at most {MOST_DIGITS} digits, such as 0.5, and this is none: `{text}`"
        )
    })
}

/// The nearest double: both parts of the fraction are doubles.
pub fn double(number: Decimal) -> f64 {
    let size = number.numerator as f64 / number.denominator as f64;
    if number.is_below_zero() {
        -size
    } else {
        size
    }
}

/// Whether that is the number itself.
pub fn is_double(number: Decimal) -> bool {
    lowest(number).1.is_power_of_two()
}

/// The fraction in lowest terms.
fn lowest(number: Decimal) -> (u128, u128) {
    let (mut divisor, mut rest) = (number.numerator, number.denominator);
    while rest != 0 {
        (divisor, rest) = (rest, divisor % rest);
    }
    (number.numerator / divisor, number.denominator / divisor)
}

/// Of a number over zero its logarithm to the base 2, in parts of 2^-FINEST.
#[derive(Clone, Copy, Debug, PartialEq, Eq)]
pub struct Edge {
    /// The whole part.
    at: i64,
    /// Nothing is over it: the number is an edge of the finest scale. It is a power of two then.
    is_exact: bool,
}

impl Edge {
    /// Of a number's size. None where it is so near to an edge that squares of these places do not tell on which side it is.
    pub fn of(number: Decimal) -> Option<Edge> {
        let (numerator, denominator) = lowest(number);
        let power = whole_logarithm(numerator, denominator);
        let at = i64::from(power) << FINEST;
        if numerator.is_power_of_two() && denominator.is_power_of_two() {
            return Some(Edge { at, is_exact: true });
        }
        let least = (numerator << (PLACES as i32 - power)) / denominator; // between 1 and 2, and so below 2^63
        Some(Edge { at: at + fraction(least, least + 1)?, is_exact: false })
    }

    /// How an edge of this number at a scale compares with the number: base^index to it. The scale is one of an SDK.
    pub fn compared(self, scale: i32, index: i64) -> Ordering {
        let shift = FINEST as i32 - scale;
        let below = self.at >> shift;
        match index.cmp(&below) {
            Ordering::Equal if self.is_exact && below << shift == self.at => Ordering::Equal,
            Ordering::Equal => Ordering::Less,
            other => other,
        }
    }
}

/// The greatest power of two that is not over a fraction.
fn whole_logarithm(numerator: u128, denominator: u128) -> i32 {
    let power = denominator.leading_zeros() as i32 - numerator.leading_zeros() as i32;
    let is_over = match power {
        0.. => numerator < denominator << power,
        _ => numerator << -power < denominator,
    };
    power - i32::from(is_over)
}

/// The binary places of the logarithm of a number from 1 to 2, which is no power of two and between these: each square that
/// comes to 2 is a one.
fn fraction(mut least: u128, mut most: u128) -> Option<i64> {
    let mut places = 0;
    for _ in 0..FINEST {
        (least, most) = ((least * least) >> PLACES, (most * most).div_ceil(ONE));
        let is_one = least >= 2 * ONE;
        if !is_one && most > 2 * ONE {
            return None;
        }
        if is_one {
            (least, most) = (least / 2, most.div_ceil(2));
        }
        places = places << 1 | i64::from(is_one);
    }
    Some(places)
}
