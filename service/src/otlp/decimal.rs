//! Exact decimals: a double's shortest one, times a whole factor.

use std::cmp::Ordering;

/// A number with a sign, and its size as a fraction whose denominator is a power of ten.
#[derive(Clone, Copy, Debug, PartialEq, Eq)]
pub struct Decimal {
    pub is_negative: bool,
    pub numerator: u128,
    pub denominator: u128,
}

/// A whole number, and how far it is from what it was made of: 0 to 1/2.
#[derive(Clone, Copy, Debug, PartialEq)]
pub struct Nearest {
    pub whole: i128,
    pub by: f64,
}

fn power(exponent: i64) -> Option<u128> {
    10u128.checked_pow(u32::try_from(exponent).ok()?)
}

/// What digits say without the zeros at their end, and how many these are.
fn significant(digits: impl Iterator<Item = u8>) -> Option<(u128, i64)> {
    let (mut number, mut zeros) = (0u128, 0);
    for digit in digits {
        match digit {
            b'0' if number == 0 => {}
            b'0' => zeros += 1,
            b'1'..=b'9' => {
                let shift = if zeros == 0 { 10 } else { power(zeros + 1)? };
                number = number.checked_mul(shift)?.checked_add(u128::from(digit - b'0'))?;
                zeros = 0;
            }
            _ => return None,
        }
    }
    Some((number, zeros))
}

impl Decimal {
    /// Reads `-1.5e-3` and the like, and multiplies it. `None` where it is no such number, or is over 2^127 in size then, or has too
    /// many digits but for zeros at its ends: more than 20.
    pub fn times(text: &str, factor: u64) -> Option<Decimal> {
        let (is_negative, size) = match text.strip_prefix('-') {
            Some(size) => (true, size),
            None => (false, text),
        };
        let (digits, exponent) = size.split_once(['e', 'E']).unwrap_or((size, "0"));
        let (before, after) = digits.split_once('.').unwrap_or((digits, ""));
        let (numerator, zeros) = significant(before.bytes().chain(after.bytes()))?;
        if numerator == 0 {
            return Some(Decimal { is_negative, numerator, denominator: 1 });
        }
        let numerator = numerator.checked_mul(u128::from(factor))?;
        let exponent = exponent.parse::<i64>().ok()?.checked_sub(i64::try_from(after.len()).ok()?)?;
        let (numerator, denominator) = match exponent.checked_add(zeros)? {
            exponent @ 0.. => (numerator.checked_mul(power(exponent)?)?, 1),
            // Far below 1. What is cut off is rounded up: it is over zero, and what it is off by is told as a bound.
            exponent @ ..-38 => {
                let cut = power(-38 - exponent).unwrap_or(u128::MAX);
                (numerator.div_ceil(cut), 10u128.pow(38))
            }
            exponent => (numerator, power(-exponent)?),
        };
        (numerator <= i128::MAX as u128).then_some(Decimal { is_negative, numerator, denominator })
    }

    pub fn is_below_zero(&self) -> bool {
        self.is_negative && self.numerator > 0
    }

    /// The number, if it is whole.
    pub fn whole(&self) -> Option<i128> {
        self.numerator
            .is_multiple_of(self.denominator)
            .then(|| self.signed(self.numerator / self.denominator))
    }

    /// The nearest whole number; of two the even one.
    pub fn nearest(&self) -> Nearest {
        let (below, rest) = (self.numerator / self.denominator, self.numerator % self.denominator);
        let over = self.denominator - rest;
        let is_up = match rest.cmp(&over) {
            Ordering::Less => false,
            Ordering::Equal => below % 2 == 1,
            Ordering::Greater => true,
        };
        let (size, by) = if is_up { (below + 1, over) } else { (below, rest) };
        Nearest { whole: self.signed(size), by: by as f64 / self.denominator as f64 }
    }

    fn signed(&self, size: u128) -> i128 {
        // No size is over 2^127 - 1: see `times`.
        let size = i128::try_from(size).unwrap_or(i128::MAX);
        if self.is_negative {
            -size
        } else {
            size
        }
    }
}
