//! The numbers of a metric's points where these are read by number: as `rewrite` has them in the request's text.

use super::plan::{decided, Delta, Taken};
use super::rewrite::{is_word, sum_of_histogram, value_of_sum};
use super::FinerUnits;
use crate::otlp::decimal::Decimal;
use crate::otlp::json::Document;
use crate::otlp::number::MAX_WHOLE_DOUBLE;
use crate::otlp::series::{is_monotonic, metrics};
use std::sync::Arc;

/// How long the shortest decimal of a double may be.
const DIGITS: usize = 32;

/// What a metric's points are multiplied by.
pub struct Scale {
    /// None where it is taken in whole numbers of its own unit, and its doubles are not.
    factor: Option<u64>,
    /// As it is counted.
    pub rule: Arc<str>,
    is_monotonic: bool,
}

/// How a metric is taken.
pub enum Scaled {
    Plain,
    By(Scale),
    /// Its first points decide.
    Undecided,
}

/// Of the one metric of a request in the book's form, which has no points.
pub fn scale_of(request: &[u8], finer_units: &FinerUnits) -> Option<Scaled> {
    let document = Document::parse(request).ok()?;
    let metric = metrics(&document).next()?;
    let Some(delta) = Delta::of(finer_units, metric) else {
        return Some(Scaled::Plain); // none of its points is taken
    };
    let is_monotonic = is_monotonic(delta.data);
    let (factor, rule) = match decided(finer_units, metric) {
        None => return Some(Scaled::Undecided),
        Some(Taken::AsItIs) => return Some(Scaled::Plain),
        Some(Taken::Whole(_)) => (None, "".into()),
        Some(Taken::In(rule)) => (Some(rule.factor), rule.text.clone()),
    };
    Some(Scaled::By(Scale { factor, rule, is_monotonic }))
}

/// A value's bits in the finer unit, and what it was rounded by. None of what is not taken, which the request's text names.
pub type InFiner = Option<(u64, f64)>;

impl Scale {
    /// Whether its doubles may be taken.
    pub fn is_finer(&self) -> bool {
        self.factor.is_some()
    }

    /// The bits of a sum's whole number.
    pub fn whole(&self, bits: u64) -> InFiner {
        let product = i128::from(bits as i64) * i128::from(self.factor.unwrap_or(1));
        is_word(&product).then_some((product as i64 as u64, 0.0))
    }

    /// A sum's double, as the bits of a whole number.
    pub fn double(&self, double: f64) -> InFiner {
        let near = value_of_sum(self.exact(double)?, self.is_monotonic)?;
        Some((near.whole as i64 as u64, near.by))
    }

    /// The sum of a histogram.
    pub fn sum(&self, double: f64) -> InFiner {
        let near = sum_of_histogram(self.exact(double)?)?;
        Some((near.whole as u64, near.by))
    }

    fn exact(&self, double: f64) -> Option<Decimal> {
        let is_exact = double.abs() <= MAX_WHOLE_DOUBLE as f64;
        let factor = self.factor.filter(|_| is_exact)?;
        let mut digits = [0; DIGITS];
        let mut left = &mut digits[..];
        serde_json::to_writer(&mut left, &double).ok()?;
        let length = DIGITS - left.len();
        Decimal::times(std::str::from_utf8(&digits[..length]).ok()?, factor)
    }
}
