//! The fields of a point, where they are in its bytes.

use super::levels::FOREIGN;
use super::walk::Slow;
use crate::otlp::number::whole_double;
use crate::otlp::schema::{of_histogram, of_sum};
use crate::otlp::wire::Fields;

/// Passes a point's times, which are 0 where they are not there.
#[inline]
pub fn span(fields: &mut Fields<'_>) -> (u64, u64) {
    let start = fields.fixed64(of_sum::START).unwrap_or(0);
    (start, fields.fixed64(of_sum::END).unwrap_or(0))
}

/// Passes the least and the largest value, which say nothing.
#[inline(always)]
pub fn pass_extremes(fields: &mut Fields<'_>) {
    for number in of_histogram::EXTREMES {
        let _ = fields.fixed64(number);
    }
}

/// That a histogram's point has a sum, as a word, and the sum; none of one that is not taken.
#[inline]
pub fn whole_sum(sum: f64) -> Option<[u64; 2]> {
    Some([1, u64::try_from(whole_double(sum)?).ok()?])
}

/// The value of a sum's point.
pub enum Number {
    /// Its bits.
    Whole(u64),
    Double(f64),
}

/// Passes the value of a sum's point, if it is next.
#[inline]
pub fn number(fields: &mut Fields<'_>) -> Option<Number> {
    let value = fields.fixed64(of_sum::INT).map(Number::Whole);
    value.or_else(|| fields.fixed64(of_sum::DOUBLE).map(|bits| Number::Double(f64::from_bits(bits))))
}

/// Whether a point has a span.
pub fn is_span(start: u64, end: u64) -> bool {
    0 < start && start < end
}

/// Whether buckets add up to their count.
pub fn adds_up(buckets: &[[u8; 8]], count: u64) -> bool {
    let all = buckets.iter().map(|bucket| u128::from(u64::from_le_bytes(*bucket)));
    all.sum::<u128>() == u128::from(count)
}

/// Whether a point may be taken, by its series and its flags. Of these 32 bits are read, and the lowest is that nothing
/// was recorded.
#[inline]
pub fn is_recorded(number: u32, flags: Option<u64>) -> bool {
    number != FOREIGN && flags.unwrap_or(0) & 1 == 0
}

/// A list of eight bytes each; empty where it is not there.
#[inline]
pub fn eights(packed: Option<&[u8]>) -> Result<&[[u8; 8]], Slow> {
    match packed.unwrap_or_default().as_chunks() {
        (all, []) => Ok(all),
        _ => Err(Slow),
    }
}
