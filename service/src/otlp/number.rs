//! Numbers: what the book reads as a whole number, and what the protobuf JSON mapping does.

use super::decimal::Decimal;
use super::json::Value;

/// A whole double is exact up to here, and the book takes none beyond.
pub const MAX_WHOLE_DOUBLE: u64 = 1 << 53;

/// The whole number that the book reads: a JSON number without fraction or exponent, of 64 bits, or a text
/// of an optional minus and digits.
pub fn book_whole(value: Value<'_>) -> Option<i128> {
    if let Some(number) = value.number() {
        if !is_plain(number) {
            return None;
        }
        let whole: i128 = number.parse().ok()?;
        return (i128::from(i64::MIN)..=i128::from(u64::MAX)).contains(&whole).then_some(whole);
    }
    let text = value.text()?;
    let digits = text.strip_prefix('-').unwrap_or(&text);
    if digits.is_empty() || !digits.bytes().all(|byte| byte.is_ascii_digit()) {
        return None;
    }
    let whole: i128 = text.parse().ok()?;
    (whole.unsigned_abs() <= u128::from(u64::MAX)).then_some(whole)
}

/// Whether a JSON number is written without fraction and exponent, and is not `-0`.
pub fn is_plain(number: &str) -> bool {
    number != "-0" && !number.contains(['.', 'e', 'E'])
}

/// The whole number that the mapping reads from a number or a text: also `5.0`, `5e0` and `-0`.
pub fn mapped_whole(value: Value<'_>) -> Option<i128> {
    match value.number() {
        Some(number) => whole(number),
        None => whole(&value.text().filter(|text| is_number(text))?),
    }
}

/// The double that the mapping reads from a number or a text.
pub fn mapped_double(value: Value<'_>) -> Option<f64> {
    if let Some(number) = value.number() {
        return number.parse().ok();
    }
    let text = value.text()?;
    match &*text {
        "NaN" => Some(f64::NAN),
        "Infinity" => Some(f64::INFINITY),
        "-Infinity" => Some(f64::NEG_INFINITY),
        _ if is_number(&text) => text.parse().ok().filter(|double: &f64| double.is_finite()),
        _ => None,
    }
}

/// Whether a histogram may have it as a bound or a sum.
pub fn is_whole_double(whole: &i128) -> bool {
    whole.unsigned_abs() <= u128::from(MAX_WHOLE_DOUBLE)
}

/// The double as the whole number that it is, if the book takes it.
pub fn whole_double(double: f64) -> Option<i64> {
    let whole = double as i64; // the nearest one, 0 of what is no number
    let is_exact = whole as f64 == double && whole.unsigned_abs() <= MAX_WHOLE_DOUBLE;
    is_exact.then_some(whole)
}

/// A double as people write it: `0.005`, `1e300`, `NaN`.
pub fn double_shown(double: f64) -> String {
    match double.abs() {
        size if size == 0.0 || (1e-7..1e16).contains(&size) || !size.is_finite() => double.to_string(),
        _ => format!("{double:e}"),
    }
}

/// Whether a text is a JSON number and no more.
fn is_number(text: &str) -> bool {
    let size = text.strip_prefix('-').unwrap_or(text);
    let (digits, exponent) = size.split_once(['e', 'E']).unwrap_or((size, "0"));
    let (before, after) = digits.split_once('.').unwrap_or((digits, "0"));
    let exponent = exponent.strip_prefix(['+', '-']).unwrap_or(exponent);
    let are_digits = |part: &str| !part.is_empty() && part.bytes().all(|byte| byte.is_ascii_digit());
    [before, after, exponent].into_iter().all(are_digits) && (before.len() == 1 || !before.starts_with('0'))
}

/// The exact value of a JSON number, if it is whole and below 2^64 in size.
fn whole(number: &str) -> Option<i128> {
    let whole = Decimal::times(number, 1)?.whole()?;
    (whole.unsigned_abs() <= u128::from(u64::MAX)).then_some(whole)
}
