//! The rules for one point of a sum or a histogram, as the book has them: its words, its part of a key, or why it is
//! foreign.

use super::identity::write_attributes;
use super::why::{What, Why};
use crate::otlp::json::Value;
use crate::otlp::number::{book_whole, MAX_WHOLE_DOUBLE};
use std::fmt::Write;

const MAX_BOUNDS: usize = 255;
const MONOTONIC: &str = ",\"monotonic\"";
const SUM: &str = ",\"sum\"";
const ATTRIBUTE: &str = "attribute";

type Read<'d, T> = Result<T, Why<'d>>;

/// What is read of a point.
#[derive(Default)]
pub struct Put {
    /// What is above the point, and then what is its own.
    pub key: String,
    /// Its start and end, and then a sum's value, or a histogram's count, whether it has a sum, the sum, and its buckets.
    pub words: Vec<u64>,
}

/// What a point's value is of.
#[derive(Clone, Copy, Debug, PartialEq, Eq)]
pub enum Temporality {
    /// Of its span alone.
    Delta,
    /// Of all since its start, which may be as late as its end, and 0 where it is not known.
    Cumulative,
}

fn foreign<'d, T>(what: What, field: &'static str, value: Option<Value<'d>>) -> Read<'d, T> {
    Err(Why::new(what, field, value))
}

/// Writes the kind of a sum behind a key.
pub fn sum_kind<'d>(put: &mut Put, data: Value<'d>) -> Read<'d, ()> {
    let found = data.member("isMonotonic");
    let monotonic = match found.map(Value::truth) {
        None => false,
        Some(Some(truth)) => truth,
        Some(None) => return foreign(What::NoTruth, "isMonotonic", found),
    };
    put.key.push_str(if monotonic { MONOTONIC } else { SUM });
    Ok(())
}

/// A sum's point.
pub fn sum_point<'d>(put: &mut Put, point: Value<'d>, temporality: Temporality) -> Read<'d, ()> {
    let [start, end, number, double, flags, attributes] = point
        .named(["startTimeUnixNano", "timeUnixNano", "asInt", "asDouble", "flags", "attributes"])
        .unwrap_or_default();
    let span = span(start, end, flags, temporality)?;
    if double.is_some() {
        return foreign(What::Double, "asDouble", double);
    }
    let Some(value) = number else {
        return foreign(What::NoNumber, "asInt", None);
    };
    let whole = match book_whole(value) {
        None => return foreign(What::NotWhole, "asInt", number),
        Some(whole) if whole < 0 && put.key.ends_with(MONOTONIC) => {
            return foreign(What::Negative, "asInt of a monotonic sum", number)
        }
        Some(whole) if whole.unsigned_abs() > i64::MAX as u128 => {
            return foreign(What::TooLarge, "asInt", number)
        }
        Some(whole) => whole as i64,
    };
    put.words.extend(span);
    put.words.push(whole as u64);
    write_own(&mut put.key, attributes)
}

/// A histogram's point, whose bounds are a part of its key.
pub fn histogram_point<'d>(put: &mut Put, point: Value<'d>, temporality: Temporality) -> Read<'d, ()> {
    let [start, end, count, sum, flags, buckets, bounds, attributes] = point
        .named([
            "startTimeUnixNano",
            "timeUnixNano",
            "count",
            "sum",
            "flags",
            "bucketCounts",
            "explicitBounds",
            "attributes",
        ])
        .unwrap_or_default();
    let span = span(start, end, flags, temporality)?;
    let count = natural("count", count)?;
    let whole = natural("sum", sum)?;
    if whole > MAX_WHOLE_DOUBLE {
        return foreign(What::TooLarge, "sum", sum);
    }
    put.words.extend(span);
    put.words.extend([count, u64::from(sum.is_some()), whole]);
    let bounds = write_bounds(&mut put.key, bounds)?;
    put_buckets(&mut put.words, buckets, bounds, count)?;
    write_own(&mut put.key, attributes)
}

fn write_own<'d>(key: &mut String, attributes: Option<Value<'d>>) -> Read<'d, ()> {
    key.push(',');
    write_attributes(key, ATTRIBUTE, attributes)?;
    key.push(']');
    Ok(())
}

/// The start and the end of a span, if the point has one and a recorded value.
fn span<'d>(
    start: Option<Value<'d>>,
    end: Option<Value<'d>>,
    flags: Option<Value<'d>>,
    temporality: Temporality,
) -> Read<'d, [u64; 2]> {
    let may_be_empty = temporality == Temporality::Cumulative;
    let from = natural("startTimeUnixNano", start)?;
    if from == 0 && !may_be_empty {
        return foreign(What::NoStart, "startTimeUnixNano", start);
    }
    let until = natural("timeUnixNano", end)?;
    if until < from || until == from && !(may_be_empty && from > 0) {
        return foreign(What::EmptySpan, "timeUnixNano", end);
    }
    match u32::try_from(natural("flags", flags)?) {
        Err(_) => foreign(What::TooLarge, "flags", flags),
        Ok(bits) if bits % 2 == 1 => foreign(What::NotRecorded, "flags", flags),
        Ok(_) => Ok([from, until]),
    }
}

/// A whole number that is not negative, 0 where it is absent.
fn natural<'d>(field: &'static str, found: Option<Value<'d>>) -> Read<'d, u64> {
    let Some(value) = found else { return Ok(0) };
    match book_whole(value) {
        None => foreign(What::NotWhole, field, found),
        Some(whole) if whole < 0 => foreign(What::Negative, field, found),
        Some(whole) => u64::try_from(whole).or_else(|_| foreign(What::TooLarge, field, found)),
    }
}

/// Writes the bounds, strictly ascending; how many there are.
fn write_bounds<'d>(key: &mut String, found: Option<Value<'d>>) -> Read<'d, usize> {
    let mut bounds = 0;
    let mut last = i128::MIN;
    key.push_str(",[");
    if let Some(list) = found {
        let Some(elements) = list.elements() else {
            return foreign(What::NoList, "explicitBounds", found);
        };
        for value in elements {
            let Some(bound) = book_whole(value) else {
                return foreign(What::NotWhole, "a bound", Some(value));
            };
            if bounds == MAX_BOUNDS {
                return foreign(What::ManyBounds, "explicitBounds", None);
            }
            if bound <= last {
                return foreign(What::NotAscending, "explicitBounds", Some(value));
            }
            if bound.unsigned_abs() > u128::from(MAX_WHOLE_DOUBLE) {
                return foreign(What::TooLarge, "a bound", Some(value));
            }
            let _ = write!(key, "{}{bound}", if bounds > 0 { "," } else { "" });
            (bounds, last) = (bounds + 1, bound);
        }
    }
    key.push(']');
    Ok(bounds)
}

/// Puts buckets, if they fit the bounds and add up to the count.
fn put_buckets<'d>(
    words: &mut Vec<u64>,
    found: Option<Value<'d>>,
    bounds: usize,
    count: u64,
) -> Read<'d, ()> {
    let (mut buckets, mut total) = (0, 0);
    if let Some(list) = found {
        let Some(elements) = list.elements() else {
            return foreign(What::NoList, "bucketCounts", found);
        };
        for value in elements {
            let bucket = natural("a bucket", Some(value))?;
            total += u128::from(bucket);
            buckets += 1;
            words.push(bucket);
        }
    }
    match buckets {
        0 if bounds == 0 => {
            words.push(count); // one bucket has all
            Ok(())
        }
        _ if buckets != bounds + 1 => foreign(What::NotFitting, "bucketCounts", found),
        _ if total != u128::from(count) => foreign(What::NotAdding, "bucketCounts", found),
        _ => Ok(()),
    }
}
