//! Codes points in few bytes, for the journal. Each point has these fields, in this order:
//!
//! | field | written as a difference from |
//! |---|---|
//! | the number of its series | the previous point's number plus one; 0 for the first point |
//! | its end | the previous point's end; 0 for the first point |
//! | its length, end minus start | the previous point's length; 0 for the first point |
//! | how many values it has | |
//! | which values are not 0: one byte for six values, 32 plus a bit each, the lowest first | |
//! | the values that are not 0 | |
//!
//! A number is written in groups of 7 bits, the lowest first, as 128 plus the group; when less than 96 is left, that is
//! the last byte, plus 32. So no byte is the kind of a record, and points never contain a record, whatever a sender
//! sends. Where a number may be negative, as a difference or a value, n is written as 2n and -n as 2n-1. Arithmetic
//! wraps, so any 64 bits can be written. Each list of points has exactly one coding.
//!
//! If some points were converted from cumulative ones, `runs` has what is written before the points.

mod runs;

use super::post::Points;

/// The byte of a 0; lower bytes may be kinds of records.
const FIRST: u8 = 32;
/// From this byte on, more bytes of the number follow.
const MORE: u8 = 128;
/// Smaller numbers take one byte.
const LAST: u64 = (MORE - FIRST) as u64;
/// How many values one byte of bits covers.
const SIX: usize = 6;
/// The most bytes of a number.
pub(super) const MOST_OF_NUMBER: usize = 10;
/// A usual list takes at most this many bytes for each of its words, and these for the first time.
const FOR_A_WORD: usize = 4;
const FOR_A_TIME: usize = 16;
/// A usual list takes at least this many bytes for a word, and these for a point.
const BYTES_OF_WORD: usize = 2;
const BYTES_OF_POINT: usize = 8;

pub(super) fn of(points: &Points) -> Vec<u8> {
    let mut out = Vec::with_capacity(FOR_A_TIME + points.words().len() * FOR_A_WORD);
    if !points.runs().is_empty() {
        runs::put(&mut out, points);
    }
    let mut last = Last::default();
    for point in points.each() {
        last.put(&mut out, point);
    }
    out
}

/// Reads all bytes; none if they are no points. Uses at most six words of memory for a byte.
pub(super) fn read(mut bytes: &[u8]) -> Option<Points> {
    let mut points = Points::with_words(bytes.len() / BYTES_OF_WORD, bytes.len() / BYTES_OF_POINT);
    let mut last = Last::default();
    while !bytes.is_empty() {
        last.read(&mut bytes, &mut points)?;
    }
    Some(points)
}

/// Reads points that have runs written before them.
pub(super) fn read_with_runs(mut bytes: &[u8]) -> Option<Points> {
    let of_runs = runs::take(&mut bytes).filter(|of_runs| !of_runs.is_empty())?; // without any, the points would have a second coding
    let mut points = read(bytes)?;
    runs::give(&mut points, of_runs)?;
    Some(points)
}

pub(crate) fn put_number(out: &mut Vec<u8>, mut number: u64) {
    while number >= LAST {
        out.push(MORE | number as u8);
        number >>= 7;
    }
    out.push(FIRST + number as u8);
}

/// Takes a number off the front; none if it is coded longer than needed, or has more than 64 bits.
pub(crate) fn take_number(bytes: &mut &[u8]) -> Option<u64> {
    if let [byte @ FIRST..MORE, rest @ ..] = bytes {
        let number = u64::from(*byte - FIRST);
        *bytes = rest;
        return Some(number);
    }
    take_long_number(bytes)
}

fn take_long_number(bytes: &mut &[u8]) -> Option<u64> {
    let (mut number, mut before) = (0, u64::MAX);
    for shift in (0..64).step_by(7) {
        let (byte, rest) = bytes.split_first()?;
        *bytes = rest;
        if *byte < MORE {
            let last = u64::from(byte.checked_sub(FIRST)?);
            let is_short = last > 0 || before >= LAST;
            let fits = last << shift >> shift == last;
            return (is_short && fits).then_some(number | last << shift);
        }
        before = u64::from(byte - MORE);
        number |= before << shift;
    }
    None
}

fn put_signed(out: &mut Vec<u8>, number: u64) {
    let number = number as i64;
    put_number(out, ((number << 1) ^ (number >> 63)) as u64);
}

fn take_signed(bytes: &mut &[u8]) -> Option<u64> {
    let number = take_number(bytes)?;
    Some((number >> 1) ^ (number & 1).wrapping_neg())
}

/// What the next point is coded against.
#[derive(Default)]
struct Last {
    /// The expected number.
    number: u64,
    end: u64,
    length: u64,
}

impl Last {
    fn put(&mut self, out: &mut Vec<u8>, point: &[u64]) {
        let [number, start, end, says @ ..] = point else {
            return; // `Points` has none that is shorter
        };
        let length = end.wrapping_sub(*start);
        put_signed(out, number.wrapping_sub(self.number));
        put_signed(out, end.wrapping_sub(self.end));
        put_signed(out, length.wrapping_sub(self.length));
        self.note(*number, *end, length);
        put_number(out, says.len() as u64);
        for six in says.chunks(SIX) {
            let bits = six.iter().rev();
            out.push(FIRST + bits.fold(0, |byte, word| byte << 1 | u8::from(*word != 0)));
        }
        let said = says.iter().filter(|word| **word != 0);
        said.for_each(|word| put_signed(out, *word));
    }

    fn read(&mut self, bytes: &mut &[u8], points: &mut Points) -> Option<()> {
        let number = self.number.wrapping_add(take_signed(bytes)?);
        let end = self.end.wrapping_add(take_signed(bytes)?);
        let length = self.length.wrapping_add(take_signed(bytes)?);
        self.note(number, end, length);
        let count = usize::try_from(take_number(bytes)?).ok()?;
        let (bits, rest) = bytes.split_at_checked(count.div_ceil(SIX))?;
        *bytes = rest;
        let is_said = |word: usize| (bits[word / SIX] - FIRST) >> (word % SIX) & 1 != 0;
        let are_bits = bits.iter().all(|byte| (FIRST..FIRST + (1 << SIX)).contains(byte));
        if !are_bits || (count..bits.len() * SIX).any(is_said) {
            return None;
        }
        let mut is_sound = true;
        let says = (0..count).map(|word| match is_said(word) {
            false => 0,
            true => take_word(bytes).unwrap_or_else(|| {
                is_sound = false;
                0
            }),
        });
        points.push(number, end.wrapping_sub(length), end, says);
        is_sound.then_some(())
    }

    fn note(&mut self, number: u64, end: u64, length: u64) {
        *self = Last { number: number.wrapping_add(1), end, length };
    }
}

/// Takes a value that is not 0.
fn take_word(bytes: &mut &[u8]) -> Option<u64> {
    take_signed(bytes).filter(|word| *word != 0)
}

#[cfg(test)]
mod tests;
