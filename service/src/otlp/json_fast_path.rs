//! JSON in the form that most senders write: the book reads it as it is meant, which one look over the bytes says.
//!
//! Here is known what needs no thought: names as the book has them, each once, plain texts, short numbers. Of any
//! other body nothing is said, and `from_json` writes it anew.

mod points;

use super::json::{digits_length, escaped, is_text, plain_length};
use super::schema::{
    exponential_histogram, Field, Kind, Message, HISTOGRAM_POINT, KEY_VALUE, METRIC, NUMBER_POINT, REQUEST,
};
use super::Reading;

/// More than a request has, but for values in values.
const MAX_DEPTH: usize = 16;
/// How many attributes of a list are remembered.
const ATTRIBUTES: usize = 16;
/// Digits that fit 64 bits.
const DIGITS: usize = 19;
/// Digits of a whole number that is exact as a double.
const DIGITS_OF_DOUBLE: usize = 15;

/// A body that the book reads as it is meant.
#[derive(Debug, PartialEq)]
pub struct AsItCame {
    /// Whether a metric is cumulative.
    pub is_cumulative: bool,
}

/// What a body is that the book reads as it is meant, as far as that is seen at once. None says nothing.
pub fn as_it_came(body: &[u8], reading: &Reading) -> Option<AsItCame> {
    if reading.finer_units.has_no_unit() || !reading.dropped.is_empty() {
        return None;
    }
    let mut look = Look {
        rest: body,
        reading,
        last: [&[]; ATTRIBUTES],
        bounds: &[],
        metric: &[],
        is_measured: false,
        has_doubles: false,
        is_cumulative: false,
    };
    look.message(&REQUEST, 0)?;
    let is_whole = look.peek().is_none() && look.rest.is_empty() && is_text(body);
    is_whole.then_some(AsItCame { is_cumulative: look.is_cumulative })
}

/// What is not known is None.
struct Look<'a> {
    rest: &'a [u8],
    reading: &'a Reading,
    /// Of earlier lists, at each place the attribute that was looked at last.
    last: [&'a [u8]; ATTRIBUTES],
    /// The bounds that were looked at last.
    bounds: &'a [u8],
    /// From the metric on that it is in,
    metric: &'a [u8],
    /// whose unit is one that `--integer-unit` is about,
    is_measured: bool,
    /// and of which a point has a double.
    has_doubles: bool,
    /// Whether one of the metrics is cumulative.
    is_cumulative: bool,
}

impl<'a> Look<'a> {
    /// The next byte behind blanks.
    fn peek(&mut self) -> Option<u8> {
        loop {
            match self.rest {
                [byte @ b'!'..=255, ..] => return Some(*byte),
                [b' ' | b'\t' | b'\n' | b'\r', rest @ ..] => self.rest = rest,
                _ => return None,
            }
        }
    }

    /// Whether this byte is next; it is passed then.
    fn is_next(&mut self, byte: u8) -> bool {
        let is_next = self.peek() == Some(byte);
        if is_next {
            self.rest = &self.rest[1..];
        }
        is_next
    }

    fn take(&mut self, byte: u8) -> Option<()> {
        self.is_next(byte).then_some(())
    }

    /// Whether a container goes on behind a comma, or else ends with `end`.
    fn goes_on(&mut self, end: u8) -> Option<bool> {
        let byte = self.peek()?;
        self.rest = &self.rest[1..];
        match byte {
            b',' => Some(true),
            byte if byte == end => Some(false),
            _ => None,
        }
    }

    /// Its length is known here, so that it is compared by a few words of the machine.
    fn word<const N: usize>(&mut self, word: &[u8; N]) -> Option<()> {
        let (next, rest) = self.rest.split_first_chunk()?;
        if next != word {
            return None;
        }
        self.rest = rest;
        Some(())
    }

    /// A text without escapes.
    fn text(&mut self) -> Option<&'a [u8]> {
        self.take(b'"')?;
        let text = self.inside();
        self.word(b"\"")?;
        Some(text)
    }

    /// Passes a text, also one with escapes.
    fn any_text(&mut self) -> Option<()> {
        self.take(b'"')?;
        self.inside();
        while self.rest.first() == Some(&b'\\') {
            self.rest = &self.rest[escaped(self.rest)?.1..];
            self.inside();
        }
        self.word(b"\"")
    }

    /// What is between the quotes of a text, up to an escape.
    fn inside(&mut self) -> &'a [u8] {
        let (text, behind) = self.rest.split_at(plain_length(self.rest));
        self.rest = behind;
        text
    }

    fn digits(&mut self, most: usize) -> Option<&'a [u8]> {
        let (digits, behind) = self.rest.split_at(digits_length(self.rest));
        self.rest = behind;
        (1..=most).contains(&digits.len()).then_some(digits)
    }

    /// The digits of a time from 2001 to 2286: as many as fit 64 bits.
    fn time(&mut self) -> Option<()> {
        let (digits, rest) = self.rest.split_first_chunk::<DIGITS>()?;
        let are_digits = digits.iter().fold(true, |all, byte| all & byte.is_ascii_digit()); // all at once
        self.rest = rest;
        are_digits.then_some(())
    }

    /// A whole number of so many digits at most. What follows of another number is not passed.
    fn number(&mut self, most: usize) -> Option<()> {
        let has_minus = self.is_next(b'-');
        match self.digits(most)? {
            [b'0'] if has_minus => None, // to the book it is a double
            [b'0', _, ..] => None,
            _ => Some(()),
        }
    }

    fn temporality(&mut self) -> Option<()> {
        self.is_cumulative |= self.peek()? == b'2'; // a number of one digit
        self.number(1)
    }

    /// A whole number, or a text of one.
    fn whole(&mut self) -> Option<()> {
        if !self.is_next(b'"') {
            return self.number(DIGITS - 1); // with a minus it may have no more
        }
        self.rest = self.rest.strip_prefix(b"-").unwrap_or(self.rest);
        self.digits(DIGITS)?;
        self.word(b"\"")
    }

    fn truth(&mut self) -> Option<()> {
        match self.peek()? {
            b't' => self.word(b"true"),
            _ => self.word(b"false"),
        }
    }

    /// A value that is passed over.
    fn scalar(&mut self) -> Option<()> {
        match self.peek()? {
            b'"' => self.any_text(),
            b't' | b'f' => self.truth(),
            _ => {
                self.number(DIGITS)?;
                match self.word(b".") {
                    Some(()) => self.digits(DIGITS).map(|_| ()),
                    None => Some(()),
                }
            }
        }
    }

    fn list(&mut self, mut each: impl FnMut(&mut Self) -> Option<()>) -> Option<()> {
        self.take(b'[')?;
        if self.is_next(b']') {
            return Some(());
        }
        loop {
            each(self)?;
            if !self.goes_on(b']')? {
                return Some(());
            }
        }
    }

    fn message(&mut self, of: &'static Message, depth: usize) -> Option<()> {
        self.take(b'{')?;
        if depth >= MAX_DEPTH {
            return None;
        }
        if self.is_next(b'}') {
            return Some(());
        }
        let mut found: u32 = 0;
        loop {
            match self.field(of)? {
                Some(place) if found & (1 << place) == 0 => {
                    found |= 1 << place;
                    self.member(&of.fields[place], depth + 1)?;
                }
                Some(_) => return None,
                None => self.scalar()?,
            }
            if !self.goes_on(b'}')? {
                return Some(());
            }
        }
    }

    /// Passes a name and its colon: the place of its field; no place of a name that says nothing.
    fn field(&mut self, of: &'static Message) -> Option<Option<usize>> {
        let rest = self.rest;
        let initial = *rest.get(1)?;
        // Most names begin otherwise.
        let is_next = |field: &Field| field.initial == initial && rest.starts_with(field.written.as_bytes());
        if let Some(place) = of.fields.iter().position(is_next) {
            self.rest = &rest[of.fields[place].written.len()..];
            return Some(Some(place));
        }
        let name = self.text()?;
        self.take(b':')?;
        match of.fields.iter().position(|field| field.name.as_bytes() == name) {
            None if !says_nothing(of, name) => None,
            place => Some(place),
        }
    }

    fn member(&mut self, field: &Field, depth: usize) -> Option<()> {
        match field.kind {
            Kind::Message(inner) | Kind::Part(inner) => self.message(inner, depth),
            Kind::Parts(inner) if std::ptr::eq(inner, &KEY_VALUE) => self.attributes(depth),
            Kind::Messages(inner) if std::ptr::eq(inner, &NUMBER_POINT) => {
                self.list(|look| look.point(inner, depth, Self::point_of_sum))
            }
            Kind::Messages(inner) if std::ptr::eq(inner, &HISTOGRAM_POINT) => {
                self.list(|look| look.point(inner, depth, Self::point_of_histogram))
            }
            Kind::Messages(inner) if std::ptr::eq(inner, &METRIC) => self.list(|look| look.metric(depth)),
            Kind::Messages(inner) | Kind::Parts(inner) => self.list(|look| look.message(inner, depth)),
            Kind::ResourceAttributes => self.attributes(depth),
            Kind::Text | Kind::Bytes => self.any_text(),
            Kind::Unit => self.unit(),
            Kind::Bool => self.truth(),
            Kind::Temporality => self.temporality(),
            Kind::Whole(_) => self.whole(),
            Kind::Wholes | Kind::Numbers => self.wholes(),
            Kind::Exponential if self.reading.exponential.is_some() => None, // it is written anew
            Kind::Exponential => self.message(exponential_histogram(self.reading), depth),
            Kind::Double => self.number(DIGITS_OF_DOUBLE),
            Kind::Doubles => self.bounds(),
            Kind::Fraction => {
                self.has_doubles |= field.name == "asDouble";
                self.scalar()
            }
            Kind::Exemplars => self.list(|_| None),
            Kind::Foreign(_) => None,
        }
    }
}

impl Look<'_> {
    fn metric(&mut self, depth: usize) -> Option<()> {
        (self.metric, self.is_measured, self.has_doubles) = (self.rest, false, false);
        self.message(&METRIC, depth)?;
        (!(self.is_measured && self.has_doubles)).then_some(())
    }

    /// A metric that is taken in another unit is written anew. Where its unit says that it may be, its name has to be plain.
    fn unit(&mut self) -> Option<()> {
        let unit = std::str::from_utf8(self.text()?).ok()?;
        let finer_units = &self.reading.finer_units;
        if !finer_units.is_about(unit) {
            return Some(());
        }
        self.is_measured = true;
        let name = self.metric.strip_prefix(b"{\"name\":\"")?;
        let (name, behind) = name.split_at(plain_length(name));
        let is_left = behind.starts_with(b"\"") && finer_units.leaves(std::str::from_utf8(name).ok()?, unit);
        is_left.then_some(())
    }
}

/// Whether a name that no field has is that of nothing that could be lost.
fn says_nothing(of: &Message, name: &[u8]) -> bool {
    let lost = of.refused.iter().flat_map(|lost| lost.names);
    let mut known = of.fields.iter().map(|field| &field.proto_name).chain(lost);
    !known.any(|known| known.as_bytes() == name)
}

#[cfg(test)]
mod tests;
