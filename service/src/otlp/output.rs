//! A request as it is written for the book, of whichever encoding it came in.

use super::json::{Document, Value};
use super::number::whole_double;
use super::Reading;

/// The longest attribute list that a series may have, as it is written. Each series is kept, told to fresh books and
/// delivered with all that identifies it: a resource of megabytes that thousands of points share would be gigabytes, and a
/// longest post's series alone would fit into no body that tells it to a book.
pub const LONGEST_LIST: usize = 16 << 10;
/// A list in JSON that came in no more bytes is not too long either.
pub const SHORT_LIST: usize = LONGEST_LIST / 2;

/// As OTLP numbers temporalities.
pub const CUMULATIVE: i128 = 2;

pub struct Output<'r> {
    /// UTF-8, since who gives a text has looked at it.
    pub text: Vec<u8>,
    reading: &'r Reading,
    /// Whether a metric has a unit that `--integer-unit` is about.
    pub is_measured: bool,
    /// Whether a metric is cumulative.
    pub is_cumulative: bool,
    /// Whether it has an exponential histogram of which a view is wanted.
    pub is_exponential: bool,
}

impl<'r> Output<'r> {
    pub fn new(capacity: usize, reading: &'r Reading) -> Output<'r> {
        Output {
            text: Vec::with_capacity(capacity),
            reading,
            is_measured: reading.finer_units.has_no_unit(),
            is_cumulative: false,
            is_exponential: false,
        }
    }

    #[inline]
    pub fn push(&mut self, text: &str) {
        self.text.extend_from_slice(text.as_bytes());
    }

    /// A comma, but behind what opens a container, whose inside begins at `inside`.
    pub fn separate(&mut self, inside: usize) {
        if self.text.len() > inside {
            self.text.push(b',');
        }
    }

    /// As a text, which may be any: below -2^63 a number is no whole one for the book.
    pub fn whole(&mut self, whole: impl itoa::Integer) {
        self.text.push(b'"');
        self.whole_number(whole);
        self.text.push(b'"');
    }

    /// As a number of 64 bits, which takes the book less time than a text.
    pub fn whole_number(&mut self, number: impl itoa::Integer) {
        self.push(itoa::Buffer::new().format(number));
    }

    /// A whole double as a whole number; another as a text, which the book takes for no number.
    pub fn double(&mut self, double: f64) {
        match whole_double(double) {
            Some(whole) => self.whole_number(whole),
            None if double.is_nan() => self.push("\"NaN\""),
            None if double.is_infinite() && double > 0.0 => self.push("\"Infinity\""),
            None if double.is_infinite() => self.push("\"-Infinity\""),
            None => {
                self.text.push(b'"');
                // The shortest decimal; of two that are as near, the even one, as most programs print it and `{:e}` does not.
                let _ = serde_json::to_writer(&mut self.text, &double); // into memory it never fails
                self.text.push(b'"');
            }
        }
    }

    pub fn quoted(&mut self, text: &str) {
        let _ = serde_json::to_writer(&mut self.text, text); // into memory it never fails
    }

    /// An exponential histogram comes: it is read so.
    pub fn exponential(&mut self) -> &'r Reading {
        self.is_exponential = self.reading.exponential.is_some();
        self.reading
    }

    pub fn temporality(&mut self, number: i128) {
        self.is_cumulative |= number == CUMULATIVE;
        self.whole_number(number);
    }

    pub fn unit(&mut self, unit: &str) {
        self.is_measured |= self.reading.finer_units.is_about(unit);
        self.quoted(unit);
    }

    /// Of an attribute list that begins at `from`, and is whole. In the place of one that is too long is a text, so that what it
    /// identifies is foreign.
    pub fn bound_attributes(&mut self, from: usize) {
        if self.text.len() - from > LONGEST_LIST {
            self.text.truncate(from);
            self.quoted(&format!("a list of over {LONGEST_LIST} bytes"));
        }
    }

    /// Takes back a resource attribute that begins at `from`, if it is one to drop.
    pub fn drop_attribute(&mut self, from: usize) {
        if self.reading.dropped.is_empty() {
            return;
        }
        let element = &self.text[from..];
        if self.is_dropped(element.strip_prefix(b",").unwrap_or(element)) {
            self.text.truncate(from);
        }
    }

    fn is_dropped(&self, element: &[u8]) -> bool {
        let Ok(document) = Document::parse(element) else {
            return false;
        };
        let key = document.root().named(["key"]).and_then(|[key]| key.map_or(Some("".into()), Value::text));
        key.is_some_and(|key| self.reading.dropped.iter().any(|dropped| *dropped == key))
    }
}
