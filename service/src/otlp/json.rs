//! JSON texts, read as the book reads them: which bytes are JSON, and what a text's values are.
//!
//! A text is read once into a list of places, 12 bytes for each value and name, and stays where it is. So the
//! memory for a text is a small multiple of it whatever it says, and to pass over a value costs nothing.

mod edited;
mod parser;

pub(super) use edited::Edited;
pub(super) use parser::escaped;

use std::borrow::Cow;

/// How deep containers may be nested: the book reads no more.
pub const MAX_DEPTH: usize = 127;

/// Why bytes are no JSON that the book reads.
#[derive(Clone, Debug, PartialEq, Eq, thiserror::Error)]
pub enum NotJson {
    #[error("not JSON: a byte that is not UTF-8 at {0}")]
    NotText(usize),
    #[error("not JSON: {expected} expected at byte {at}")]
    Unexpected { at: usize, expected: &'static str },
    #[error("not JSON: nested more than {MAX_DEPTH} deep at byte {0}")]
    TooDeep(usize),
    #[error("not JSON: a number past the range of a double at byte {0}")]
    OutOfRange(usize),
    #[error("body too long")]
    TooLong,
}

/// A value or a name: where it begins and ends, and which entry comes after it and what is in it.
#[derive(Clone, Copy)]
struct Entry {
    at: u32,
    end: u32,
    next: u32,
}

/// A text that is JSON.
pub struct Document<'a> {
    text: &'a str,
    entries: Vec<Entry>,
    near_range: bool,
}

/// A value of a document.
#[derive(Clone, Copy)]
pub struct Value<'d> {
    text: &'d str,
    entries: &'d [Entry],
    index: u32,
}

#[derive(Clone, Copy, Debug, PartialEq, Eq)]
pub enum Kind {
    Null,
    Bool,
    Number,
    Text,
    Array,
    Object,
}

impl<'a> Document<'a> {
    pub fn parse(body: &'a [u8]) -> Result<Document<'a>, NotJson> {
        let text = std::str::from_utf8(body).map_err(|error| NotJson::NotText(error.valid_up_to()))?;
        parser::parse(text)
    }

    /// All of it.
    pub fn text(&self) -> &'a str {
        self.text
    }

    pub fn root(&self) -> Value<'_> {
        Value { text: self.text, entries: &self.entries, index: 0 }
    }

    /// Whether a number is so near to the range of a double that readers may differ on whether it is in it.
    pub fn is_near_range(&self) -> bool {
        self.near_range
    }
}

impl<'d> Value<'d> {
    fn entry(self) -> Entry {
        self.entries[self.index as usize]
    }

    fn at(self, index: u32) -> Value<'d> {
        Value { index, ..self }
    }

    /// The value as it is written.
    pub fn raw(self) -> &'d str {
        let entry = self.entry();
        &self.text[entry.at as usize..entry.end as usize]
    }

    /// Where it is in the text.
    pub fn range(self) -> std::ops::Range<usize> {
        let entry = self.entry();
        entry.at as usize..entry.end as usize
    }

    pub fn kind(self) -> Kind {
        match self.text.as_bytes()[self.entry().at as usize] {
            b'n' => Kind::Null,
            b't' | b'f' => Kind::Bool,
            b'"' => Kind::Text,
            b'[' => Kind::Array,
            b'{' => Kind::Object,
            _ => Kind::Number,
        }
    }

    pub fn is_null(self) -> bool {
        self.kind() == Kind::Null
    }

    pub fn truth(self) -> Option<bool> {
        (self.kind() == Kind::Bool).then(|| self.raw() == "true")
    }

    /// The number as it is written.
    pub fn number(self) -> Option<&'d str> {
        (self.kind() == Kind::Number).then(|| self.raw())
    }

    pub fn text(self) -> Option<Cow<'d, str>> {
        (self.kind() == Kind::Text).then(|| parser::unescaped(self.inside()))
    }

    /// The same of no more than so many bytes as they are written, for who shows it.
    pub fn text_up_to(self, most: usize) -> Option<Cow<'d, str>> {
        (self.kind() == Kind::Text).then(|| parser::unescaped(begin(self.inside(), most)))
    }

    /// What is between the quotes of a text, as it is written.
    fn inside(self) -> &'d str {
        let raw = self.raw();
        &raw[1..raw.len() - 1]
    }

    /// What is in a container: in an object each name is ahead of its value.
    fn parts(self) -> impl Iterator<Item = Value<'d>> + Clone {
        let (mut index, end) = (self.index + 1, self.entry().next);
        std::iter::from_fn(move || {
            let part = (index < end).then(|| self.at(index))?;
            index = part.entry().next;
            Some(part)
        })
    }

    /// The elements of an array.
    pub fn elements(self) -> Option<impl Iterator<Item = Value<'d>> + Clone> {
        (self.kind() == Kind::Array).then(|| self.parts())
    }

    /// The names and values of an object, in order; a name may be there more than once.
    pub fn members(self) -> Option<impl Iterator<Item = (Cow<'d, str>, Value<'d>)>> {
        Some(self.written_members()?.map(|(name, value)| (parser::unescaped(name), value)))
    }

    /// The same, each name as it is written.
    fn written_members(self) -> Option<impl Iterator<Item = (&'d str, Value<'d>)>> {
        let mut parts = (self.kind() == Kind::Object).then(|| self.parts())?;
        Some(std::iter::from_fn(move || Some((parts.next()?.inside(), parts.next()?))))
    }

    /// The values of these names, each its last one; `null` is absent. `None` of what is no object.
    pub fn named<const N: usize>(self, names: [&str; N]) -> Option<[Option<Value<'d>>; N]> {
        let mut found = [None; N];
        let place_of = |name: &str| names.iter().position(|wanted| *wanted == name);
        for (name, value) in self.written_members()? {
            // As a rule it has no escapes.
            if let Some(place) = place_of(name).or_else(|| place_of(&parser::unescaped(name))) {
                found[place] = if value.is_null() { None } else { Some(value) };
            }
        }
        Some(found)
    }

    /// The same of one name.
    pub fn member(self, name: &str) -> Option<Value<'d>> {
        self.named([name])?[0]
    }

    /// The same by its name in JSON, or that of the `.proto` file.
    pub fn either(self, names: [&str; 2]) -> Option<Value<'d>> {
        let [one, other] = self.named(names)?;
        one.or(other)
    }

    /// The elements of the array that has this name; none where there is no such one.
    pub fn list(self, name: &str) -> impl Iterator<Item = Value<'d>> {
        self.member(name).and_then(Value::elements).into_iter().flatten()
    }
}

/// The beginning of a text, of at most so many bytes.
pub fn begin(text: &str, most: usize) -> &str {
    &text[..text.floor_char_boundary(most)]
}

/// Whether bytes are UTF-8. Most are ASCII, which is seen sooner.
pub fn is_text(bytes: &[u8]) -> bool {
    bytes.is_ascii() || std::str::from_utf8(bytes).is_ok()
}

/// Writes a text as the book does: only `"`, `\` and what is below 32 is escaped.
pub fn write_text(out: &mut String, text: &str) {
    match plain_length(text.as_bytes()) == text.len() {
        true => out.extend(["\"", text, "\""]),
        false => out.push_str(&serde_json::Value::from(text).to_string()),
    }
}

/// This in each byte of a word.
const EACH: u64 = u64::MAX / 255;

/// How many bytes are before the first `"`, `\` or byte below 32: those that stand for themselves in a text.
pub fn plain_length(bytes: &[u8]) -> usize {
    first_of_words(bytes, |word| first_marked(marks(word) & !word), is_special)
}

fn is_special(byte: u8) -> bool {
    byte < 32 || byte == b'"' || byte == b'\\'
}

/// Sets the highest bit of each of eight bytes that is special. Of those over 127 it says nothing, nor of those above the
/// lowest special one, from which its subtraction may borrow.
fn marks(word: u64) -> u64 {
    let quotes = (word ^ (EACH * u64::from(b'"'))).wrapping_sub(EACH);
    let slashes = (word ^ (EACH * u64::from(b'\\'))).wrapping_sub(EACH);
    quotes | slashes | word.wrapping_sub(EACH * 32)
}

/// How many digits are before the first byte that is none.
#[inline]
pub fn digits_length(bytes: &[u8]) -> usize {
    let first = |word: u64| {
        let digits = word ^ (EACH * u64::from(b'0'));
        first_marked(digits | ((digits & !(EACH << 7)) + EACH * (127 - 9))) // over 9 it carries into the highest bit
    };
    first_of_words(bytes, first, |byte| !byte.is_ascii_digit())
}

/// The place of the lowest byte whose highest bit is set.
fn first_marked(word: u64) -> Option<usize> {
    match word & (EACH << 7) {
        0 => None,
        marks => Some(marks.trailing_zeros() as usize / 8),
    }
}

/// The place of the first byte that is looked for, or their number: `first` has it in eight of them.
#[inline(always)]
fn first_of_words(
    bytes: &[u8],
    first: impl Fn(u64) -> Option<usize>,
    is_looked_for: impl Fn(u8) -> bool,
) -> usize {
    let mut at = 0;
    while let Some(eight) = bytes[at..].first_chunk() {
        if let Some(place) = first(u64::from_le_bytes(*eight)) {
            return at + place;
        }
        at += 8;
    }
    match bytes.last_chunk() {
        // The last eight, of which some were looked at.
        Some(eight) => match first(u64::from_le_bytes(*eight)) {
            Some(place) => bytes.len() - 8 + place,
            None => bytes.len(),
        },
        None => bytes.iter().position(|byte| is_looked_for(*byte)).unwrap_or(bytes.len()),
    }
}

#[cfg(test)]
mod tests;
