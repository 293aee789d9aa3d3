//! From bytes to a document: an own stack in place of recursion, so that no text overflows the thread's.

use super::{plain_length, Document, Entry, NotJson, MAX_DEPTH};
use std::borrow::Cow;

/// Numbers from here on may be past the range of a double for one reader and within it for another.
const NEAR_RANGE: f64 = 1e308;
/// A number of fewer digits, without exponent, is below `NEAR_RANGE`.
const SHORT_NUMBER: usize = 300;

struct Parser<'a> {
    text: &'a str,
    at: usize,
    entries: Vec<Entry>,
    open: Vec<u32>,
    near_range: bool,
}

/// What comes behind something that was read.
enum Next {
    /// The first value of a container, or one behind a comma.
    Value,
    /// A comma or the end of the container.
    Separator,
    /// Nothing: the text is whole.
    End,
}

pub(super) fn parse(text: &str) -> Result<Document<'_>, NotJson> {
    if u32::try_from(text.len()).is_err() {
        return Err(NotJson::TooLong);
    }
    let entries = Vec::with_capacity(text.len() / 16 + 8);
    let mut parser = Parser { text, at: 0, entries, open: Vec::new(), near_range: false };
    loop {
        let mut next = parser.value()?;
        while let Next::Separator = next {
            next = parser.separator()?;
        }
        if let Next::End = next {
            return Ok(Document { text, entries: parser.entries, near_range: parser.near_range });
        }
    }
}

/// The text that is between the quotes, its escapes resolved; it was found sound. Of what is cut within an escape that is left out.
pub(super) fn unescaped(raw: &str) -> Cow<'_, str> {
    if !raw.as_bytes().contains(&b'\\') {
        return Cow::Borrowed(raw);
    }
    let mut text = String::with_capacity(raw.len());
    let mut rest = raw;
    while let Some(at) = rest.find('\\') {
        text.push_str(&rest[..at]);
        let Some((character, length)) = escaped(&rest.as_bytes()[at..]) else {
            return Cow::Owned(text);
        };
        text.push(character);
        rest = &rest[at + length..];
    }
    text.push_str(rest);
    Cow::Owned(text)
}

/// The character of an escape that begins these bytes, and its length.
pub fn escaped(bytes: &[u8]) -> Option<(char, usize)> {
    let simple = match bytes.get(1)? {
        b'"' => '"',
        b'\\' => '\\',
        b'/' => '/',
        b'b' => '\u{8}',
        b'f' => '\u{c}',
        b'n' => '\n',
        b'r' => '\r',
        b't' => '\t',
        b'u' => return escaped_unit(bytes),
        _ => return None,
    };
    Some((simple, 2))
}

/// A character of one or two `\u` escapes; a surrogate alone is none.
fn escaped_unit(bytes: &[u8]) -> Option<(char, usize)> {
    let first = hexadecimal(bytes.get(2..6)?)?;
    if !(0xd800..0xdc00).contains(&first) {
        return Some((char::from_u32(first)?, 6));
    }
    if bytes.get(6..8)? != b"\\u" {
        return None;
    }
    let second = hexadecimal(bytes.get(8..12)?)?;
    if !(0xdc00..0xe000).contains(&second) {
        return None;
    }
    Some((char::from_u32(0x10000 + ((first - 0xd800) << 10) + (second - 0xdc00))?, 12))
}

fn hexadecimal(digits: &[u8]) -> Option<u32> {
    digits.iter().try_fold(0, |number, digit| Some(number * 16 + char::from(*digit).to_digit(16)?))
}

impl<'a> Parser<'a> {
    fn peek(&self) -> Option<u8> {
        self.text.as_bytes().get(self.at).copied()
    }

    fn expected(&self, expected: &'static str) -> NotJson {
        NotJson::Unexpected { at: self.at, expected }
    }

    fn skip_blanks(&mut self) {
        while let Some(b' ' | b'\t' | b'\n' | b'\r') = self.peek() {
            self.at += 1;
        }
    }

    /// Adds an entry that ends where it is read to, with nothing in it.
    fn add(&mut self, from: usize) {
        let next = self.entries.len() as u32 + 1;
        self.entries.push(Entry { at: from as u32, end: self.at as u32, next });
    }

    fn value(&mut self) -> Result<Next, NotJson> {
        self.skip_blanks();
        let from = self.at;
        match self.peek() {
            Some(b'{' | b'[') => return self.open(),
            Some(b'"') => self.string()?,
            Some(b'-' | b'0'..=b'9') => self.number()?,
            Some(b't') => self.word("true")?,
            Some(b'f') => self.word("false")?,
            Some(b'n') => self.word("null")?,
            _ => return Err(self.expected("a value")),
        }
        self.add(from);
        Ok(Next::Separator)
    }

    fn word(&mut self, word: &'static str) -> Result<(), NotJson> {
        if !self.text.as_bytes()[self.at..].starts_with(word.as_bytes()) {
            return Err(self.expected(word));
        }
        self.at += word.len();
        Ok(())
    }

    fn open(&mut self) -> Result<Next, NotJson> {
        if self.open.len() >= MAX_DEPTH {
            return Err(NotJson::TooDeep(self.at));
        }
        let from = self.at;
        self.at += 1;
        self.open.push(self.entries.len() as u32);
        self.add(from);
        self.skip_blanks();
        if self.peek() == Some(self.closer()) {
            return Ok(Next::Separator);
        }
        self.name()?;
        Ok(Next::Value)
    }

    /// The byte that ends the innermost container.
    fn closer(&self) -> u8 {
        let innermost = self.open.last().map(|index| self.entries[*index as usize].at as usize);
        match innermost.map(|at| self.text.as_bytes()[at]) {
            Some(b'{') => b'}',
            _ => b']',
        }
    }

    /// In an object the name and the colon that are before each value.
    fn name(&mut self) -> Result<(), NotJson> {
        if self.closer() == b']' {
            return Ok(());
        }
        self.skip_blanks();
        let from = self.at;
        if self.peek() != Some(b'"') {
            return Err(self.expected("a name"));
        }
        self.string()?;
        self.add(from);
        self.skip_blanks();
        if self.peek() != Some(b':') {
            return Err(self.expected("a colon"));
        }
        self.at += 1;
        Ok(())
    }

    /// What is behind a value, or the end of an empty container.
    fn separator(&mut self) -> Result<Next, NotJson> {
        self.skip_blanks();
        let Some(innermost) = self.open.last().copied() else {
            return if self.at == self.text.len() { Ok(Next::End) } else { Err(self.expected("the end")) };
        };
        match self.peek() {
            Some(b',') => {
                self.at += 1;
                self.name()?;
                Ok(Next::Value)
            }
            Some(byte) if byte == self.closer() => {
                self.at += 1;
                self.open.pop();
                let next = self.entries.len() as u32;
                let entry = &mut self.entries[innermost as usize];
                (entry.end, entry.next) = (self.at as u32, next);
                Ok(Next::Separator)
            }
            _ => Err(self.expected("a comma or the end of a container")),
        }
    }

    fn string(&mut self) -> Result<(), NotJson> {
        let bytes = self.text.as_bytes();
        self.at += 1;
        loop {
            self.at += plain_length(&bytes[self.at..]);
            match bytes.get(self.at) {
                Some(b'"') => break,
                Some(b'\\') => {
                    let escape = escaped(&bytes[self.at..]).ok_or_else(|| self.expected("an escape"))?;
                    self.at += escape.1;
                }
                _ => return Err(self.expected("the end of a text")),
            }
        }
        self.at += 1;
        Ok(())
    }

    fn number(&mut self) -> Result<(), NotJson> {
        let from = self.at;
        if self.peek() == Some(b'-') {
            self.at += 1;
        }
        match self.peek() {
            Some(b'0') => self.at += 1,
            _ => self.digits()?,
        }
        if self.peek() == Some(b'.') {
            self.at += 1;
            self.digits()?;
        }
        let mut long = self.at - from > SHORT_NUMBER;
        if let Some(b'e' | b'E') = self.peek() {
            long = true;
            self.at += 1;
            if let Some(b'+' | b'-') = self.peek() {
                self.at += 1;
            }
            self.digits()?;
        }
        if long {
            let size = self.text[from..self.at].parse::<f64>().unwrap_or(f64::INFINITY).abs();
            if size.is_infinite() {
                return Err(NotJson::OutOfRange(from));
            }
            self.near_range |= size >= NEAR_RANGE;
        }
        Ok(())
    }

    /// One or more decimal digits.
    fn digits(&mut self) -> Result<(), NotJson> {
        let from = self.at;
        while let Some(b'0'..=b'9') = self.peek() {
            self.at += 1;
        }
        if self.at == from {
            return Err(self.expected("a digit"));
        }
        Ok(())
    }
}
