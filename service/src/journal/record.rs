//! Codes posts as records. Points are readable only after the definitions of their series, in the same file.

use super::by_number::NumberSet;
use super::post::{Body, Points, Post, Replayed};
use super::{packed, NAME, POINTS, POST, RUNS};
use crate::storage::text_row::TextRow;
use crate::storage::{records, torn_tail};
use bytes::Bytes;

const NO_POST: &str = "is not a valid post: restore this file from a copy";
const NO_NAME: &str =
    "has points of a series that the file does not define before them: restore it from a copy";

/// Reads points from the bytes after the sender's name.
type ReadPoints = fn(&[u8]) -> Option<Points>;

/// Appends the record of a post, without the definitions that it needs.
pub(super) fn put(out: &mut Vec<u8>, since: u64, post: &Post) {
    let sender = post.sender.as_bytes();
    let numbers = [since, post.foreign, sender.len() as u64];
    match &post.body {
        Body::Text(body) => {
            records::put(out, POST, &[numbers.map(u64::to_le_bytes).as_flattened(), sender, body]);
        }
        Body::Points(points) => {
            let mut head = Vec::with_capacity(numbers.len() * packed::MOST_OF_NUMBER);
            numbers.iter().for_each(|number| packed::put_number(&mut head, *number));
            let kind = if points.runs().is_empty() { POINTS } else { RUNS };
            records::put(out, kind, &[&head, sender, points.packed()]);
        }
    }
}

/// Appends the record of a definition, coded against those before it.
pub(super) fn put_name(out: &mut Vec<u8>, names: &mut TextRow, number: u64, text: &[u8]) {
    let mut name = Vec::new();
    packed::put_number(&mut name, number);
    names.put(&mut name, text);
    records::put(out, NAME, &[&name]);
}

/// The number and the text of a definition.
fn name(mut bytes: &[u8], names: &mut TextRow) -> Option<(u64, Bytes)> {
    let number = packed::take_number(&mut bytes)?;
    let text = Bytes::copy_from_slice(names.take(&mut bytes)?);
    bytes.is_empty().then_some((number, text))
}

/// When the post of a record was appended; none for other records.
pub(super) fn since(kind: u8, mut bytes: &[u8]) -> Option<u64> {
    match kind {
        POST => records::take_number(&mut bytes),
        POINTS | RUNS => packed::take_number(&mut bytes),
        _ => None,
    }
}

/// Which records to read.
#[derive(Clone, Copy, Debug, PartialEq, Eq)]
pub(super) enum Wanted {
    All,
    /// Posts that are requests, and definitions. Points by number come without their points.
    Requests,
}

/// Reads the records of one file in order.
pub(super) struct Posts {
    wanted: Wanted,
    /// Definitions since the last post.
    named: Vec<(u64, Bytes)>,
    /// The numbers that the file has defined.
    known: NumberSet,
    names: TextRow,
}

impl Posts {
    pub fn new(wanted: Wanted) -> Posts {
        Posts { wanted, named: Vec::new(), known: NumberSet::default(), names: TextRow::default() }
    }

    /// The post of a record, and when it was appended; none for a definition. The error says what is wrong with the
    /// record.
    pub fn read(&mut self, kind: u8, bytes: Vec<u8>) -> Result<Option<(u64, Replayed)>, &'static str> {
        let bytes = Bytes::from(bytes);
        let (since, post) = match kind {
            NAME => {
                let name = name(&bytes, &mut self.names).ok_or(NO_POST)?;
                if self.wanted == Wanted::All {
                    self.known.insert(name.0);
                }
                self.named.push(name);
                return Ok(None);
            }
            POST => text(bytes).ok_or(NO_POST)?,
            POINTS | RUNS if self.wanted == Wanted::Requests => {
                points(&bytes, |_| Some(Points::default())).ok_or(NO_POST)?
            }
            POINTS => self.points(bytes, packed::read)?,
            RUNS => self.points(bytes, packed::read_with_runs)?,
            _ => return Err(torn_tail::CHANGED),
        };
        let named = std::mem::take(&mut self.named);
        Ok(Some((since, Replayed { post, named })))
    }

    fn points(&self, bytes: Bytes, read: ReadPoints) -> Result<(u64, Post), &'static str> {
        let (since, post) = points(&bytes, read).ok_or(NO_POST)?;
        let is_unknown = |number: u64| !self.known.has(number);
        if post.numbers().any(is_unknown) {
            return Err(NO_NAME);
        }
        Ok((since, post))
    }
}

fn text(bytes: Bytes) -> Option<(u64, Post)> {
    let mut rest = &bytes[..];
    let (since, foreign, sender) = head(&mut rest, records::take_number)?;
    let body = Body::Text(bytes.slice_ref(rest));
    Some((since, Post { sender, foreign, body }))
}

fn points(mut rest: &[u8], read: ReadPoints) -> Option<(u64, Post)> {
    let (since, foreign, sender) = head(&mut rest, packed::take_number)?;
    let body = Body::Points(read(rest)?);
    Some((since, Post { sender, foreign, body }))
}

/// The fields before the body: time, rejected points, sender.
fn head(bytes: &mut &[u8], take: fn(&mut &[u8]) -> Option<u64>) -> Option<(u64, u64, String)> {
    let (since, foreign, length) = (take(bytes)?, take(bytes)?, take(bytes)?);
    let sender = bytes.split_off(..usize::try_from(length).ok()?)?;
    Some((since, foreign, std::str::from_utf8(sender).ok()?.to_string()))
}
