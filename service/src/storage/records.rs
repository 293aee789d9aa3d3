//! The record format of all files: length (u32), crc32 over kind and bytes (u32), kind (u8), bytes. Numbers are
//! little-endian.
//!
//! | kind | bytes |
//! |---|---|
//! | 1 header, the first of each file | `totxegun`, format version (u16), which file (u8), its number (u64) |
//! | 2 durable watermark | offset (u64): everything before it was durable when the watermark was written; in the journal also the length that the file had durably, and the first segment that is not committed to the outbox (u64 each) |
//! | 3 end, the last record of a closed file | as a durable watermark |
//!
//! Other kinds are a file's own. No kind is a byte that can occur in JSON or in packed points, so no body contains a
//! record (`torn_tail` searches for records in damaged bytes).

use super::disk::{io_fault, Cursor, Disk};
use super::Fault;
use std::io::{self, BufReader, Read, Seek};
use std::path::{Path, PathBuf};

pub const HEADER: u8 = 1;
pub const MARK: u8 = 2;
pub const END: u8 = 3;
/// The first kind that a file may define for itself.
pub const OWN: u8 = 16;
pub const LAST: u8 = 31;

/// The length of a record's length, checksum and kind.
pub const HEAD: usize = 9;
/// Total lengths of a watermark record: in the outbox, and in the journal.
pub const MARK_LENGTHS: [usize; 2] = [HEAD + 8, HEAD + 24];
/// The most bytes that a record may have, with its kind. An outbox spreads longer things over several records.
pub const LARGEST: usize = if cfg!(test) { 4 << 20 } else { 2 << 30 };
const MAGIC: &[u8; 8] = b"totxegun";
/// The kind of file.
#[derive(Clone, Copy, Debug, PartialEq, Eq)]
pub enum Which {
    Journal = 1,
    Outbox = 2,
    /// The posts of a quarantined sender, moved out of the journal.
    Held = 3,
}

/// The version of the record format and of all record contents.
const VERSION: u16 = 1;

/// Appends a record made of the parts in sequence.
pub fn put(out: &mut Vec<u8>, kind: u8, parts: &[&[u8]]) {
    let length = 1 + parts.iter().map(|part| part.len()).sum::<usize>();
    let mut sum = crc32fast::Hasher::new();
    sum.update(&[kind]);
    parts.iter().for_each(|part| sum.update(part));
    out.reserve(8 + length);
    out.extend_from_slice(&(length as u32).to_le_bytes());
    out.extend_from_slice(&sum.finalize().to_le_bytes());
    out.push(kind);
    parts.iter().for_each(|part| out.extend_from_slice(part));
}

pub fn header(which: Which, number: u64) -> Vec<u8> {
    let mut out = Vec::new();
    put(&mut out, HEADER, &[MAGIC, &VERSION.to_le_bytes(), &[which as u8], &number.to_le_bytes()]);
    out
}

/// The length of the record with its head; none if no record has that length.
pub fn whole_length(head: &[u8; HEAD]) -> Option<usize> {
    let length = u32::from_le_bytes([head[0], head[1], head[2], head[3]]) as usize;
    (1..=LARGEST).contains(&length).then_some(8 + length)
}

pub fn is_sound(head: &[u8; HEAD], bytes: &[u8]) -> bool {
    let mut sum = crc32fast::Hasher::new();
    sum.update(&head[8..]);
    sum.update(bytes);
    sum.finalize().to_le_bytes() == head[4..8]
}

/// Takes a number off the front of a record's bytes.
pub fn take_number(bytes: &mut &[u8]) -> Option<u64> {
    let (number, rest) = bytes.split_first_chunk::<8>()?;
    *bytes = rest;
    Some(u64::from_le_bytes(*number))
}

/// What a reader finds next in a file.
#[derive(Debug, PartialEq, Eq)]
pub enum Next {
    Record {
        at: u64,
        kind: u8,
        bytes: Vec<u8>,
    },
    /// The file was closed here.
    Closed,
    /// No whole record begins here.
    Stop,
}

/// Reads the records of a file in order.
pub struct Reader {
    file: BufReader<Cursor>,
    pub path: PathBuf,
    /// The offset of the next record.
    pub at: u64,
    /// Everything before this offset was durable, by the watermarks read so far. If it is not 0, so was everything that
    /// was written before this file.
    pub durable: u64,
    /// The length that the file had durably, by its watermarks.
    pub made: u64,
    /// The journal's segments before this one are committed to the outbox and may be deleted, by the watermarks.
    pub forgotten: u64,
    /// The offset at which this reader stops.
    end: u64,
}

impl Reader {
    /// Checks the header, and reads up to `end` if the file is still being written.
    pub fn open(
        disk: &Disk,
        path: &Path,
        which: Which,
        number: u64,
        end: Option<u64>,
    ) -> Result<(Reader, Next), Fault> {
        let mut reader = Reader::from(disk, path, 0, end, 1 << 16)?;
        let first = reader.next()?;
        if let Next::Record { kind, bytes, .. } = &first {
            reader.check_header(*kind, bytes, which, number)?;
        }
        Ok((reader, first))
    }

    /// Starts at `at` and buffers `piece` bytes.
    fn from(disk: &Disk, path: &Path, at: u64, end: Option<u64>, piece: usize) -> Result<Reader, Fault> {
        let file = disk.open(path)?;
        let length = file.length().map_err(io_fault(path))?;
        let end = end.map_or(length, |end| end.min(length));
        Ok(Reader {
            file: BufReader::with_capacity(piece, Cursor { file, at }),
            path: path.into(),
            at,
            durable: 0,
            made: 0,
            forgotten: 0,
            end,
        })
    }

    fn check_header(&self, kind: u8, bytes: &[u8], which: Which, number: u64) -> Result<(), Fault> {
        if kind != HEADER || bytes.len() < 10 || &bytes[..8] != MAGIC {
            return Err(self.damaged(0, "is not a file of totxegun: move it out of this folder"));
        }
        let version = u16::from_le_bytes([bytes[8], bytes[9]]);
        if version != VERSION {
            let what = format!(
                "has format version {version}, and this totxegun reads only {VERSION}: use the totxegun that wrote it, or \
                 give another --data"
            );
            return Err(self.damaged(0, &what));
        }
        if bytes[10..] != [&[which as u8][..], &number.to_le_bytes()].concat() {
            return Err(self.damaged(0, "is another file than its name says: put it back in its own place"));
        }
        Ok(())
    }

    pub fn damaged(&self, at: u64, what: &str) -> Fault {
        Fault::Damaged { path: self.path.clone(), at, what: what.into() }
    }

    /// The next record that is no watermark.
    pub fn next(&mut self) -> Result<Next, Fault> {
        loop {
            let at = self.at;
            match self.read().map_err(io_fault(&self.path))? {
                None => {
                    self.seek(at)?;
                    return Ok(Next::Stop);
                }
                Some((kind @ (MARK | END), bytes)) => {
                    self.pass_mark(&bytes);
                    if kind == END {
                        return Ok(Next::Closed);
                    }
                }
                Some((kind, bytes)) => return Ok(Next::Record { at, kind, bytes }),
            }
        }
    }

    fn pass_mark(&mut self, mut bytes: &[u8]) {
        self.durable = self.durable.max(take_number(&mut bytes).unwrap_or(0));
        self.made = self.made.max(take_number(&mut bytes).unwrap_or(0));
        self.forgotten = self.forgotten.max(take_number(&mut bytes).unwrap_or(0));
    }

    /// None if no whole record begins here.
    fn read(&mut self) -> io::Result<Option<(u8, Vec<u8>)>> {
        let left = self.end.saturating_sub(self.at);
        if left < HEAD as u64 {
            return Ok(None);
        }
        let mut head = [0; HEAD];
        self.file.read_exact(&mut head)?;
        let Some(whole) = whole_length(&head).filter(|whole| *whole as u64 <= left) else {
            return Ok(None);
        };
        let mut bytes = vec![0; whole - HEAD];
        self.file.read_exact(&mut bytes)?;
        self.at += whole as u64;
        Ok(is_sound(&head, &bytes).then_some((head[8], bytes)))
    }

    /// Continues at another offset.
    pub fn seek(&mut self, at: u64) -> Result<(), Fault> {
        let here = self.file.stream_position().map_err(io_fault(&self.path))?;
        let by = at.wrapping_sub(here) as i64;
        self.at = at;
        self.file.seek_relative(by).map_err(io_fault(&self.path))
    }

    /// Skips bytes; false if the file has fewer.
    pub fn skip(&mut self, bytes: u64) -> Result<bool, Fault> {
        if bytes > self.end.saturating_sub(self.at) {
            return Ok(false);
        }
        self.seek(self.at + bytes)?;
        Ok(true)
    }
}

/// Reads one record at a known offset: its kind, bytes, and length in the file. None if it is not whole.
pub fn read_at(disk: &Disk, path: &Path, at: u64) -> Result<Option<(u8, Vec<u8>, u64)>, Fault> {
    let mut reader = Reader::from(disk, path, at, None, HEAD)?;
    let read = reader.read().map_err(io_fault(path))?;
    Ok(read.map(|(kind, bytes)| (kind, bytes, reader.at - at)))
}
