//! Segments: the numbered files of a journal or an outbox. Only the last one is written.
//!
//! `journal` and `outbox` call this module. Watermarks written into a segment say how much of it is durable, so that a
//! start can tell a torn record from a changed one (`torn_tail`).

mod dropped;

use super::disk::{io_fault, Disk, File};
use super::records::{self, Which, END, MARK};
use super::Fault;
pub use dropped::{keep_aside, Dropped};
use std::io::ErrorKind;
use std::path::{Path, PathBuf};
use std::sync::Arc;

const PIECE: usize = 1 << 20;
static ZEROS: [u8; PIECE] = [0; PIECE];
/// How many zeros one call writes. A file system may keep what one call wrote as one extent, and then goes through all
/// of it at each write into it and at each sync.
const FILL: usize = 64 << 10;
/// Blocks to allocate ahead: an eighth of the file, within these bounds.
const LEAST_BLOCKS: u64 = 64 << 10;
const MOST_BLOCKS: u64 = 16 << 20;

/// What a segment has ahead of its records, and up to which offset.
#[derive(Clone, Copy, Debug)]
pub enum Ahead {
    Nothing,
    /// Allocated blocks beyond the file's end. A write into them is cheaper and need not wait for a running sync, which
    /// otherwise allocates blocks for earlier writes and locks the file meanwhile.
    Blocks(u64),
    /// Zeros without a gap. Overwriting them changes neither the length nor the blocks of the file, so a sync is one
    /// write to the disk.
    Zeros(u64),
}

impl Ahead {
    fn reaches(self, end: u64) -> bool {
        match self {
            Ahead::Nothing => true,
            Ahead::Blocks(there) | Ahead::Zeros(there) => there >= end,
        }
    }

    /// Prepares the file for a write from `at` to `end`. Zeros reach half a piece further, so that normally a watermark
    /// records the file's length before a record needs it.
    fn make(&mut self, disk: &Disk, file: &File, path: &Path, at: u64, end: u64) -> Result<(), Fault> {
        match self {
            Ahead::Blocks(taken) if *taken < end => {
                *taken = end + (end / 8).clamp(LEAST_BLOCKS, MOST_BLOCKS);
                disk.take_blocks(file, at, *taken - at);
            }
            Ahead::Zeros(filled) => {
                let wanted = end + PIECE as u64 / 2;
                while *filled < wanted || *filled % PIECE as u64 > 0 {
                    disk.write_at(file, path, &ZEROS[..FILL], *filled)?;
                    *filled += FILL as u64;
                }
            }
            Ahead::Nothing | Ahead::Blocks(_) => {}
        }
        Ok(())
    }
}

/// Appended records that are not in the file yet. The holder writes them without the lock that appenders need.
pub struct Write {
    file: Arc<File>,
    path: PathBuf,
    at: u64,
    pub ahead: Ahead,
}

impl Write {
    pub fn put(&mut self, disk: &Disk, bytes: &[u8]) -> Result<(), Fault> {
        let Write { file, path, at, ahead } = self;
        ahead.make(disk, file, path, *at, *at + bytes.len() as u64)?;
        disk.write_at(file, path, bytes, *at)
    }
}

/// The numbers of a folder's segments, ascending.
pub fn numbers(disk: &Disk, folder: &Path) -> Result<Vec<u64>, Fault> {
    let mut numbers = Vec::new();
    for name in disk.names(folder)? {
        let number = name.to_str().and_then(|name| name.strip_suffix(".seg")?.parse().ok());
        numbers.extend(number.filter(|number| path(folder, *number).ends_with(&name)));
    }
    numbers.sort_unstable();
    Ok(numbers)
}

pub fn path(folder: &Path, number: u64) -> PathBuf {
    folder.join(format!("{number:012}.seg"))
}

/// Makes durable what an earlier process wrote before it was killed. In segments from `first` on, a write or sync may
/// also have failed: after that, the kernel may hold pages that it believes to be written and the disk does not have,
/// and only bytes that are written again reach the disk. Bytes that were durable by a watermark are still there, except
/// those that share a block with a failed write. A shard store needs none of this: what a new owner reads is durable.
pub fn rewrite_and_sync(
    disk: &Disk,
    folder: &Path,
    first: u64,
    durable: impl Fn(u64) -> u64,
) -> Result<(), Fault> {
    if disk.keeps_order() {
        return Ok(());
    }
    for number in numbers(disk, folder)? {
        let path = path(folder, number);
        let is_doubtful = number >= first;
        let file = match is_doubtful {
            true => disk.open_to_write(&path)?,
            false => disk.open(&path)?,
        };
        if is_doubtful {
            let from = durable(number) / PIECE as u64 * PIECE as u64;
            // The same bytes at the same offsets. Zeros need no write: the file had zeros there before.
            each_piece(&file, &path, from, |at, piece| disk.write_at(&file, &path, piece, at))?;
        }
        disk.sync(&file, &path)?;
    }
    disk.sync_folder(folder)
}

/// Calls `each` with every piece from `at` on that is not all zeros, and its offset.
fn each_piece(
    file: &File,
    path: &Path,
    mut at: u64,
    mut each: impl FnMut(u64, &[u8]) -> Result<(), Fault>,
) -> Result<(), Fault> {
    let mut piece = vec![0; PIECE];
    loop {
        let length = match file.read_at(&mut piece, at) {
            Ok(0) => return Ok(()),
            Err(error) if error.kind() == ErrorKind::Interrupted => continue,
            read => read.map_err(io_fault(path))?,
        };
        if piece[..length].iter().any(|byte| *byte != 0) {
            each(at, &piece[..length])?;
        }
        at += length as u64;
    }
}

/// Fails if a segment between two others is missing.
pub fn check_row(folder: &Path, numbers: &[u64]) -> Result<(), Fault> {
    match numbers.windows(2).find(|two| two[1] != two[0] + 1) {
        None => Ok(()),
        Some(two) => Err(missing(folder, two[0] + 1)),
    }
}

pub fn missing(folder: &Path, number: u64) -> Fault {
    let what = "this file is missing. Nothing was deleted: restore it from a copy, or move the folder away and start with \
        an empty one";
    Fault::Damaged { path: path(folder, number), at: 0, what: what.into() }
}

/// Closes the last segment of an earlier run at `at`. Torn bytes after that become zeros, and the file keeps its
/// length: a file that is shorter than its watermarks say counts as damaged.
pub fn close_at(disk: &Disk, path: &Path, at: u64) -> Result<(), Fault> {
    let file = disk.open_to_write(path)?;
    each_piece(&file, path, at, |at, piece| disk.write_at(&file, path, &ZEROS[..piece.len()], at))?;
    disk.barrier(&file, path)?;
    disk.write_at(&file, path, &mark(END, &[at]), at)?;
    disk.barrier(&file, path)
}

fn mark(kind: u8, numbers: &[u64]) -> Vec<u8> {
    let bytes: Vec<u8> = numbers.iter().flat_map(|number| number.to_le_bytes()).collect();
    let mut out = Vec::new();
    records::put(&mut out, kind, &[&bytes]);
    out
}

/// A segment that is being written.
pub struct Segment {
    disk: Disk,
    pub file: Arc<File>,
    pub path: PathBuf,
    pub number: u64,
    /// The offset of the next record.
    pub at: u64,
    /// Records before `at` that the next write puts into the file.
    unwritten: Vec<u8>,
    ahead: Ahead,
    /// Everything before this offset is durable.
    durable: u64,
    marked: u64,
    /// Where the last record ends that is no watermark.
    records: u64,
    /// What else watermarks say; none in the outbox.
    says: Option<Says>,
}

/// The part of a watermark that only the journal has.
#[derive(Clone, Copy)]
pub struct Says {
    /// The file has this length durably.
    pub length: u64,
    /// Segments before this one are committed to the outbox.
    pub forgotten: u64,
}

impl Segment {
    /// Makes a segment that has only its header, under a draft name. If `forgotten` is given, watermarks also carry it
    /// and the file's length, and one stands before the header: so the segment has one, wherever it is cut later. That
    /// first watermark is true only after a sync, and the segment gets its name after that.
    pub fn create(
        disk: &Disk,
        folder: &Path,
        which: Which,
        number: u64,
        ahead: Ahead,
        forgotten: Option<u64>,
    ) -> Result<Segment, Fault> {
        let path = path(folder, number).with_extension("draft");
        let file = Arc::new(disk.create_anew(&path)?);
        let mut made = Segment {
            disk: disk.clone(),
            file,
            path,
            number,
            at: 0,
            unwritten: Vec::new(),
            ahead,
            durable: 0,
            marked: 0,
            records: 0,
            says: forgotten.map(|forgotten| Says { length: 0, forgotten }),
        };
        let header = records::header(which, number);
        made.make_ahead(header.len() as u64)?;
        let length = made.length();
        let first = made.says.as_mut().map(|says| says.length = length);
        let first = first.map_or(Vec::new(), |()| made.mark(MARK));
        made.put(&[first, header].concat())?;
        Ok(made)
    }

    /// Gives the segment its name, which the folder's next sync makes durable.
    pub fn name(&mut self) -> Result<(), Fault> {
        let path = self.path.with_extension("seg");
        self.disk.rename(&self.path, &path)?;
        self.path = path;
        Ok(())
    }

    /// The length of the file if zeros were written ahead; else 0.
    pub fn length(&self) -> u64 {
        match self.ahead {
            Ahead::Zeros(filled) => filled,
            Ahead::Nothing | Ahead::Blocks(_) => 0,
        }
    }

    fn mark(&self, kind: u8) -> Vec<u8> {
        match self.says {
            None => mark(kind, &[self.durable]),
            Some(says) => mark(kind, &[self.durable, says.length, says.forgotten]),
        }
    }

    /// Writes records with one write and returns their offset.
    pub fn put(&mut self, bytes: &[u8]) -> Result<u64, Fault> {
        self.mark_before();
        self.make_ahead(self.at + bytes.len() as u64)?;
        self.write()?;
        let begin = self.at;
        self.disk.write_at(&self.file, &self.path, bytes, begin)?;
        self.end_record(bytes.len());
        Ok(begin)
    }

    /// Queues records for the next write. It never touches the disk: the caller holds the lock of the book.
    pub fn append(&mut self, parts: &[&[u8]]) {
        self.mark_before();
        parts.iter().for_each(|part| self.unwritten.extend_from_slice(part));
        self.end_record(parts.iter().map(|part| part.len()).sum());
    }

    /// Writes the watermark of the last sync before the records that follow it.
    fn mark_before(&mut self) {
        if self.durable > self.marked {
            self.append_mark();
        }
    }

    fn end_record(&mut self, length: usize) {
        self.at += length as u64;
        self.records = self.at;
    }

    /// Writes all queued records.
    pub fn write(&mut self) -> Result<(), Fault> {
        self.make_ahead(self.at)?;
        let begin = self.at - self.unwritten.len() as u64;
        match std::mem::take(&mut self.unwritten) {
            bytes if bytes.is_empty() => Ok(()),
            bytes => self.disk.write_at(&self.file, &self.path, &bytes, begin),
        }
    }

    /// Hands the queued records over, in exchange for an empty buffer, to a thread that writes them without the lock.
    pub fn give_unwritten(&mut self, buffer: &mut Vec<u8>) -> Write {
        std::mem::swap(&mut self.unwritten, buffer);
        let at = self.at - buffer.len() as u64;
        Write { file: self.file.clone(), path: self.path.clone(), at, ahead: self.ahead }
    }

    /// Takes over what a `Write` has prepared ahead.
    pub fn has_ahead(&mut self, ahead: Ahead) {
        self.ahead = ahead;
    }

    fn append_mark(&mut self) {
        let mark = self.mark(MARK);
        self.unwritten.extend_from_slice(&mark);
        self.at += mark.len() as u64;
        self.marked = self.durable;
    }

    fn put_mark(&mut self) -> Result<(), Fault> {
        self.append_mark();
        self.write()
    }

    /// Whether the last record is durable and no watermark says so.
    pub fn needs_mark(&self) -> bool {
        self.records > self.marked && self.durable >= self.records
    }

    /// Writes a watermark after the last record: without it, a change of that record looks like a torn write.
    pub fn mark_last(&mut self) -> Result<(), Fault> {
        match self.needs_mark() {
            true => self.put_mark(),
            false => Ok(()),
        }
    }

    /// Records that the journal's segments before this one are committed to the outbox.
    pub fn say_forgotten(&mut self, before: u64) -> Result<(), Fault> {
        match &mut self.says {
            Some(says) if says.forgotten < before => {
                says.forgotten = before;
                self.put_mark()
            }
            _ => Ok(()),
        }
    }

    /// The segment up to which it has recorded that.
    pub fn forgotten(&self) -> u64 {
        self.says.map_or(0, |says| says.forgotten)
    }

    /// Prepares a write up to `end`. Usually nothing is left to do: the caller may hold the lock of the book.
    fn make_ahead(&mut self, end: u64) -> Result<(), Fault> {
        match self.ahead.reaches(end) {
            true => Ok(()),
            false => self.ahead.make(&self.disk, &self.file, &self.path, self.at, end),
        }
    }

    /// Notes that everything before `at` is durable, and the file's durable length. A shard store needs no watermarks:
    /// it tears nothing.
    pub fn note_durable(&mut self, at: u64, length: u64) {
        if self.disk.keeps_order() {
            return;
        }
        self.durable = self.durable.max(at);
        if let Some(says) = &mut self.says {
            says.length = says.length.max(length);
        }
    }

    /// A barrier: nothing that is written later becomes durable before these records.
    pub fn barrier(&mut self) -> Result<(), Fault> {
        self.disk.barrier(&self.file, &self.path)?;
        self.note_durable(self.at, self.length());
        Ok(())
    }

    /// Ends the segment: no record follows.
    pub fn end(&mut self) -> Result<(), Fault> {
        self.put(&self.mark(END)).map(drop)
    }
}

#[cfg(test)]
mod tests;
