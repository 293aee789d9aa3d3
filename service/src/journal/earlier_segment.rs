//! Reads the segments of an earlier run, and checks that nothing but a crash can have left them as they are.
//!
//! A loss of power changes only what was not durable. Any other difference is a fault, and nothing is deleted.

use super::{parked, record, Expected, Size, HELD};
use crate::storage::disk::Disk;
use crate::storage::records::{self, Next, Reader, Which};
use crate::storage::torn_tail::{check_torn, CHANGED};
use crate::storage::{segment, Fault};
use std::path::{Path, PathBuf};

const NO_HEADER: &str =
    "the header is gone: the file was changed, cut or emptied. Nothing was deleted: restore it from a copy, or move the \
     folder away and start with an empty one";

/// A segment of an earlier run, as it was found.
pub(super) struct EarlierSegment {
    pub size: Size,
    /// Where its last whole record ends.
    pub end: u64,
    pub closed: bool,
    /// Everything before it was durable.
    pub durable: u64,
    has_header: bool,
    length: u64,
    made: u64,
    pub forgotten: u64,
    pub held: parked::List,
}

pub(super) fn read(disk: &Disk, folder: &Path, number: u64) -> Result<EarlierSegment, Fault> {
    let path = segment::path(folder, number);
    let length = disk.length(&path)?.unwrap_or(0); // if there is no file, the reader reports it
    let (mut reader, mut next) = Reader::open(disk, &path, Which::Journal, number, None)?;
    let has_header = matches!(next, Next::Record { .. });
    let mut size = Size { number, bytes: 0, first: None };
    let mut held = parked::List::new();
    loop {
        match next {
            Next::Record { at, kind: HELD, bytes } => {
                size.bytes += bytes.len() as u64;
                let list = parked::list_of(&bytes);
                held = list.ok_or_else(|| reader.damaged(at, parked::NO_LIST))?;
            }
            Next::Record { kind: records::HEADER, .. } => {}
            Next::Record { kind, bytes, .. } => {
                size.bytes += bytes.len() as u64;
                size.first = size.first.or_else(|| record::since(kind, &bytes));
            }
            Next::Closed | Next::Stop => {
                return Ok(EarlierSegment {
                    size,
                    end: reader.at,
                    closed: next == Next::Closed,
                    durable: reader.durable,
                    has_header,
                    length,
                    made: reader.made,
                    forgotten: reader.forgotten,
                    held,
                })
            }
        }
        next = reader.next()?;
    }
}

/// Passes if the segments are as an end of the process or a loss of power may leave them.
pub(super) fn check(
    disk: &Disk,
    folder: &Path,
    segments: &[EarlierSegment],
    expected: &Expected,
) -> Result<(), Fault> {
    is_not_behind(segments, expected)?;
    let reach = expected.reach.max(1);
    let mut needed: Vec<u64> = segments.iter().map(|one| one.size.number).collect();
    needed.retain(|number| *number >= reach);
    // The names of these are durable, up to the last known one.
    let known = expected.begun.map_or(0, |begun| begun.max(reach));
    if let Some(missing) = (reach..=known).find(|number| !needed.contains(number)) {
        return Err(segment::missing(folder, missing));
    }
    segment::check_row(folder, &needed)?;
    if needed.first().is_some_and(|first| *first > reach) {
        return Err(segment::missing(folder, reach));
    }
    segments.iter().try_for_each(|one| one.check(disk, folder, expected))?;
    let first = segments.iter().find(|one| one.size.number == reach);
    first.map_or(Ok(()), |first| parked::check(disk, folder, &first.held))
}

/// With an older outbox, posts that are in a group would be counted again.
fn is_not_behind(segments: &[EarlierSegment], expected: &Expected) -> Result<(), Fault> {
    let forgotten = segments.iter().map(|one| one.forgotten).max().unwrap_or(0);
    if forgotten <= expected.reach {
        return Ok(());
    }
    let (path, at) = expected.by.clone();
    let what = format!(
        "the outbox is older than the journal beside it, or was cut here: it should have all posts before the journal's \
         segment {forgotten}, but has only those before segment {}. Nothing was deleted: restore all of the folder outbox, \
         or move the folder away and start with an empty one",
        expected.reach
    );
    Err(Fault::Damaged { path, at, what })
}

impl EarlierSegment {
    fn check(&self, disk: &Disk, folder: &Path, expected: &Expected) -> Result<(), Fault> {
        let path = segment::path(folder, self.size.number);
        let damaged = |path: PathBuf, at, what: String| Err(Fault::Damaged { path, at, what });
        if self.closed || self.size.number < expected.reach {
            return Ok(());
        }
        if !self.has_header && expected.begun.is_some() {
            return damaged(path, self.end, NO_HEADER.into());
        }
        if self.length < self.made {
            let (length, made) = (self.length, self.made);
            let what = format!(
                "the file was cut here: it had {made} bytes. Nothing was deleted: restore it from a copy, or move the \
                 folder away and start with an empty one"
            );
            return damaged(path, length, what);
        }
        check_torn(disk, &path, self.end)?;
        // A start durably closes all segments that it finds before it begins another.
        match expected.begun.is_some_and(|begun| self.size.number < begun) {
            true => damaged(path, self.end, CHANGED.into()),
            false => Ok(()),
        }
    }
}
