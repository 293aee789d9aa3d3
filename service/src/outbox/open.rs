//! Opens the outbox: reads what an earlier run left, closes it, and begins a new segment.
//!
//! `storage/folder` and `storage/shard_store/open` call it at a start. Every request that the sink does not have is there, or the
//! start fails with a fault.

use super::reading::Reading;
use super::rows;
use super::state::{Batch, State};
use super::{ends, Outbox, ReadEnds, Writer, SEGMENT};
use crate::storage::disk::Disk;
use crate::storage::free_space::FreeSpace;
use crate::storage::records::{Reader, Which};
use crate::storage::segment::{self, Ahead, Segment};
use crate::storage::{Dropped, Fault};
use crate::work::locked;
use std::path::{Path, PathBuf};
use std::sync::atomic::AtomicU64;
use std::sync::{Arc, Mutex};
use tokio::sync::Notify;

impl Outbox {
    /// Reads an outbox, which is for reading only until it is begun.
    pub(crate) fn read(
        disk: &Disk,
        folder: &Path,
        epoch: &str,
        free_space: Arc<FreeSpace>,
    ) -> Result<Outbox, Fault> {
        Outbox::read_with(disk, folder, epoch, free_space, ends, SEGMENT)
    }

    pub(super) fn read_with(
        disk: &Disk,
        folder: &Path,
        epoch: &str,
        free_space: Arc<FreeSpace>,
        read_ends: ReadEnds,
        longest: u64,
    ) -> Result<Outbox, Fault> {
        let disk = &disk.of_its_own();
        disk.make_folder(folder)?;
        let numbers = segment::numbers(disk, folder)?;
        let last = numbers.last().copied();
        if let Some(last) = last {
            Reading::open(disk, folder, last)?; // fails for another version, before anything is written to it
        }
        // Each segment was begun after the one before it was durable.
        segment::rewrite_and_sync(disk, folder, last.unwrap_or(0), |_| 0)?;
        let EarlierRun { mut state, has_requests, ended, dropped } = read_all(disk, folder, &numbers, epoch)?;
        state.facts.epoch = epoch.into();
        // A last segment without requests is replaced: otherwise each start that ends at once would leave one.
        let number = last.map_or(1, |last| last + u64::from(has_requests));
        let segment = Segment::create(disk, folder, Which::Outbox, number, Ahead::Nothing, None)?;
        // Everything that was read is durable.
        let settled = AtomicU64::new(state.facts.next);
        Ok(Outbox {
            disk: disk.clone(),
            folder: folder.into(),
            free_space,
            read_ends,
            longest,
            writer: Mutex::new(Writer::new(segment)),
            state: Mutex::new(state),
            arrived: Notify::new(),
            settled,
            ended,
            dropped,
            stuck: Mutex::new(None),
        })
    }

    pub(crate) fn begun(self) -> Result<Outbox, Fault> {
        self.begin()?;
        Ok(self)
    }

    /// Begins the new segment; nothing can be written before.
    pub(crate) fn begin(&self) -> Result<(), Fault> {
        let mut writer = locked(&self.writer);
        let snapshot = locked(&self.state).snapshot();
        writer.put_snapshot(&self.disk, &self.folder, &snapshot)?;
        self.keep_room(&writer);
        writer.segment.barrier()?;
        self.delete_taken(&writer)?;
        writer.failed = false;
        Ok(())
    }
}

/// What an earlier run left.
struct EarlierRun {
    state: State,
    /// Whether the last segment has requests, acknowledged or not.
    has_requests: bool,
    ended: (PathBuf, u64),
    dropped: Vec<Dropped>,
}

/// Reads all segments and closes the last one.
fn read_all(disk: &Disk, folder: &Path, numbers: &[u64], epoch: &str) -> Result<EarlierRun, Fault> {
    let Some((last, earlier)) = numbers.split_last() else {
        return Ok(EarlierRun {
            state: State::new(epoch),
            has_requests: false,
            ended: (folder.into(), 0),
            dropped: Vec::new(),
        });
    };
    let mut batches = Vec::new();
    for number in earlier {
        Reading::open(disk, folder, *number)?.pass_over(&mut batches)?;
    }
    let mut reading = Reading::open(disk, folder, *last)?;
    let (mut state, end) = reading.read_last()?;
    let mut dropped = Vec::new();
    if let Some(end) = end {
        dropped.extend(segment::keep_aside(disk, &reading.reader.path, end)?);
        segment::close_at(disk, &reading.reader.path, end)?;
    }
    let ended = (reading.reader.path.clone(), end.unwrap_or(reading.reader.at));
    let has_requests = !state.batches.is_empty();
    batches.extend(std::mem::take(&mut state.batches));
    state.bytes = 0;
    // The sink has all requests of deleted segments, and a loss of power may bring any of these segments back.
    let taken = state.facts.acknowledged;
    let mut next = taken + 1;
    for batch in batches.into_iter().filter(|batch| batch.first + batch.count > taken + 1) {
        let batch = skip_taken(disk, folder, batch, taken)?;
        if batch.first != next {
            return Err(lost(folder, numbers, &reading.reader));
        }
        next += batch.count;
        state.wait(batch);
    }
    match next == state.facts.next {
        true => Ok(EarlierRun { state, has_requests, ended, dropped }),
        false => Err(lost(folder, numbers, &reading.reader)),
    }
}

/// The fault for a missing request that the sink does not have.
fn lost(folder: &Path, numbers: &[u64], last: &Reader) -> Fault {
    let what =
        "a request that the sink does not have is missing: restore all files of this folder from a copy";
    segment::check_row(folder, numbers).err().unwrap_or_else(|| last.damaged(0, what))
}

/// The part of a batch that still waits.
fn skip_taken(disk: &Disk, folder: &Path, mut batch: Batch, acknowledged: u64) -> Result<Batch, Fault> {
    let path = segment::path(folder, batch.segment);
    while batch.first <= acknowledged {
        match rows::packed_item(disk, &path, &batch.front()) {
            Ok((_, length)) => batch.pass(1, batch.at + length),
            // This request was changed, but the sink has it: search for the next one.
            Err(Fault::Damaged { .. }) => {
                let next = rows::find_item(disk, &path, batch.at..batch.end, acknowledged + 1)?;
                batch.pass(acknowledged + 1 - batch.first, next.unwrap_or(batch.at));
            }
            Err(fault) => return Err(fault),
        }
    }
    Ok(batch)
}
