//! The segment of the outbox that is being written, and whether writing it is still allowed.

use super::snapshot::Snapshot;
use crate::storage::disk::Disk;
use crate::storage::segment::Segment;
use crate::storage::{Fault, Fenced};
use std::io;
use std::path::Path;

pub struct Writer {
    pub segment: Segment,
    /// Where the segment's snapshot ends.
    snapshot: u64,
    /// A write or sync failed: what is on disk is unknown, and nothing is written again before a new start.
    pub failed: bool,
}

impl Writer {
    /// For a segment without a snapshot and a name; nothing can be written until it has both.
    pub fn new(segment: Segment) -> Writer {
        Writer { segment, snapshot: 0, failed: true }
    }

    /// Writes the snapshot first, and names the segment after it is complete.
    pub fn put_snapshot(&mut self, disk: &Disk, folder: &Path, snapshot: &Snapshot) -> Result<(), Fault> {
        let segment = &mut self.segment;
        segment.put(&snapshot.records())?;
        segment.barrier()?;
        segment.name()?;
        self.snapshot = segment.at;
        disk.order_folder(folder)
    }

    /// Whether a new segment is due. The records after the snapshot take at least its length: otherwise each change
    /// after a long snapshot would bring the next one.
    pub fn is_full(&self, longest: u64) -> bool {
        self.segment.at >= longest.max(2 * self.snapshot)
    }

    /// Marks the writer as failed until the caller reports success.
    pub fn begin(&mut self, disk: &Disk) -> Result<(), Fault> {
        if !std::mem::replace(&mut self.failed, true) {
            return Ok(());
        }
        if disk.is_fenced() {
            return Err(Fenced.into());
        }
        let source =
            io::Error::other("an earlier write failed, so nothing more is written: restart the service");
        let path = self.segment.path.clone();
        Err(Fault::Io { path, source })
    }
}
