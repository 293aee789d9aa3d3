//! Reads the waiting requests after the first one, for a sink that takes several in one transaction
//! (`sink/delivery/together`).

use super::state::{Batch, Front};
use super::{rows, segment, Outbox};
use crate::storage::disk::Disk;
use crate::work::blocking;
use crate::work::locked;
use std::path::{Path, PathBuf};

impl Outbox {
    /// The requests after the first, with their numbers, up to `most` requests and `bytes` bytes. Stops at one that
    /// can't be read; that is reported when it becomes the first.
    pub async fn behind_first(&self, most: usize, bytes: usize) -> Vec<(u64, Vec<u8>)> {
        let batches = locked(&self.state).of_one_epoch(most);
        let (disk, folder) = (self.disk.clone(), self.folder.clone());
        blocking(move || read(&disk, &folder, batches, most, bytes)).await
    }
}

fn read(disk: &Disk, folder: &Path, all: Vec<Batch>, most: usize, mut bytes: usize) -> Vec<(u64, Vec<u8>)> {
    let Some(first) = all.first().map(|batch| batch.first) else {
        return Vec::new();
    };
    let items = all.iter().flat_map(|batch| {
        let path = segment::path(folder, batch.segment);
        Items { disk, path, front: batch.front(), left: batch.count }
    });
    // None is skipped: the requests have to be consecutive.
    let next = items.skip(1).zip(first + 1..).map_while(|(item, wanted)| (item.0 == wanted).then_some(item));
    let in_bounds = next.take(most).map_while(|(number, body)| {
        bytes = bytes.checked_sub(body.len())?;
        Some((number, body))
    });
    in_bounds.collect()
}

/// The requests of a batch, which are adjacent in the file.
struct Items<'a> {
    disk: &'a Disk,
    path: PathBuf,
    front: Front,
    left: u64,
}

impl Iterator for Items<'_> {
    type Item = (u64, Vec<u8>);

    fn next(&mut self) -> Option<(u64, Vec<u8>)> {
        self.left = self.left.checked_sub(1)?;
        let (packed, length) = rows::packed_item(self.disk, &self.path, &self.front).ok()?;
        let number = self.front.waiting.number;
        self.front.at += length;
        self.front.waiting.number += 1;
        Some((number, rows::inflated(&packed)?))
    }
}
