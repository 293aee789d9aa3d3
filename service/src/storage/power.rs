//! Simulates losses of power, for tests. Of unsynced bytes any sectors survive; of the names made since the folder's
//! last sync the first ones do; and any of the deleted names may be back, since not every file system keeps the order
//! of deletions.

use super::disk::{Call, Disk};
use super::test_random::TestRandom;
use crate::journal::SYNCER;
use crate::work::locked;
use std::collections::{BTreeMap, HashMap};
use std::os::unix::fs::MetadataExt;
use std::path::{Path, PathBuf};
use std::sync::atomic::{AtomicU64, Ordering::SeqCst};
use std::sync::{Arc, Mutex};

const SECTOR: usize = 512;

/// Names with inodes, which identify files across renames.
type Names = BTreeMap<PathBuf, u64>;

fn names(folder: &Path) -> Names {
    let entries = std::fs::read_dir(folder).unwrap().map(|entry| entry.unwrap());
    entries.map(|entry| (entry.file_name().into(), entry.metadata().unwrap().ino())).collect()
}

/// What the simulated disk knows of a folder.
pub(crate) struct Shadow {
    folder: PathBuf,
    /// The contents of files when they were last synced.
    synced: HashMap<u64, Vec<u8>>,
    /// The contents of files when they were deleted.
    deleted: HashMap<u64, Vec<u8>>,
    /// The names at the last sync of the folder, and after each change since.
    names: Vec<Names>,
}

impl Shadow {
    /// For a folder that is durable as it is.
    pub fn of(folder: &Path) -> Shadow {
        let now = names(folder);
        let file = |(name, inode): (&PathBuf, &u64)| (*inode, std::fs::read(folder.join(name)).unwrap());
        Shadow {
            folder: folder.into(),
            synced: now.iter().map(file).collect(),
            deleted: HashMap::new(),
            names: vec![now],
        }
    }

    /// Records the state before a call.
    fn see(&mut self, call: Call, path: &Path) {
        let now = names(&self.folder);
        if self.names.last() != Some(&now) {
            self.names.push(now);
        }
        let file = || (std::fs::metadata(path).unwrap().ino(), std::fs::read(path).unwrap());
        match call {
            Call::Sync => self.synced.extend([file()]),
            Call::Remove => self.deleted.extend([file()]),
            Call::Rename if path.exists() => self.deleted.extend([file()]),
            Call::SyncFolder => drop(self.names.drain(..self.names.len() - 1)),
            _ => {}
        }
    }

    /// The names as of one moment since the last sync; names that were deleted before that may be back.
    fn left(&self, chance: &mut TestRandom) -> Names {
        let some = chance.below(self.names.len() as u64) as usize;
        let mut left = self.names[some].clone();
        let may_be_back = chance.below(2);
        for (name, inode) in self.names[..some].iter().flatten() {
            if chance.below(2) < may_be_back {
                left.entry(name.clone()).or_insert(*inode);
            }
        }
        left
    }

    /// Writes what a loss of power could leave into another folder.
    pub fn lose_power(&mut self, left: &Path, chance: &mut TestRandom) {
        std::fs::create_dir(left).unwrap();
        self.see(Call::Write, &self.folder.clone());
        for (name, inode) in &self.left(chance) {
            let now = self.names.last().into_iter().flatten();
            let now = match now.into_iter().find(|(_, it)| *it == inode) {
                Some((name, _)) => std::fs::read(self.folder.join(name)).unwrap(),
                None => self.deleted[inode].clone(),
            };
            let synced = self.synced.get(inode).cloned().unwrap_or_default();
            std::fs::write(left.join(name), mixed(&synced, &now, chance)).unwrap();
        }
    }
}

/// The length is the synced one or the current one, and so are the bytes of each sector.
fn mixed(synced: &[u8], now: &[u8], chance: &mut TestRandom) -> Vec<u8> {
    let mut mixed = vec![0; [synced, now][chance.below(2) as usize].len()];
    let new = [0, 1, 2, 3, 3, 3][chance.below(6) as usize];
    for (number, sector) in mixed.chunks_mut(SECTOR).enumerate() {
        let from = if chance.below(3) < new { now } else { synced };
        let from = from.get(number * SECTOR..).unwrap_or_default();
        let length = sector.len().min(from.len());
        sector[..length].copy_from_slice(&from[..length]);
    }
    mixed
}

/// A disk that records into `shadow` and fails each call after the first `calls`.
pub(crate) fn disk(shadow: &Arc<Mutex<Shadow>>, calls: u64) -> Disk {
    disk_behind(shadow, Arc::new(AtomicU64::new(calls)))
}

/// The same with a counter that the test can set. Calls of the journal's sync thread are not counted and always
/// succeed, as if they came before the loss: whether that thread acts depends on the load of the machine.
pub(crate) fn disk_behind(shadow: &Arc<Mutex<Shadow>>, left: Arc<AtomicU64>) -> Disk {
    let shadow = shadow.clone();
    Disk::failing(move |call, path| {
        let mut shadow = locked(&shadow);
        let is_counted = std::thread::current().name() != Some(SYNCER);
        let counted = left.fetch_update(SeqCst, SeqCst, |left| left.checked_sub(u64::from(is_counted)));
        match counted {
            Ok(_) => shadow.see(call, path),
            Err(_) => return Err(std::io::Error::other("the power is lost")),
        }
        Ok(())
    })
}

/// A folder in memory, if there is one.
pub(crate) fn place() -> tempfile::TempDir {
    tempfile::tempdir_in("/dev/shm").unwrap_or_else(|_| tempfile::tempdir().unwrap())
}

/// Copies the files of a folder into a new one.
pub(crate) fn copy(from: &Path, to: &Path) {
    std::fs::create_dir(to).unwrap();
    for name in names(from).into_keys() {
        std::fs::copy(from.join(&name), to.join(&name)).unwrap();
    }
}
