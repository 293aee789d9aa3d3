//! The interface of a shard store: the files of one shard, kept elsewhere than in a folder.
//!
//! `storage/disk` calls it, and `store/moving` to wipe a shard; `store/postgres/shard_store` implements it, and `memory` does
//! so for tests. Changes become durable in the order in which they were made, and only under the term of the shard's
//! owner.

#[cfg(test)]
pub(crate) mod memory;
mod open;

use std::ffi::OsString;
use std::io;
use std::path::Path;
use std::sync::Arc;
use std::time::Duration;

pub use open::open;

/// The files of one shard, which one owner has under a term. Changes take effect in order. `sync` makes every earlier
/// change durable at once, and no later change before them: no file is ever torn, and every synced byte is there. File
/// names are paths relative to the shard, for example `journal/000000000001.seg`; folders need not be made.
///
/// The owner sees what was durable when it took the shard, and its own changes. An error whose inner error is `Fenced`
/// (see `lost`) is final. All calls may run on any thread, in parallel.
pub trait ShardStore: Send + Sync {
    /// Makes an empty file and returns its number. Fails with `AlreadyExists` if the name is taken.
    fn create(&self, name: &Path) -> io::Result<u64>;
    /// The number of a file, which a rename does not change. Fails with `NotFound` if there is no such file.
    fn open(&self, name: &Path) -> io::Result<u64>;
    /// The names in a folder; empty if there is no such folder.
    fn list(&self, folder: &Path) -> io::Result<Vec<OsString>>;
    fn length(&self, file: u64) -> io::Result<u64>;
    /// Returns how many bytes were read: 0 only at the end of the file. Reads see writes that are not synced yet.
    fn read_at(&self, file: u64, bytes: &mut [u8], at: u64) -> io::Result<usize>;
    /// Appends to the file or overwrites bytes in it. Changes memory only: it never blocks, and fails only with `Fenced`.
    fn write_at(&self, file: u64, bytes: &[u8], at: u64) -> io::Result<()>;
    /// Replaces the file `to` if there is one. `rename`, `create` and `remove` never block.
    fn rename(&self, from: &Path, to: &Path) -> io::Result<()>;
    /// Fails with `NotFound` if there is no such file.
    fn remove(&self, name: &Path) -> io::Result<()>;
    /// The number of changes so far.
    fn changes(&self) -> u64;
    /// Counts one more change, which changes nothing; works even if the shard is fenced.
    fn touch(&self) -> u64;
    /// Blocks until every earlier change is durable. Returns how many changes are durable; later ones may be among
    /// them. Always commits under our term, even if nothing changed, so success also proves that we owned the shard
    /// after the call began. Fails only with `Fenced`.
    fn sync(&self) -> io::Result<u64>;
    /// How long the oldest running sync has waited; zero if none is running.
    fn under_way(&self) -> Duration;
    /// The term under which this owner took the shard, if a sink can check it.
    fn owned_under(&self) -> Option<u64> {
        None
    }
    /// The epoch that was drawn when the shard was taken; it is part of the key of each request made from now on. None
    /// if the store draws no epochs.
    fn epoch(&self) -> Option<Arc<str>> {
        None
    }
    /// Whether the shard has ever had files.
    fn had_files(&self) -> bool {
        false
    }
    /// The last request that the sink has confirmed, if the store records that beside the files; else 0.
    fn delivered(&self) -> u64 {
        0
    }
}

/// What identifies the current owner of a shard.
#[derive(Clone, Debug, PartialEq, Eq)]
pub struct Tenure {
    pub term: u64,
    /// A store that was restored from a backup gives terms again, but never an epoch.
    pub epoch: Arc<str>,
}

/// Another instance owns the shard, or may own it: nothing of the shard may be answered or delivered any more.
#[derive(Clone, Copy, Debug, PartialEq, Eq, thiserror::Error)]
#[error("another instance owns this shard")]
pub struct Fenced;

/// The error of each call on a fenced shard.
pub fn fenced() -> io::Error {
    io::Error::other(Fenced)
}

pub fn is_fenced(error: &io::Error) -> bool {
    error.get_ref().is_some_and(|inner| inner.is::<Fenced>())
}

#[cfg(test)]
mod tests;
