//! The files of a shard: its journal, its outbox and its dead letters, in a folder or in a shard store.
//!
//! `service/open_shard` opens them, `shard` appends posts, `worker` makes checkpoints and `sink/delivery` sends what waits in
//! the outbox. After a call on a file has failed, nothing more is written: the process ends, or in a store the shard
//! alone.

pub(crate) mod disk;
pub mod folder;
pub(crate) mod free_space;
#[cfg(test)]
pub(crate) mod power;
pub(crate) mod records;
pub(crate) mod segment;
pub mod shard_store;
#[cfg(test)]
pub(crate) mod test_random;
#[cfg(test)]
pub(crate) mod test_runs;
pub(crate) mod text_row;
pub(crate) mod torn_tail;

pub(crate) use disk::FAILED;
#[cfg(test)]
pub(crate) use disk::{Call, Disk};
pub use folder::{Folder, FolderFault, KnownSink};
pub(crate) use free_space::FreeSpace;
pub use segment::Dropped;
pub use shard_store::{Fenced, ShardStore, Tenure};
pub use text_row::shared_ends;

/// What has to hold before a post is answered.
#[derive(Clone, Copy, Debug, PartialEq, Eq, clap::ValueEnum)]
pub enum Durability {
    /// The post is on disk (`fdatasync`).
    Disk,
    /// The post is written: it survives a crash of the process, not a loss of power.
    Process,
}

/// A file failed. It ends the process, or only the shard if a shard store keeps the files; the next start reads what is
/// there.
#[derive(Debug, thiserror::Error)]
pub enum Fault {
    #[error("{path}: {source}")]
    Io { path: std::path::PathBuf, source: std::io::Error },
    /// Something within a file was changed, or the file has another format version. Nothing was deleted.
    #[error("{path}, byte {at}: {what}")]
    Damaged { path: std::path::PathBuf, at: u64, what: String },
    /// Another instance owns the shard. Only this shard ends here.
    #[error(transparent)]
    Fenced(#[from] Fenced),
}

/// Nanoseconds since 1970.
pub(crate) fn nanoseconds() -> u64 {
    let since = std::time::SystemTime::now().duration_since(std::time::UNIX_EPOCH);
    since.map_or(0, |since| u64::try_from(since.as_nanos()).unwrap_or(u64::MAX))
}

/// Seconds since 1970.
pub(crate) fn seconds() -> u64 {
    nanoseconds() / 1_000_000_000
}
