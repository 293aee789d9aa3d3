//! A shard that we own: its files, its commits, and the fence of its writes.
//!
//! Each write carries term, epoch and connection epoch; if the shard's row has others, the write changes nothing.

use super::cache::Cache;
use super::committer::Write;
use super::files::{Batch, Files};
use super::rounds::SyncRounds;
use crate::latch::Latch;
use crate::store::postgres::session::{Owned, ShardRow};
use crate::work::locked;
use std::sync::{Arc, Mutex, MutexGuard};
use tokio::sync::watch;

pub struct OwnedShard {
    pub shard: i32,
    pub term: i64,
    /// Drawn when we took the shard.
    pub epoch: Arc<str>,
    /// The last request that the sink had confirmed when we took the shard.
    pub delivered: u64,
    /// The shard had had files before.
    pub begun: bool,
    pub files: Mutex<Files>,
    pub cache: Mutex<Cache>,
    pub rounds: SyncRounds,
    fence: Mutex<Fence>,
    is_fenced: watch::Sender<bool>,
}

/// What the next write of the shard has to know.
#[derive(Clone, Copy, Default)]
pub struct Fence {
    /// The connection epoch in the shard's row; raised when the outcome of a write is unknown.
    pub connection_epoch: i64,
    /// The last connection that found the shard complete, or wrote to it since.
    pub connection: u64,
    /// File and number of the piece that became durable last, unless the file was deleted.
    pub last: Option<(i64, i64)>,
}

impl OwnedShard {
    pub fn new(of: &Owned<'_>, row: &ShardRow, delivered: u64, files: Files) -> Arc<OwnedShard> {
        Arc::new(OwnedShard {
            shard: of.shard,
            term: of.term,
            epoch: of.epoch.into(),
            delivered,
            begun: row.begun,
            files: Mutex::new(files),
            cache: Mutex::default(),
            rounds: SyncRounds::default(),
            fence: Mutex::new(Fence { connection_epoch: row.connection_epoch, ..Fence::default() }),
            is_fenced: watch::channel(false).0,
        })
    }

    /// What identifies us as the owner in the shard's row.
    pub fn owned(&self) -> Owned<'_> {
        Owned { shard: self.shard, term: self.term, epoch: &self.epoch }
    }

    /// Ends all writes and fails the callers that wait.
    pub fn fence_off(&self) {
        self.rounds.fence_off();
        self.is_fenced.send_replace(true);
    }

    pub fn is_fenced(&self) -> bool {
        *self.is_fenced.borrow()
    }

    pub async fn fenced(&self) {
        self.is_fenced.subscribe().wait_true().await;
    }

    pub fn fence(&self) -> Fence {
        *locked(&self.fence)
    }

    /// The shard's row has this connection epoch now.
    pub fn has_connection_epoch(&self, connection_epoch: i64) {
        let mut fence = locked(&self.fence);
        fence.connection_epoch = fence.connection_epoch.max(connection_epoch);
    }

    /// What is queued; none if that is long.
    pub fn short_batch(&self) -> Option<Batch> {
        let files = locked(&self.files);
        (!files.is_long()).then(|| self.begin(files))
    }

    /// What is queued.
    pub fn batch(&self) -> Batch {
        self.begin(locked(&self.files))
    }

    fn begin(&self, mut files: MutexGuard<'_, Files>) -> Batch {
        self.rounds.begin();
        files.batch()
    }

    /// A connection made a write durable. Returns whether callers wait for another one.
    pub fn is_durable(&self, write: Write, connection: u64) -> bool {
        let Write { batch, packed, .. } = write;
        locked(&self.files).is_there(&batch);
        {
            let mut fence = locked(&self.fence);
            fence.connection = connection;
            let last = packed.pieces.last().map(|piece| (piece.file, piece.number));
            fence.last = last.or(fence.last.filter(|(file, _)| !packed.gone.contains(file)));
        }
        let mut cache = locked(&self.cache);
        for (number, piece) in batch.pieces {
            cache.put(number, piece.bytes);
        }
        drop(cache);
        self.rounds.end(batch.changes)
    }
}
