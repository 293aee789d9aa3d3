//! A shard store in PostgreSQL: implements `ShardStore` for one shard.
//!
//! Changes are queued in memory. A sync commits all changes that are queued when its transaction begins, which may be
//! after one that is already running; the transaction locks the shard's row under the owner's term. The queue is
//! bounded because posts are refused when a sync takes too long (`under_way`, `shard/disk_stall`), for whatever reason,
//! for example a full disk of the server.

mod cache;
mod committer;
mod extents;
mod files;
mod here;
mod linger;
mod open;
mod owned_shard;
mod packed;
mod rounds;
#[cfg(test)]
mod tests;

pub(super) use committer::{GroupCommitter, Write};
pub(super) use here::on_this_thread;
pub(super) use open::open;
pub(super) use owned_shard::OwnedShard;
pub(super) use packed::PackedPiece;

use super::connection::{Connection, Stored};
use super::Threads;
use crate::dead_letters::DeadLetters;
use crate::journal::Journal;
use crate::outbox::Outbox;
use crate::storage::shard_store::{fenced, open as open_files, Fenced, ShardStore};
use crate::storage::Fault;
use crate::work::locked;
use files::{Bytes, Files, Read};
use std::collections::HashMap;
use std::ffi::OsString;
use std::io;
use std::path::Path;
use std::sync::{Arc, MutexGuard};
use std::time::Duration;

pub struct PostgresShardStore {
    owner: Arc<OwnedShard>,
    committer: Arc<GroupCommitter>,
    reader: Arc<Connection>,
    /// Keeps the runtime alive while the shard store exists, even if the store itself was dropped.
    threads: Arc<Threads>,
}

impl PostgresShardStore {
    /// For a shard that was just opened.
    pub(super) fn new(
        owner: Arc<OwnedShard>,
        committer: &Arc<GroupCommitter>,
        reader: &Arc<Connection>,
        threads: &Arc<Threads>,
    ) -> PostgresShardStore {
        let (committer, reader, threads) = (committer.clone(), reader.clone(), threads.clone());
        PostgresShardStore { owner, committer, reader, threads }
    }

    pub fn shard(&self) -> u16 {
        self.owner.shard as u16
    }

    pub fn term(&self) -> u64 {
        self.owner.term as u64
    }

    /// Ends all writes and fails the callers that wait: because another instance is known to own the shard, or because
    /// the shard is given away or ends.
    pub fn fence_off(&self) {
        self.owner.fence_off();
    }

    /// Opens the files; if that fails, nothing of the shard is written any more. `root` is the store's epoch.
    pub fn open_files(self: &Arc<Self>, root: &str) -> Result<(Journal, Outbox, DeadLetters), Fault> {
        let opened = open_files(self.clone() as Arc<dyn ShardStore>, root);
        opened.inspect_err(|_| self.fence_off())
    }

    /// The files, unless the shard is fenced.
    fn files(&self) -> io::Result<MutexGuard<'_, Files>> {
        self.owner.rounds.check().map_err(|Fenced| fenced())?;
        Ok(locked(&self.owner.files))
    }

    /// Reads pieces. While the server is away it waits, as long as we own the shard. If pieces are missing, it asks
    /// again after a committed write, since only that proves that this server is the primary.
    fn fetch(&self, file: u64, wanted: Vec<u64>) -> io::Result<HashMap<u64, Bytes>> {
        let (owner, reader) = (&self.owner, &self.reader);
        let (whose, of) = (format!("shard {}", owner.shard), owner.owned());
        let reading = async {
            let ask = || reader.pieces(owner.shard, file, &wanted);
            let rows = reader.all.until_known(&whose, ask).await;
            if rows.len() == wanted.len() {
                return Ok(rows);
            }
            let ask = || {
                reader.behind_a_write(&of, async |session, row| {
                    owner.has_connection_epoch(row.connection_epoch);
                    session.pieces(owner.shard, file, &wanted).await
                })
            };
            reader.all.until_known(&whose, ask).await.ok_or(Fenced)
        };
        let rows = self.threads.wait(async {
            tokio::select! {
                rows = reading => rows,
                () = owner.fenced() => Err(Fenced),
            }
        });
        let mut found = HashMap::new();
        for Stored { number, length, bytes } in rows.map_err(|Fenced| fenced())? {
            let bytes: Bytes = packed::unpacked(&bytes, length)?.into();
            locked(&owner.cache).put(number, bytes.clone());
            found.insert(number, bytes);
        }
        Ok(found)
    }

    /// We own the shard, and a row is gone that was there when we took it. Another instance would miss it too, so this
    /// is a fault of the file and does not fence us.
    fn vanished(&self, file: u64, pieces: &[u64]) -> io::Error {
        let (shard, first) = (self.shard(), pieces.first().copied().unwrap_or_default());
        let what = format!(
            "the store has lost piece {first} of file {file}, so shard {shard} is not served: restore that row of \
             totxegun_store.piece from another server or a backup"
        );
        io::Error::new(io::ErrorKind::InvalidData, what)
    }
}

impl ShardStore for PostgresShardStore {
    fn create(&self, name: &Path) -> io::Result<u64> {
        self.files()?.create(name)
    }

    fn open(&self, name: &Path) -> io::Result<u64> {
        self.files()?.open(name)
    }

    fn list(&self, folder: &Path) -> io::Result<Vec<OsString>> {
        Ok(self.files()?.list(folder))
    }

    fn length(&self, file: u64) -> io::Result<u64> {
        self.files()?.length(file)
    }

    fn read_at(&self, file: u64, bytes: &mut [u8], at: u64) -> io::Result<usize> {
        let mut fetched = HashMap::new();
        let mut asked = Vec::new();
        loop {
            let known =
                |number| fetched.get(&number).cloned().or_else(|| locked(&self.owner.cache).find(number));
            let read = self.files()?.read(file, bytes, at, known)?;
            match read {
                Read::Done(length) => return Ok(length),
                Read::Needs(numbers) if numbers == asked => return Err(self.vanished(file, &numbers)),
                Read::Needs(numbers) => {
                    asked.clone_from(&numbers);
                    fetched.extend(self.fetch(file, numbers)?);
                }
            }
        }
    }

    fn write_at(&self, file: u64, bytes: &[u8], at: u64) -> io::Result<()> {
        self.files()?.write(file, bytes, at)?;
        self.committer.arrivals.note();
        Ok(())
    }

    fn rename(&self, from: &Path, to: &Path) -> io::Result<()> {
        self.files()?.rename(from, to)
    }

    fn remove(&self, name: &Path) -> io::Result<()> {
        self.files()?.remove(name)
    }

    fn changes(&self) -> u64 {
        locked(&self.owner.files).changes()
    }

    fn touch(&self) -> u64 {
        locked(&self.owner.files).touch()
    }

    fn sync(&self) -> io::Result<u64> {
        let ask = || self.committer.ask(self.owner.clone());
        self.owner.rounds.wait(ask).map_err(|Fenced| fenced())
    }

    fn under_way(&self) -> Duration {
        self.owner.rounds.longest()
    }

    fn owned_under(&self) -> Option<u64> {
        Some(self.term())
    }

    fn epoch(&self) -> Option<Arc<str>> {
        Some(self.owner.epoch.clone())
    }

    fn delivered(&self) -> u64 {
        self.owner.delivered
    }

    fn had_files(&self) -> bool {
        self.owner.begun
    }
}
