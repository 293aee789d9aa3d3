//! A store in PostgreSQL: the files of shards, and which instance owns which shard.
//!
//! Each write to a shard locks the shard's row, on condition that the row has the writer's term. Nothing else keeps two
//! owners apart: no clock, no lease, no session lock. What is read counts only after a committed write of our own,
//! because after a restart a server shows rows that its standby does not have.

mod connection;
mod copies;
mod counts;
mod fault;
mod member;
mod restored;
mod schema;
mod session;
mod shard_store;
mod state;
mod terms;
mod unknown_outcome;

pub use crate::postgres::Server;
pub use copies::Copies;
pub use counts::Counts;
pub use fault::StoreFault;
pub use member::Member;
pub use schema::{Cluster, MOST_SHARDS};
pub use shard_store::PostgresShardStore;
pub use state::StoreState;
pub use unknown_outcome::UnknownOutcome;

use crate::postgres::identity;
use crate::storage::shard_store::Fenced;
use crate::work::locked;
use connection::{Connection, Connections};
use session::{within, Owned, SILENT};
use shard_store::{on_this_thread, open, GroupCommitter};
use std::collections::BTreeMap;
use std::future::Future;
use std::sync::{Arc, Mutex};
use std::thread;
use std::time::{Duration, Instant};
use tokio::runtime::{Builder, Handle, Runtime};
use tokio_postgres::types::ToSql;

/// Connections run on these threads, so they go on while threads of the service wait for the store.
const THREADS: usize = 2;
/// How long a command or a start retries in all if the server goes away, and the pause between two tries.
const PATIENCE: Duration = Duration::from_secs(20);
const PAUSE: Duration = Duration::from_millis(500);

pub struct PostgresStore {
    pub cluster: Cluster,
    /// Which database the store is in, as the database says itself.
    identity: Option<String>,
    /// For reads, which may be long.
    reader: Arc<Connection>,
    /// For taking and releasing shards, which may wait for a locked row.
    taker: Connection,
    /// For heartbeats and what is read after them: nothing else may delay these.
    beater: Connection,
    /// For writes to shards.
    committer: Arc<GroupCommitter>,
    threads: Arc<Threads>,
    /// By shard: the term under which we took it last, and the epoch drawn for that.
    taken: Mutex<BTreeMap<u16, (u64, String)>>,
}

/// A runtime that ends without blocking, wherever it is dropped.
struct Threads {
    /// None once it is dropped.
    runtime: Option<Runtime>,
    handle: Handle,
}

impl Threads {
    fn start() -> Result<Threads, StoreFault> {
        let mut builder = Builder::new_multi_thread();
        let runtime = builder.worker_threads(THREADS).thread_name("store").enable_all().build()?;
        Ok(Threads { handle: runtime.handle().clone(), runtime: Some(runtime) })
    }

    /// Blocks on any thread, inside a runtime or not.
    fn wait<T>(&self, work: impl Future<Output = T>) -> T {
        let _entered = self.handle.enter();
        on_this_thread(work)
    }
}

impl Drop for Threads {
    fn drop(&mut self) {
        if let Some(runtime) = self.runtime.take() {
            runtime.shutdown_background();
        }
    }
}

/// Parses `postgres://..`, with one host, or several that have the same database.
pub fn address(text: &str) -> Result<Server, String> {
    let (scheme, rest) = text.split_once(':').unwrap_or_default();
    match scheme.eq_ignore_ascii_case("postgres") || scheme.eq_ignore_ascii_case("postgresql") {
        true => Server::read_hosts(rest),
        false => Err("a store is postgres://USER@HOST:PORT/DB, or postgres://USER@HOST1,HOST2/DB".into()),
    }
}

impl PostgresStore {
    /// Makes the tables of a store in this database.
    pub fn make(server: &Server, shards: u16) -> Result<Cluster, StoreFault> {
        Threads::start()?.wait(schema::make(server, shards))
    }

    /// Opens a store for an instance, which still has to `agree`.
    pub fn join(server: &Server, copies: Copies) -> Result<PostgresStore, StoreFault> {
        let store = PostgresStore::look_into(server, copies)?;
        store.admit()?;
        Ok(store)
    }

    /// Passes if this instance reads posts by the same rules as the one that started first: `reading` has the settings
    /// that determine what posts mean.
    pub fn agree(&self, reading: &str) -> Result<(), StoreFault> {
        let there = self.told(schema::AGREE, &[&reading])?;
        match there == reading {
            true => Ok(()),
            false => Err(StoreFault::Reading { here: reading.into(), there }),
        }
    }

    /// Opens a store without serving from it, even if it does not count yet.
    pub fn look_into(server: &Server, copies: Copies) -> Result<PostgresStore, StoreFault> {
        let threads = Arc::new(Threads::start()?);
        let checking = async {
            let (client, _driver) = connection::connect(server).await?;
            let cluster = schema::check(&client, server).await?;
            copies::check(&client, server, copies).await?;
            Ok::<_, StoreFault>((cluster, within(SILENT, identity(&client)).await?))
        };
        let (cluster, identity) = threads.wait(checking)?;
        let connections = Connections::to(server, copies, &Arc::default(), &threads.handle);
        Ok(PostgresStore {
            cluster,
            identity,
            reader: Arc::new(Connection::of(&connections)),
            taker: Connection::of(&connections),
            beater: Connection::of(&connections),
            committer: Arc::new(GroupCommitter::start(&connections)),
            threads,
            taken: Mutex::default(),
        })
    }

    /// Retries for a while if the server goes away: it may come back, or another one may take its place. `work` must be
    /// repeatable.
    pub(super) fn waited<T>(
        &self,
        work: impl AsyncFn() -> Result<T, UnknownOutcome>,
    ) -> Result<T, StoreFault> {
        let begun = Instant::now();
        loop {
            match self.threads.wait(work()) {
                Err(doubt) if doubt.may_pass() && begun.elapsed() < PATIENCE => thread::sleep(PAUSE),
                done => return Ok(done?),
            }
        }
    }

    /// Runs a statement that returns one text.
    fn told(&self, text: &str, values: &[&(dyn ToSql + Sync)]) -> Result<String, StoreFault> {
        self.waited(async || Ok(self.taker.told(text, values).await?.get(0)))
    }

    /// The sink of all instances, as the first one set it; empty before that.
    pub fn sink(&self) -> Result<String, StoreFault> {
        self.told(schema::SINK, &[])
    }

    /// Sets the sink if it is still `before`, and returns the sink as it is then.
    pub fn set_sink(&self, before: &str, now: &str) -> Result<String, StoreFault> {
        self.told(schema::SET_SINK, &[&before, &now])
    }

    /// Which database the store is in, if the database can tell.
    pub fn identity(&self) -> Option<String> {
        self.identity.clone()
    }

    pub fn counts(&self) -> &Arc<Counts> {
        &self.reader.all.counts
    }

    /// Remembers that we took the shard under this term and epoch. Another instance may own it under the same term with
    /// another epoch.
    fn note_taken(&self, shard: u16, term: u64, epoch: String) -> u64 {
        locked(&self.taken).insert(shard, (term, epoch));
        term
    }

    /// Opens a shard that we took under this term; fails if another instance has taken it since. Retries until the
    /// outcome is known.
    pub fn shard_store(&self, shard: u16, term: u64) -> Result<Arc<PostgresShardStore>, Fenced> {
        let taken = locked(&self.taken).get(&shard).cloned();
        let (_, epoch) = taken.filter(|(taken, _)| *taken == term).ok_or(Fenced)?;
        let of = Owned { shard: shard.into(), term: term as i64, epoch: &epoch };
        let opened = self.threads.wait(open(&self.reader, &of))?;
        Ok(Arc::new(PostgresShardStore::new(opened, &self.committer, &self.reader, &self.threads)))
    }

    /// The store's address, without the password.
    pub fn name(&self) -> String {
        self.reader.all.server.to_string()
    }
}
