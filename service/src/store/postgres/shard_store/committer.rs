//! Group commit: one transaction for all shards with waiting callers, because a commit costs the servers more than the
//! bytes in it.
//!
//! Each lane has a connection and at most one transaction in flight; shards with new callers join the next one. All
//! shards share one short lane. A long write goes to one of a few long lanes, chosen by the shard's number, so it
//! delays no short writes and few long ones. A shard has one write in flight at a time, with everything that was queued
//! when it began.
//!
//! Each write locks the shard's row on condition that term and connection epoch (`connection_epoch`) are the owner's. Rows that
//! another transaction has locked are skipped, so no shard waits for another one. If the outcome of a write is unknown
//! or its row was skipped, it is repeated alone on a long lane, after raising the connection epoch: so a late write of
//! a broken connection finds another one and does nothing.

use super::files::Batch;
use super::linger::{Arrivals, Linger};
use super::owned_shard::OwnedShard;
use super::packed::Packed;
use crate::store::postgres::connection::{Connection, Connections};
use crate::store::postgres::session::Session;
use crate::store::postgres::unknown_outcome::{Backoff, UnknownOutcome};
use crate::work::blocking;
use std::cmp::Reverse;
use std::collections::BTreeSet;
use std::sync::atomic::Ordering::Relaxed;
use std::sync::Arc;
use tokio::sync::mpsc::{unbounded_channel, UnboundedReceiver, UnboundedSender};
use tokio::task::{JoinError, JoinSet};

/// Each one opens a connection when it is needed (docs/SEVERAL_MACHINES.md counts them).
const LONG_LANES: usize = 4;
/// No more writes join a transaction that has this many bytes.
const MOST: usize = 1 << 20;
/// The most bytes of a packed write on the short lane.
const SHORT: usize = 64 << 10;
/// Batches below this are packed in less time than it takes to wake another thread.
const LITTLE: usize = 8 << 10;

pub struct GroupCommitter {
    lanes: Lanes,
    pub arrivals: Arc<Arrivals>,
}

/// A request to a long lane.
enum Asked {
    /// Commit what the shard has queued.
    Sync(Arc<OwnedShard>),
    /// Commit this write, which another lane began.
    Write(Box<Write>),
}

/// A write to one shard.
pub struct Write {
    pub owner: Arc<OwnedShard>,
    pub batch: Batch,
    pub packed: Packed,
    /// The store may have it already.
    pub is_repeat: bool,
    backoff: Backoff,
}

impl Write {
    fn of(owner: Arc<OwnedShard>, batch: Batch) -> Write {
        let packed = Packed::of(&batch);
        Write { owner, batch, packed, is_repeat: false, backoff: Backoff::default() }
    }
}

/// The outcome of a repeated write.
enum Again {
    Done,
    /// Another instance owns the shard.
    Fenced,
    /// The store has lost what it had of the shard.
    Vanished,
}

/// Sends requests to the lanes. After the store has ended no caller waits, so requests may get lost.
#[derive(Clone)]
struct Lanes {
    short: UnboundedSender<Arc<OwnedShard>>,
    long: Vec<UnboundedSender<Asked>>,
}

impl Lanes {
    fn ask(&self, owner: Arc<OwnedShard>) {
        let _ = self.short.send(owner);
    }

    fn ask_long(&self, owner: Arc<OwnedShard>) {
        let _ = self.long_of(&owner).send(Asked::Sync(owner));
    }

    fn pass_on(&self, write: Write) {
        let _ = self.long_of(&write.owner).send(Asked::Write(Box::new(write)));
    }

    fn long_of(&self, owner: &OwnedShard) -> &UnboundedSender<Asked> {
        &self.long[owner.shard as usize % self.long.len()]
    }
}

struct Lane<T> {
    asked: UnboundedReceiver<T>,
    lanes: Lanes,
    connection: Connection,
}

impl GroupCommitter {
    pub fn start(connections: &Arc<Connections>) -> GroupCommitter {
        let runtime = &connections.threads;
        let arrivals = Arc::<Arrivals>::default();
        let (short, short_asked) = unbounded_channel();
        let (long, long_asked): (Vec<_>, Vec<_>) = (0..LONG_LANES).map(|_| unbounded_channel()).unzip();
        let lanes = Lanes { short, long };
        runtime.spawn(Lane::new(short_asked, &lanes, connections).run_short(Linger::for_these(&arrivals)));
        for asked in long_asked {
            runtime.spawn(Lane::new(asked, &lanes, connections).run_long());
        }
        GroupCommitter { lanes, arrivals }
    }

    /// Begins a commit of what the shard has queued; it ends the shard's round.
    pub fn ask(&self, owner: Arc<OwnedShard>) {
        self.lanes.ask(owner);
    }
}

impl Lane<Arc<OwnedShard>> {
    async fn run_short(mut self, mut linger: Linger) {
        while let Some(first) = self.asked.recv().await {
            linger.wait().await;
            let asked = self.all(first).await;
            linger.begin();
            let mut batches = Vec::new();
            for owner in asked {
                match owner.short_batch() {
                    Some(batch) => batches.push((owner, batch)),
                    None => self.lanes.ask_long(owner),
                }
            }
            let mut writes = packed(batches).await;
            let long = writes.extract_if(.., |write| write.packed.size > SHORT);
            long.for_each(|write| self.lanes.pass_on(write));
            self.commit_all(writes).await;
            linger.end();
        }
    }
}

impl Lane<Asked> {
    async fn run_long(mut self) {
        while let Some(first) = self.asked.recv().await {
            let (mut batches, mut writes) = (Vec::new(), Vec::new());
            for asked in self.all(first).await {
                match asked {
                    Asked::Sync(owner) => batches.push((owner.clone(), owner.batch())),
                    Asked::Write(write) => writes.push(*write),
                }
            }
            writes.extend(packed(batches).await);
            let (mut repeated, writes): (Vec<Write>, Vec<Write>) =
                writes.into_iter().partition(|write| write.is_repeat);
            repeated.sort_by_key(|write| write.packed.size); // so that a short write waits for no long one
            self.commit_all(writes).await;
            for write in repeated {
                self.commit_again(write).await;
            }
        }
    }
}

impl<T> Lane<T> {
    fn new(asked: UnboundedReceiver<T>, lanes: &Lanes, connections: &Arc<Connections>) -> Lane<T> {
        Lane { asked, lanes: lanes.clone(), connection: Connection::of(connections) }
    }

    /// All requests that have arrived by the time there is a connection.
    async fn all(&mut self, first: T) -> Vec<T> {
        self.connection.ready().await;
        let mut all = vec![first];
        while let Ok(next) = self.asked.try_recv() {
            all.push(next);
        }
        all
    }

    /// Commits writes that were not tried before, except those of fenced shards.
    async fn commit_all(&mut self, mut writes: Vec<Write>) {
        writes.retain(|write| !write.owner.is_fenced());
        self.drop_earlier(&mut writes);
        while !writes.is_empty() {
            let some = writes.drain(..count_of(&writes)).collect();
            self.commit(some).await;
        }
    }

    /// Of two owners of the same shard, the later one owns it. A transaction can have only one of them, since it
    /// reports by shard whether the writer was the owner.
    fn drop_earlier(&self, writes: &mut Vec<Write>) {
        writes.sort_by_key(|write| (write.owner.shard, Reverse(write.owner.term)));
        writes.dedup_by(|write, later| {
            let is_earlier = write.owner.shard == later.owner.shard;
            if is_earlier {
                self.fence_off(&write.owner);
            }
            is_earlier
        });
    }

    async fn commit(&mut self, writes: Vec<Write>) {
        let session = self.connection.ready().await;
        let done = self.connection.heard(&session, self.try_commit(&session, &writes)).await;
        let done = done.unwrap_or_else(|doubt| {
            let shards: Vec<String> = writes.iter().map(|write| write.owner.shard.to_string()).collect();
            self.connection.all.tell(&format!("shards {}", shards.join(", ")), &doubt);
            BTreeSet::new()
        });
        for write in writes {
            match done.contains(&write.owner.shard) {
                true => self.done(write, &session),
                false => self.lanes.pass_on(Write { is_repeat: true, ..write }),
            }
        }
    }

    /// Returns the shards whose writes are committed.
    async fn try_commit(&self, session: &Session, writes: &[Write]) -> Result<BTreeSet<i32>, UnknownOutcome> {
        let is_new = |write: &&Write| write.owner.fence().connection != session.number;
        let (unknown, known): (Vec<&Write>, Vec<&Write>) = writes.iter().partition(is_new);
        // Writes of other shards are not sent here; their repeat finds out why.
        let whole = session.whole(&unknown).await?;
        let whole = unknown.into_iter().filter(|write| whole.contains(&write.owner.shard));
        let writes: Vec<&Write> = known.into_iter().chain(whole).collect();
        session.put(&writes).await
    }

    /// Tries once. If the outcome is still unknown, the write is queued again.
    async fn commit_again(&mut self, mut write: Write) {
        if write.owner.is_fenced() {
            return;
        }
        let session = self.connection.ready().await;
        match self.connection.heard(&session, self.try_again(&session, &write)).await {
            Ok(Again::Done) => self.done(write, &session),
            Ok(Again::Fenced) => self.fence_off(&write.owner),
            Ok(Again::Vanished) => {
                self.vanished(&write.owner);
            }
            Err(doubt) => {
                self.connection.all.tell(&format!("shard {}", write.owner.shard), &doubt);
                let lanes = self.lanes.clone();
                tokio::spawn(async move {
                    write.backoff.wait().await;
                    lanes.pass_on(write);
                });
            }
        }
    }

    async fn try_again(&self, session: &Session, write: &Write) -> Result<Again, UnknownOutcome> {
        let owner = &write.owner;
        let Some(row) = session.raise_link(&owner.owned()).await? else {
            return Ok(Again::Fenced);
        };
        owner.has_connection_epoch(row.connection_epoch);
        if session.whole(&[write]).await?.is_empty() {
            return Ok(Again::Vanished);
        }
        match session.put(&[write]).await?.is_empty() {
            false => Ok(Again::Done),
            true => Err(UnknownOutcome::Locked),
        }
    }

    /// Another instance owns the shard.
    fn fence_off(&self, owner: &OwnedShard) {
        self.connection.all.counts.fenced.fetch_add(1, Relaxed);
        owner.fence_off();
    }

    fn vanished(&self, owner: &OwnedShard) {
        let Connections { counts, server, .. } = &*self.connection.all;
        counts.vanished.fetch_add(1, Relaxed);
        let shard = owner.shard;
        tracing::error!(
            shard,
            %server,
            "the store no longer has data that it reported as durable: it failed over to a standby that lagged, or was \
             restored from a backup"
        );
        owner.fence_off();
    }

    fn done(&self, write: Write, session: &Session) {
        self.connection.all.counts.commits.fetch_add(1, Relaxed);
        let owner = write.owner.clone();
        if owner.is_durable(write, session.number) {
            self.lanes.ask(owner);
        }
    }
}

/// Packs the batches, long ones in parallel.
async fn packed(batches: Vec<(Arc<OwnedShard>, Batch)>) -> Vec<Write> {
    let (mut writes, mut packing) = (Vec::new(), JoinSet::new());
    for (owner, batch) in batches {
        match batch.bytes() < LITTLE {
            true => writes.push(Write::of(owner, batch)),
            false => drop(packing.spawn(blocking(move || Write::of(owner, batch)))),
        }
    }
    while let Some(packed) = packing.join_next().await {
        match packed.map_err(JoinError::try_into_panic) {
            Ok(write) => writes.push(write),
            Err(Ok(panic)) => std::panic::resume_unwind(panic),
            Err(Err(_)) => std::future::pending().await, // the runtime is ending, and this lane with it
        }
    }
    writes
}

/// How many writes, from the first on, go into one transaction: at least one.
fn count_of(all: &[Write]) -> usize {
    let sizes = all.iter().scan(0, |size, write| {
        let before = *size;
        *size += write.packed.size;
        (before < MOST).then_some(())
    });
    sizes.count()
}
