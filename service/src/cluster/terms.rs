//! The interfaces of `cluster`: to the rows in the store (`Terms`), and to the shards of this process (`ShardHost`).

use serde::{Deserialize, Serialize};
use std::collections::{BTreeMap, BTreeSet};
use std::future::Future;
use std::pin::Pin;

pub type Doing<'a, T> = Pin<Box<dyn Future<Output = T> + Send + 'a>>;

/// Shards that an instance can't open, with the reasons.
pub type Refused = BTreeMap<u16, String>;

/// An instance's row in the store.
#[derive(Clone, Debug, PartialEq, Eq)]
pub struct Instance {
    pub name: String,
    /// Where other instances send posts; empty while it leaves.
    pub address: String,
    /// Where operators on other machines connect, HOST:PORT; empty if they can't.
    pub operate: String,
    /// The version of its program.
    pub version: String,
    pub beat: u64,
    /// How many processes have started under this name.
    pub life: u64,
    /// How often each of the last of these has beaten, by its number.
    pub lives: BTreeMap<u64, u64>,
    pub told: InstanceReport,
}

/// What an instance tells the others with each heartbeat.
#[derive(Clone, Debug, Default, PartialEq, Eq, Serialize, Deserialize)]
#[serde(default)]
pub struct InstanceReport {
    /// The shards that it can't open, with the reasons.
    pub refused: Refused,
    /// How many microseconds its clock is ahead of the store's; below 0 if it is behind; none before the first look.
    pub clock: Option<i64>,
    /// The instances whose address for posts it can reach; none before it has tried, or while it can't answer itself in
    /// time.
    pub reached: Option<BTreeSet<String>>,
}

/// A shard's row, which is never deleted.
#[derive(Clone, Debug, PartialEq, Eq)]
pub struct Row {
    pub shard: u16,
    /// Raised by each takeover.
    pub term: u64,
    /// Empty if no instance owns the shard.
    pub owner: String,
}

/// What was read after a committed heartbeat.
#[derive(Clone, Debug, Default, PartialEq, Eq)]
pub struct Seen {
    pub instances: Vec<Instance>,
    pub shards: Vec<Row>,
    /// How many microseconds this instance's clock is at least ahead of the store's; below 0 if it is behind.
    pub clock: Option<i64>,
    /// The number of this process among those of its name.
    pub life: u64,
}

/// Whether an instance may own shards.
#[derive(Clone, Copy, Debug, PartialEq, Eq)]
pub enum Eligibility {
    Here,
    /// It still sends heartbeats, with an empty address, until all shards are handed over or its clock is right again.
    Leaves,
}

/// The call to the store may have been carried out or not.
#[derive(Debug, thiserror::Error)]
pub enum Unavailable {
    /// There was no answer, or its meaning is unknown.
    #[error("the store does not answer: {0}")]
    Unanswered(String),
    /// The store answers, but its commits are on too few servers.
    #[error("the store has too few copies, so posts get 503: {0}")]
    FewCopies(String),
}

/// The rows of instances and shards. Each call waits as long as the store needs, or reports an unknown outcome.
pub trait Terms: Send + Sync {
    /// Adds one to this instance's heartbeat and writes `told`; after the commit it reads all instances and shards.
    fn heartbeat(
        &self,
        stay: Eligibility,
        told: InstanceReport,
    ) -> impl Future<Output = Result<Seen, Unavailable>> + Send;
    /// Reads only the shards; used after an answer `not mine`.
    fn shards(&self) -> impl Future<Output = Result<Vec<Row>, Unavailable>> + Send;
    /// Takes the shard under the term after the one that was seen, with this instance as owner. Returns the new term,
    /// or none if another instance was first.
    fn take(&self, shard: u16, seen: u64) -> impl Future<Output = Result<Option<u64>, Unavailable>> + Send;
    /// Removes the owner of the shard if it still has this term. The term stays, so the next owner's is higher.
    fn release(&self, shard: u16, term: u64) -> impl Future<Output = Result<(), Unavailable>> + Send;
    /// Deletes this instance's row, when it has no shards left.
    fn leave(&self) -> impl Future<Output = Result<(), Unavailable>> + Send;
    /// Deletes another instance's row if its heartbeat is still this one; returns whether it did.
    fn remove_row(&self, name: &str, beat: u64) -> impl Future<Output = Result<bool, Unavailable>> + Send;
}

/// Why a shard that this instance has taken is not served.
#[derive(Debug, thiserror::Error)]
pub enum OpenFailure {
    /// Another instance has taken it since.
    #[error("another instance owns this shard")]
    Fenced,
    #[error("{0}")]
    Fault(String),
}

/// The shards of this process: for each its journal, outbox, book, worker and delivery.
pub trait ShardHost: Send + Sync {
    /// Reads the files of a shard after its takeover, recovers its book, and serves it.
    fn open(&self, shard: u16, term: u64) -> Doing<'_, Result<(), OpenFailure>>;
    /// Stops taking posts for the shard, makes a last checkpoint and closes it. After that nothing of it is written any
    /// more, even if a part of this failed.
    fn hand_over(&self, shard: u16, term: u64) -> Doing<'_, ()>;
    /// Closes a fenced shard: nothing more of it is answered, delivered or written.
    fn drop_lost(&self, shard: u16, term: u64) -> Doing<'_, ()>;
    /// The open shards whose books are still recovering; their posts get 503.
    fn filling(&self) -> BTreeSet<u16>;
}
