//! The worker of a shard: the one task that starts it, makes checkpoints, and carries out orders. `service` runs one
//! for each shard.
//!
//! One task does all of this, one after the other: `run` waits for what is to be done, `checkpoint` moves what the book
//! has to the outbox, `forget` leaves out series or puts their ends back, `recover` gives a fresh book what the files say, `series`
//! says which ones a post has, `numbers` gives them numbers for the book, `rename` gives a sender another name, `rest` gives back memory where nobody posts, `unfilled` waits where a start has too little memory. What takes long is done on threads beside the runtime's.

mod checkpoint;
mod forget;
mod idle;
mod numbers;
mod orders;
mod recovery;
mod rename;
mod run;
mod series;
mod unrecovered;

pub use recovery::Seeding;

use crate::book::Refused;
use crate::otlp::series::SeriesKey;
use crate::otlp::Outcome;
use crate::outbox::SenderRename;
use crate::shard::Shard;
use crate::storage::{Fault, Fenced};
use std::sync::Arc;
use std::time::{Duration, Instant};
use tokio::sync::{mpsc, oneshot};

/// How many orders may wait for their turn; further callers wait to queue theirs.
const WAITING_ORDERS: usize = 16;

/// The settings of a worker.
#[derive(Clone, Debug)]
pub struct Settings {
    /// The time between two checkpoints.
    pub every: Duration,
    /// A series that nobody has posted to for so long is forgotten if there are too many.
    pub forget: Option<Duration>,
}

/// The orders of operators.
#[derive(Clone, Debug, PartialEq, Eq)]
pub enum Order {
    Checkpoint,
    Quarantine(String),
    Lift(String),
    RenameSender(SenderRename),
    Amend(Amend),
}

/// A change of what is known of series.
#[derive(Clone, Debug, PartialEq, Eq)]
pub enum Amend {
    /// Forgets who owns them and where they end.
    Forget(Vec<SeriesKey>),
    /// Rewinds their ends to this time, in nanoseconds since 1970, if they ended later.
    PutBack { series: Vec<SeriesKey>, to: u64 },
}

/// The result of an order.
#[derive(Clone, Debug, PartialEq, Eq)]
pub enum Done {
    /// How many requests went into the outbox.
    Flushed { requests: u64 },
    /// The answer of the book.
    Answered(Outcome),
    /// So many series have another sender.
    Renamed { series: u64 },
    /// Nothing is renamed, since this sender is quarantined.
    NotRenamed { quarantined: String },
    /// Nothing is changed where one of the series has posts of a quarantined sender, which are kept back.
    Amended(Result<(), SeriesKey>),
}

/// Why a worker ended.
#[derive(Debug, thiserror::Error)]
pub enum WorkerError {
    /// A call on files failed: only a new start finds out what is on the disk.
    #[error("{0}")]
    File(Fault),
    /// The shard is fenced, or may be: another instance has it. Only the shard ends.
    #[error(transparent)]
    Fenced(#[from] Fenced),
    /// A flush could not be serialised after all tries. The journal has everything.
    #[error("no memory is left to flush the book. Nothing is lost, since the journal has all accepted posts: raise \
        --max-memory")]
    NoMemory,
    /// Never answered by a book.
    #[error("the book refuses to end a flush ({0}): this is a bug of totxegun")]
    Broken(Refused),
    /// A fresh book does not take what the files have.
    #[error("{0}")]
    NotFilled(String),
    /// The same for want of memory.
    #[error("{0}")]
    NoMemoryToFill(String),
}

impl From<Fault> for WorkerError {
    fn from(fault: Fault) -> WorkerError {
        match fault {
            Fault::Fenced(lost) => WorkerError::Fenced(lost),
            fault => WorkerError::File(fault),
        }
    }
}

/// Sends orders to a worker.
#[derive(Clone)]
pub struct Orders(mpsc::Sender<(Order, oneshot::Sender<Done>)>);

impl Orders {
    /// None if the service is ending.
    pub async fn send(&self, order: Order) -> Option<Done> {
        let (to, done) = oneshot::channel();
        self.0.send((order, to)).await.ok()?;
        done.await.ok()
    }
}

/// Runs until it is told to stop; everything that was taken is then in the outbox.
pub struct ShardWorker {
    shard: Arc<Shard>,
    settings: Settings,
    orders: mpsc::Receiver<(Order, oneshot::Sender<Done>)>,
    /// The seeding of its book, if it was begun before.
    seeding: Option<Seeding>,
    /// Requests that were serialised while the book was filled; they belong to the next group.
    carried: Vec<Vec<u8>>,
    /// A sender was released, so there is something to flush.
    released: bool,
    next_checkpoint: Instant,
    /// How many checkpoints in a row lacked memory.
    put_off: u32,
    next_look_at_ages: Instant,
    rest: idle::Rest,
}

impl ShardWorker {
    pub fn new(shard: Arc<Shard>, settings: Settings) -> (ShardWorker, Orders) {
        let (to, orders) = mpsc::channel(WAITING_ORDERS);
        let worker = ShardWorker {
            shard,
            orders,
            seeding: None,
            carried: Vec::new(),
            released: false,
            next_checkpoint: Instant::now() + settings.every,
            put_off: 0,
            next_look_at_ages: Instant::now(),
            rest: idle::Rest::new(),
            settings,
        };
        (worker, Orders(to))
    }

    /// Takes over the seeding of its book.
    pub fn behind(self, seeding: Option<Seeding>) -> ShardWorker {
        ShardWorker { seeding, ..self }
    }
}

/// The requests that belong to the next group, and the result.
type Carried<T> = (Vec<Vec<u8>>, Result<T, Refused>);

/// A refusal that may be gone if the order is given again later.
fn not_now(refused: Refused) -> Done {
    Done::Answered(refused.into())
}

#[cfg(test)]
pub(crate) mod tests;
