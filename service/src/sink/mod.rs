//! Sinks: where `delivery` sends the requests of the outbox, one at a time and in order.
//!
//! What must hold: a sink takes a request whole or not at all, and once under one key, however often it is sent.
//!
//! A further kind of sink is one file that implements [`Sink`], a variant of [`Address`] and its line in [`open`].

mod address;
mod attributes;
mod backoff;
mod delivery;
mod keys;
mod left_out;
mod otlp;
mod owners;
pub mod periods;
pub mod postgres;
mod renamed;
mod retention;
mod rewind;
pub(crate) mod roots;
pub mod sql;
pub mod sqlite;
mod utc;

pub use address::{Address, BadAddress};
pub use delivery::{deliver, of_part, Attempts, Delivery};
pub use keys::{Held, Keys};
pub(crate) use otlp::Client;
pub use otlp::{header_of, Access};
pub use owners::{KnowsOwners, Owners};
use periods::{PeriodAction, PeriodOutcome};
pub use renamed::RenameSender;
pub use retention::Retention;
pub use rewind::Rewind;
pub use roots::ClientFiles;

use crate::outbox::Epochs;
use crate::storage::Tenure;
use std::future::Future;
use std::pin::Pin;
use std::sync::Arc;
use std::time::Duration;

/// The outcome of a delivery.
#[derive(Clone, Debug, PartialEq, Eq)]
pub enum DeliveryOutcome {
    Taken,
    /// The request was taken except for some points, which the sink will never take. It must not be sent again: the
    /// points that were taken would count twice.
    TakenPartly {
        rejected: u64,
        reason: String,
        /// A request of the points that were not taken, if the sink says which they are.
        left: Option<Vec<u8>>,
    },
    /// The request is sent again, after `after` at the earliest.
    Again {
        reason: String,
        after: Option<Duration>,
    },
    /// The sink could not be reached, so nothing was sent. The request is sent again soon.
    Away {
        reason: String,
    },
    /// The sink says that it has failed, but not whether that will pass. The request is sent again for a while, after
    /// `after` at the earliest, and then becomes a dead letter.
    Failed {
        reason: String,
        after: Option<Duration>,
    },
    /// The sink denies this service access. It is treated as a sink that has failed, and counted separately.
    Denied {
        reason: String,
        after: Option<Duration>,
    },
    /// The sink will never take it: it becomes a dead letter.
    Refused {
        reason: String,
    },
}

impl DeliveryOutcome {
    pub(crate) fn again(reason: impl Into<String>) -> DeliveryOutcome {
        DeliveryOutcome::Again { reason: reason.into(), after: None }
    }

    pub(crate) fn away(reason: impl Into<String>) -> DeliveryOutcome {
        DeliveryOutcome::Away { reason: reason.into() }
    }

    pub(crate) fn refused(reason: impl Into<String>) -> DeliveryOutcome {
        DeliveryOutcome::Refused { reason: reason.into() }
    }
}

/// Whether a request has no points, and changes what a database knows of series.
fn is_instruction(body: &[u8]) -> bool {
    Rewind::of(body).is_some() || RenameSender::of(body).is_some()
}

/// How many requests are one transaction of a database, at most.
const TOGETHER: usize = 1000;

/// A request of the outbox, with its key.
#[derive(Clone, Debug, PartialEq, Eq)]
pub struct Forwarded {
    /// The key is `SHARD-EPOCH-NUMBER`: a request keeps its key and its bytes for ever.
    pub shard: u16,
    pub epoch: String,
    pub number: u64,
    /// JSON, as the book wrote it.
    pub body: Vec<u8>,
}

impl Forwarded {
    pub fn key(&self) -> String {
        format!("{}-{}-{}", self.shard, self.epoch, self.number)
    }
}

/// What a sink has of a shard that the shard's outbox does not know.
#[derive(Clone, Debug, Default, PartialEq, Eq)]
pub struct AheadOfOutbox {
    pub requests: u64,
    /// When the sink took the first and the last of them, in its own form.
    pub since: String,
    pub until: String,
}

/// The future answer of a sink.
pub type Answer<'a, T> = Pin<Box<dyn Future<Output = T> + Send + 'a>>;

/// A sink takes a request whole or not at all, and once under one key.
pub trait Sink: Send + Sync {
    /// Delivers a request that may be a dead letter: a database takes it even after later ones.
    fn deliver<'a>(&'a self, request: &'a Forwarded) -> Answer<'a, DeliveryOutcome> {
        self.deliver_of(request, None)
    }

    /// Delivers a request in its order. `tenure` says under which term and epoch this instance has the shard. If the
    /// sink is in the database that has the shard's row, it takes the request and notes that in one transaction, and
    /// takes nothing from an earlier owner.
    fn deliver_of<'a>(
        &'a self,
        request: &'a Forwarded,
        tenure: Option<&'a Tenure>,
    ) -> Answer<'a, DeliveryOutcome>;

    /// Tells the sink which epoch each epoch of a shard's keys continues, before any of its requests comes. Returns what
    /// the sink has that one of these epochs does not know of: the store went back. A sink that keeps no keys has nothing
    /// to say.
    fn goes_on<'a>(
        &'a self,
        _shard: u16,
        _epochs: &'a Epochs,
    ) -> Answer<'a, Result<AheadOfOutbox, DeliveryOutcome>> {
        Box::pin(std::future::ready(Ok(AheadOfOutbox::default())))
    }

    /// How many requests one call of `deliver_together` may have.
    fn most_together(&self) -> usize {
        1
    }

    /// Takes all of these requests whole, in one go, or none of them. Returns whether it did. If not, each is delivered
    /// by itself, and that shows why.
    fn deliver_together<'a>(
        &'a self,
        _all: &'a [Forwarded],
        _tenure: Option<&'a Tenure>,
    ) -> Answer<'a, bool> {
        Box::pin(std::future::ready(false))
    }

    /// Closes or reopens a period, or makes an adjustment: wholly or not at all, between two requests.
    fn apply<'a>(&'a self, _who: &'a str, _deed: &'a PeriodAction) -> Answer<'a, PeriodOutcome> {
        let why = "keeps no periods: only a SQLite or PostgreSQL sink can close, reopen and adjust them";
        let told = PeriodOutcome::Refused(format!("the sink {} {why}", self.name()));
        Box::pin(std::future::ready(told))
    }

    /// What the sink is, for `status`: `sqlite PATH`, `otlp URL` or `postgres USER@HOST:PORT/DB`, without headers and
    /// passwords.
    fn name(&self) -> String;

    /// Whoever sends a request holds its key until its fate is dealt with.
    fn keys(&self) -> &Keys;

    /// Where the sink looks up the senders of series. None if the sink does not keep senders.
    fn owners(&self) -> Option<&Owners> {
        None
    }
}

/// Remembers which sink this is. It is asked whenever a sink with an id is opened.
pub trait Memory: Send + Sync {
    /// Whether requests may go into the sink of this id, or why not. A sink without an id is empty, or has a schema
    /// without ids. `is_replaced` says that this run had it open and found it replaced, which is in the log already.
    fn admit(&self, id: Option<&str>, is_replaced: bool) -> Result<(), String>;

    /// The identity of the database that has the store, as that database gives it.
    fn store_database(&self) -> Option<String> {
        None
    }
}

/// Remembers nothing.
impl Memory for () {
    fn admit(&self, _: Option<&str>, _: bool) -> Result<(), String> {
        Ok(())
    }
}

/// Opens a sink. A fault that may pass (a locked file, a server that is down) is no error here, since deliveries are
/// retried until the sink takes them. A fault that can't pass is an error.
pub fn open(
    address: &Address,
    retention: Retention,
    memory: Arc<dyn Memory>,
) -> anyhow::Result<Arc<dyn Sink>> {
    match address {
        Address::Sqlite(path) => Ok(Arc::new(sqlite::SqliteSink::open(path, retention, memory)?)),
        Address::Postgres(server) => Ok(Arc::new(postgres::PostgresSink::open(server, retention, memory)?)),
        Address::Otlp { url, protobuf, gzip, headers, access } => {
            Ok(Arc::new(otlp::OtlpSink::open(url, *protobuf, *gzip, headers, access.clone())?))
        }
    }
}
