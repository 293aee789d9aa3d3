//! The ingest task of posts: OTLP/HTTP with protobuf or JSON bodies, compressed or not, over keep-alive connections.
//!
//! `service` starts it, and `grpc` hands its bodies to it (`Ingest::put`). `front` serves the connections on the
//! threads of `threads`, at most as many as there are `permits`; `wire` reads them, `head` and `body` decode a request,
//! and `answer` writes the response. The ingest task either refuses a request itself, before any book sees it, or reads it
//! whole, has `otlp` bring it into the book's form, and gives it to its shard, or in parts to several shards (`post`).
//!
//! Senders must not be able to operate the service: every path but `/v1/metrics` is answered 404.

mod answer;
mod arrival;
mod body;
pub mod connections;
pub mod front;
pub(crate) mod head;
mod listen;
mod pace;
pub(crate) mod permits;
mod post;
pub(crate) mod refusal;
pub(crate) mod sender;
mod threads;
pub mod user;
mod weight;
mod wire;
mod zstd;

pub(crate) use arrival::Arrival;
use body::MAX_MEMBERS;
pub(crate) use body::{LEFT_BYTES, LEFT_TIME, MOST};
pub use connections::Limits;
pub use listen::{listen, listen_at_socket, Listener};
pub use threads::Threads;
pub use weight::Budget;
pub(crate) use weight::MemoryHold;
#[cfg(test)]
pub use zstd::tests::packed as zstd_packed;

use crate::book;
use crate::metrics::Metrics;
use crate::otlp::{combined, OfPart, Original, Outcome, Reading, Reason};
use crate::shard::{ByNumber, Request, Shard, Shards};
use crate::work::Readers;
use bytes::Bytes;
use head::{Head, Packing};
use post::{Asked, AskedPart, Post};
use refusal::{Refusal, RejectedRequest};
use std::future::Future;
use std::sync::{Arc, OnceLock};
use std::time::Duration;
use tokio::io::{AsyncRead, AsyncWrite};
use tokio::task::JoinSet;
use wire::Wire;

/// How long the body may take to arrive, counted from the end of the head.
const PATIENCE: Duration = Duration::from_secs(60);

/// The compression ratio that a packed body is assumed to have at least.
const UNPACKED: usize = 8;

/// How many long bodies are parsed at the same time.
const READERS: usize = 2;

/// Takes the posts of a shard. If the caller goes away, the post is still taken whole or not at all.
pub trait PostHandler: Send + Sync + 'static {
    /// The shard itself, which decides how its posts are parsed.
    fn shard(&self) -> Option<&Shard> {
        None
    }

    /// The points of a request, cumulative ones included, by series number; none if the request has to be taken as
    /// text.
    fn numbered_text(&self, text: &Bytes) -> Result<Option<ByNumber>, book::Refused> {
        self.shard().map_or(Ok(None), |shard| shard.numbered_text(text))
    }

    /// Whether `post` also needs the request as the sender sent it.
    fn wants_originals(&self) -> bool {
        false
    }

    /// Takes a request. `original` is the request as the sender sent it, if `wants_originals`.
    fn post(
        self: &Arc<Self>,
        sender: &str,
        request: Request,
        original: Option<Original>,
    ) -> impl Future<Output = Outcome> + Send;
}

/// Observes the outcome of every request, including those refused before a shard was asked.
pub trait ResponseObserver: Send + Sync + 'static {
    fn answered(&self, _sender: &str, _outcome: &Outcome) {}

    /// Called for each part that was refused although its request is answered as taken.
    fn part_refused(&self, _sender: &str, _outcome: &Outcome) {}
}

/// The observer that ignores everything.
impl ResponseObserver for () {}

impl PostHandler for Shard {
    fn shard(&self) -> Option<&Shard> {
        Some(self)
    }

    async fn post(self: &Arc<Self>, sender: &str, request: Request, _: Option<Original>) -> Outcome {
        self.request(sender.into(), request).await
    }
}

/// Reads requests and gives the posts to their shards.
pub struct Ingest<T> {
    shards: Arc<Shards<T>>,
    hears: Arc<dyn ResponseObserver>,
    reading: Arc<Reading>,
    /// The memory budget of all posts in flight.
    pub(crate) budget: Arc<Budget>,
    pub(crate) metrics: Arc<Metrics>,
    readers: Readers,
    patience: Duration,
    /// Says whether posts are taken; set once, by `set_available`.
    available: OnceLock<Box<Available>>,
}

type Available = dyn Fn() -> bool + Send + Sync;

impl<T: PostHandler> Ingest<T> {
    pub fn of(
        shards: Arc<Shards<T>>,
        hears: Arc<dyn ResponseObserver>,
        reading: Arc<Reading>,
        budget: Arc<Budget>,
        metrics: Arc<Metrics>,
    ) -> Ingest<T> {
        let (readers, available) = (Readers::new(READERS), OnceLock::new());
        Ingest { shards, hears, reading, budget, metrics, readers, patience: PATIENCE, available }
    }

    /// Sets, once, the function that says whether posts are taken.
    pub fn set_available(&self, available: impl Fn() -> bool + Send + Sync + 'static) {
        let _ = self.available.set(Box::new(available));
    }

    /// Whether posts are taken, for clients that ask before they post.
    pub fn is_available(&self) -> bool {
        self.available.get().is_some_and(|available| available())
    }

    /// Replaces the time that a body may take.
    pub fn with_patience(mut self, patience: Duration) -> Ingest<T> {
        self.patience = patience;
        self
    }

    /// Reads the body of a request and returns the request's outcome.
    async fn outcome<S: AsyncRead + AsyncWrite + Unpin>(
        &self,
        head: Result<Head, RejectedRequest>,
        wire: &mut Wire<S>,
    ) -> Outcome {
        let (sender, read) = match head {
            Ok(head) => (head.sender.name.clone(), self.read(head, wire).await),
            Err(RejectedRequest { sender, refusal }) => (sender, Err(refusal)),
        };
        match read {
            Ok(post) => self.take(post).await,
            Err(refusal) => {
                if refusal.leaves_a_body() && !wire.is_not_called_for() {
                    body::throw_away(wire).await;
                }
                self.refused(&sender, &refusal)
            }
        }
    }

    /// Reports a request that was refused before any shard was asked.
    pub(crate) fn refused(&self, sender: &str, refusal: &Refusal) -> Outcome {
        let outcome = Outcome::from(refusal);
        self.hears.answered(sender, &outcome);
        outcome
    }

    async fn read<S: AsyncRead + AsyncWrite + Unpin>(
        &self,
        head: Head,
        wire: &mut Wire<S>,
    ) -> Result<Post<T>, Refusal> {
        let mut hold = self.budget.hold();
        let packed = match wire.whole_body() {
            Some(body) => body, // most bodies: they need no timer
            None => tokio::time::timeout(self.patience, body::receive(wire, &mut hold))
                .await
                .map_err(|_| Refusal::Late)??,
        };
        self.prepared(head, packed, hold).await
    }

    async fn prepared(
        &self,
        mut head: Head,
        mut body: Bytes,
        mut hold: MemoryHold,
    ) -> Result<Post<T>, Refusal> {
        if let Some(why) = self.shards.unavailable() {
            return Err(Refusal::Unavailable(why));
        }
        if is_short(&mut head, &mut body, &mut hold)? {
            return post::prepare(head, body, hold, &self.shards, &self.reading, &self.metrics);
        }
        hold.set(2 * body.len())?; // a long body may queue for a reader
        let (shards, reading, metrics) = (self.shards.clone(), self.reading.clone(), self.metrics.clone());
        let read = move || post::prepare(head, body, hold, &shards, &reading, &metrics);
        self.readers.read_long(read).await
    }

    /// Takes a post whose body did not arrive over HTTP/1.1: gRPC's.
    pub(crate) async fn put(&self, head: Head, packed: Bytes, hold: MemoryHold) -> Outcome {
        let sender = head.sender.name.clone();
        match self.prepared(head, packed, hold).await {
            Ok(post) => self.take(post).await,
            Err(refusal) => self.refused(&sender, &refusal),
        }
    }

    /// Takes a post that was read. Its memory stays reserved until the answer, since a connection notices only then
    /// that its sender is gone.
    async fn take(&self, post: Post<T>) -> Outcome {
        let Post { sender, asked, hold } = post;
        let outcome = match asked {
            Asked::Whole(ask) => ask.answered(&sender, &self.shards, &self.metrics).await,
            Asked::Parts(parts) => self.take_parts(&sender, parts).await,
        };
        drop(hold);
        self.hears.answered(&sender, &outcome);
        outcome
    }

    /// Asks all shards at once, since each waits for a disk or for another instance.
    async fn take_parts(&self, sender: &str, parts: Vec<AskedPart<T>>) -> Outcome {
        let (mut asking, mut of_parts) = (JoinSet::new(), Vec::new());
        for (place, AskedPart { part, resources, ask }) in parts.into_iter().enumerate() {
            let outcome = match ask {
                Err(refusal) => Outcome::from(&refusal),
                Ok(ask) => {
                    let (shards, metrics) = (self.shards.clone(), self.metrics.clone());
                    let sender = sender.to_string();
                    asking.spawn(async move { (place, ask.answered(&sender, &shards, &metrics).await) });
                    unknown()
                }
            };
            of_parts.push(OfPart { outcome, part, resources });
        }
        while let Some(answered) = asking.join_next().await {
            // A part whose task panicked keeps the outcome `unknown`.
            if let Ok((place, outcome)) = answered {
                of_parts[place].outcome = outcome;
            }
        }
        self.combined(sender, of_parts).await
    }

    async fn combined(&self, sender: &str, parts: Vec<OfPart>) -> Outcome {
        let (length, reading) = (parts.iter().map(|part| part.part.body.len()).sum(), self.reading.clone());
        let combine = move || {
            let outcome = combined(&parts, &reading);
            (parts, outcome)
        };
        let (parts, outcome) = self.readers.read(length, combine).await;
        if let Outcome::Taken { parts: rejected, .. } = &outcome {
            let rejected = rejected.iter().map(|(points, rejection)| (rejection.reason, *points));
            self.metrics.rejected(sender, &rejected.collect(), &[]);
            let refused = parts.iter().filter(|part| part.outcome.refusal().is_some());
            refused.for_each(|part| self.hears.part_refused(sender, &part.outcome));
        }
        outcome
    }

    /// Takes the part of a request that another instance received; none if this instance does not own the shard. The
    /// other instance counts the post.
    pub async fn forwarded(&self, shard: u16, sender: &str, part: Original) -> Option<Outcome> {
        let taker = self.shards.here(shard)?;
        let (length, mut hold, reading) = (part.body.len(), self.budget.hold(), self.reading.clone());
        let read = move || post::forwarded(part, taker, &mut hold, &reading).map(|ask| (ask, hold));
        Some(match self.readers.read(length, read).await {
            Err(refusal) => Outcome::from(&refusal),
            Ok((ask, _hold)) => ask.answered(sender, &self.shards, &self.metrics).await,
        })
    }
}

/// The outcome of a part that was never answered: it may have been taken.
fn unknown() -> Outcome {
    Reason::Fault.into()
}

/// Whether a body is short enough to be parsed on the serving thread. A packed body that may be short is unpacked up to
/// the limit to find out, since a few kilobytes can unpack to megabytes.
fn is_short(head: &mut Head, body: &mut Bytes, hold: &mut MemoryHold) -> Result<bool, Refusal> {
    if head.packing != Packing::Plain && body.len() <= Readers::SHORT / UNPACKED {
        match body::unpack(body.clone(), head.packing, Readers::SHORT, hold) {
            Err(Refusal::TooLong) => return Ok(false),
            unpacked => (*body, head.packing) = (unpacked?, Packing::Plain),
        }
    }
    Ok(head.packing == Packing::Plain && body.len() <= Readers::SHORT)
}

#[cfg(test)]
mod tests {
    use super::body::tests::{gzip, zstd};
    use super::*;

    const SHORT: usize = Readers::SHORT;
    use crate::otlp::Encoding;

    /// The packing and length of a body after `is_short`, and whether it is parsed on the serving thread.
    fn seen(packing: Packing, body: Bytes) -> (Packing, usize, bool) {
        let (sender, encoding) = ("-".into(), Encoding::Json);
        let mut head = Head { sender, encoding, packing };
        let mut body = body;
        let is_short = is_short(&mut head, &mut body, &mut Budget::new(16 << 20).hold()).unwrap();
        (head.packing, body.len(), is_short)
    }

    /// Otherwise a post of a few kilobytes could block all other connections of its thread.
    #[test]
    fn what_is_long_unpacked_is_not_read_in_place() {
        let plain = Packing::Plain;
        let blanks = |length: usize| Bytes::from(vec![b' '; length]);
        assert_eq!(seen(plain, blanks(SHORT)), (plain, SHORT, true));
        assert_eq!(seen(plain, blanks(SHORT + 1)), (plain, SHORT + 1, false));
        let packed = |length: usize| {
            let plain = blanks(length);
            [(Packing::Gzip, gzip(&plain)), (Packing::Zstd, zstd(&plain))]
        };
        for ((packing, short), (_, bomb)) in packed(SHORT).into_iter().zip(packed(MOST)) {
            assert_eq!(seen(packing, short), (plain, SHORT, true));
            assert!(bomb.len() < SHORT / UNPACKED);
            assert_eq!(seen(packing, bomb.clone()), (packing, bomb.len(), false));
            let long = blanks(SHORT / UNPACKED + 1);
            assert_eq!(seen(packing, long.clone()), (packing, long.len(), false));
        }
    }
}
