//! Sends posts for other instances' shards to their owners, over pooled connections, and returns the owners' answers.
//! `internal` is the owner's side, `head` the headers of a request, `owner_answer` the coding of answers, `wire` the
//! connections, `reach` the check whether instances can be reached, and `operators` the questions of operators, which
//! take the same way.
//!
//! An instance answers `not mine` only if it took nothing, so then the post goes to another owner. After any other
//! failure the post may have been taken: the sender gets 503, and its retry finds out.

mod head;
mod internal;
mod operators;
mod owner_answer;
mod peer;
mod reach;
mod wire;

pub use head::Secret;
pub use internal::Internal;
pub use operators::{Answers, Asks};
pub use peer::{UnresponsivePeer, CONNECTIONS};

use super::local_view::{Cluster, Places};
use super::owners::ShardOwner;
use super::terms::Doing;
use crate::log::RateLimit;
use crate::otlp::{Original, Outcome, Reason};
use crate::shard::Forwarder;
use crate::tls::Tls;
use crate::work::locked;
use head::Head;
use hyper::{Body, Request};
use peer::{Peer, Peers};
use std::sync::{Arc, Mutex, OnceLock};
use std::time::Duration;
use tokio::sync::watch;
use tokio::time::{sleep_until, timeout_at, Instant};
use wire::Connections;

/// The path for other instances' posts.
pub const PATH: &str = "/internal/post";
/// The deadline for an answer, in addition to the time for sending the post.
const WITHIN: Duration = Duration::from_secs(10);
/// The slowest transfer that is waited for, in bytes a second: a part may arrive as slowly as the sender's request.
const SLOWEST: usize = 64 << 10;
/// How long to wait for an owner's answer after the shard has moved: an owner that hands over still answers.
const AFTER_MOVE: Duration = Duration::from_millis(500);
/// How long to look for an owner.
const LOOKED_FOR: Duration = Duration::from_secs(3);
/// How many owners may answer `not mine`.
const MOST_ASKED: u32 = 16;
/// The pauses between two tries while the owner stays the same. The first are short, since it may be opening the shard.
const SHORTEST: Duration = Duration::from_millis(50);
const LONGEST: Duration = Duration::from_millis(400);
const CONNECT: Duration = Duration::from_secs(1);
/// Less than the other end keeps an idle connection.
const IDLE: Duration = Duration::from_secs(20);

static TOLD: RateLimit = RateLimit::every(Duration::from_secs(10));

type Watched = watch::Receiver<Places>;

/// The shards of this instance.
pub trait Here: Send + Sync + 'static {
    /// Takes or refuses a part of a request under this term. None if the shard is not open here under it: then nothing
    /// was taken.
    fn post<'a>(
        &'a self,
        shard: u16,
        term: u64,
        sender: &'a str,
        part: Original,
    ) -> Doing<'a, Option<Outcome>>;
}

/// The outcomes of posts for other instances' shards.
#[derive(Clone, Copy, Debug, Default, PartialEq, Eq)]
pub struct Forwarded {
    pub answered: u64,
    /// Nothing was taken, since another instance is the owner.
    pub not_mine: u64,
    /// There was no answer.
    pub broken: u64,
}

impl Forwarded {
    fn note(&mut self, said: &Result<Option<Outcome>, Broken>) {
        match said {
            Ok(Some(_)) => self.answered += 1,
            Ok(None) => self.not_mine += 1,
            Err(_) => self.broken += 1,
        }
    }
}

/// Sends posts to the owners of their shards.
pub struct Forward<H> {
    cluster: Arc<Cluster>,
    /// None until posts are served.
    here: OnceLock<Arc<H>>,
    secret: Secret,
    connections: Connections,
    peers: Peers,
    counts: Mutex<Forwarded>,
}

impl<H: Here> Forward<H> {
    /// With `tls`, both sides of a connection show a certificate; without, connections are plain.
    pub fn new(cluster: Arc<Cluster>, secret: Secret, tls: Option<Arc<Tls>>) -> Forward<H> {
        Forward {
            cluster,
            here: OnceLock::new(),
            secret,
            connections: Connections::new(tls),
            peers: Peers::default(),
            counts: Mutex::default(),
        }
    }

    /// Sets what takes posts for shards that have moved here in the meantime.
    pub fn serve(&self, here: Arc<H>) {
        let _ = self.here.set(here);
    }

    /// Has the owner of the shard take a part of a request: returns its answer, or 503. While the store does not
    /// answer, no instance is asked or looked for.
    pub async fn post(&self, shard: u16, sender: &str, part: Original) -> Outcome {
        if let Some(why) = self.cluster.unavailable() {
            return why.into();
        }
        let (began, mut asked, mut pause) = (Instant::now(), 0, SHORTEST);
        let mut places = self.cluster.places();
        loop {
            places.borrow_and_update();
            let whose = self.cluster.whose(shard);
            let said = match &whose {
                ShardOwner::Nobody => None,
                ShardOwner::Here { term } => match self.here.get() {
                    Some(here) => here.post(shard, *term, sender, part.clone()).await,
                    None => None,
                },
                ShardOwner::There { address, term, .. } => {
                    asked += 1;
                    let peer = self.peers.at(address);
                    let head = Head { shard, term: *term, sender: sender.into(), encoding: part.encoding };
                    let late = began + WITHIN + on_the_way(part.body.len());
                    let said = self.ask(&peer, &head, &part, &whose, late).await;
                    self.heard(&peer, began, said)
                }
            };
            if let Some(outcome) = said {
                return outcome;
            }
            if began.elapsed() >= LOOKED_FOR || asked >= MOST_ASKED {
                return Reason::OwnerChanges.into();
            }
            self.cluster.look();
            let until = Instant::now() + pause;
            pause = match self.has_moved(shard, &whose, &mut places, until).await {
                true => SHORTEST,
                false => (2 * pause).min(LONGEST),
            };
        }
    }

    /// Waits until the shard has another owner, as far as is known, but not after `until`.
    async fn has_moved(&self, shard: u16, from: &ShardOwner, places: &mut Watched, until: Instant) -> bool {
        let moves = async { while self.cluster.whose(shard) == *from && places.changed().await.is_ok() {} };
        timeout_at(until, moves).await.is_ok()
    }

    /// Returns when it is too late for the owner's answer: at `until`, or soon after the shard has moved.
    async fn no_answer(&self, shard: u16, owner: &ShardOwner, until: Instant) {
        if self.has_moved(shard, owner, &mut self.cluster.places(), until).await {
            sleep_until(until.min(Instant::now() + AFTER_MOVE)).await;
        }
    }

    /// Asks an owner, as long as it makes sense to wait.
    async fn ask(
        &self,
        peer: &Peer,
        head: &Head,
        part: &Original,
        owner: &ShardOwner,
        late: Instant,
    ) -> Result<Option<Outcome>, Broken> {
        tokio::select! {
            biased;
            () = peer.is_unreached() => Err(Broken::Unreached),
            said = self.exchange(peer, head, part) => said,
            () = self.no_answer(head.shard, owner, late) => Err(Broken::Late),
        }
    }

    /// Notes the outcome of a post that arrived at `came`. None if the instance answered `not mine`.
    fn heard(&self, peer: &Peer, came: Instant, said: Result<Option<Outcome>, Broken>) -> Option<Outcome> {
        locked(&self.counts).note(&said);
        let reason = match said {
            Ok(said) => {
                peer.answers();
                return said;
            }
            Err(why) => why.to_string(),
        };
        if peer.is_silent(came, &reason) && TOLD.is_due() {
            let address = peer.address.as_str();
            tracing::warn!(address, reason, "an instance has not answered for 10 s");
        }
        Some(Reason::OwnerSilent.into())
    }

    /// None if the answer is `not mine`.
    async fn exchange(&self, peer: &Peer, head: &Head, part: &Original) -> Result<Option<Outcome>, Broken> {
        let _room = peer.room(part.body.len(), self.cluster.others()).await;
        let uri = format!("{}://{}{PATH}", self.connections.scheme(), peer.address);
        let request = head.put(Request::post(uri), &self.secret);
        let request = request.body(Body::from(part.body.clone())).map_err(Broken::Address)?;
        let response = self.connections.asks().request(request).await;
        owner_answer::read(response.map_err(Broken::Wire)?).await
    }
}

impl<H: Here> Forwarder for Forward<H> {
    fn unavailable(&self) -> Option<Reason> {
        self.cluster.unavailable()
    }

    fn post<'a>(&'a self, shard: u16, sender: &'a str, part: Original) -> Doing<'a, Outcome> {
        Box::pin(Forward::post(self, shard, sender, part))
    }
}

/// Why there is no answer.
#[derive(Debug, thiserror::Error)]
enum Broken {
    #[error("no answer in time")]
    Late,
    #[error("no connection")]
    Unreached,
    #[error("its address is not usable in a URL: {0}")]
    Address(hyper::http::Error),
    #[error("{0}")]
    Wire(hyper::Error),
    #[error("it refuses this instance's secret: give both the same store")]
    Secret,
    #[error("the answer (status {0}) is not from an instance of this version")]
    Strange(u16),
    #[error("its answer is longer than {0} bytes: ask it directly, by --admin")]
    Long(usize),
}

/// How long sending this many bytes may take.
fn on_the_way(bytes: usize) -> Duration {
    Duration::from_secs_f64(bytes as f64 / SLOWEST as f64)
}

#[cfg(test)]
mod tests;
