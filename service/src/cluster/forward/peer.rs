//! The other instances as targets of posts: limits on what is in flight, and how long one has been silent.

use crate::work::locked;
use std::collections::HashMap;
use std::sync::atomic::{AtomicU32, Ordering::Relaxed};
use std::sync::{Arc, Mutex};
use std::time::Duration;
use tokio::sync::{watch, Semaphore, SemaphorePermit};
use tokio::time::Instant;

/// How many posts of all instances together may be in flight to one owner, each on its own connection. Each instance
/// has its share of these.
pub const CONNECTIONS: usize = 256;
/// The most posts of one instance in flight to one owner; further ones wait.
pub const POSTS: usize = 64;
/// A part over this length is long, and waits only for other long ones.
pub const SHORT: usize = 64 << 10;
/// The KiB of long parts in flight to one owner, if one or two instances send it posts.
const KIB: usize = 32 << 10;
/// The least that a long part counts, so that one instance's parts take at most half of an owner's room.
const LEAST_KIB: usize = KIB * 2 / super::internal::PARTS;
/// After this long without an answer, the silence is logged.
const SILENT_FOR: Duration = Duration::from_secs(10);
/// After how many failed checks in a row posts no longer wait for an instance: one answer may be late.
const UNREACHED: u32 = 2;
/// After how many the others are told, so that the instance's shards move.
const TOLD_UNREACHED: u32 = 10;
/// How long a silence is shown after the last post without an answer.
const SHOWN: Duration = Duration::from_secs(60);

/// By address; the store has only a few.
#[derive(Default)]
pub(super) struct Peers(Mutex<HashMap<String, Arc<Peer>>>);

pub(super) struct Peer {
    pub address: String,
    connections: Semaphore,
    kib: Semaphore,
    /// None if the last post was answered.
    silent: Mutex<Option<UnansweredPosts>>,
    /// How many checks in a row have failed.
    failed: AtomicU32,
    /// False after several failed checks.
    reached: watch::Sender<bool>,
}

/// Posts in a row that got no answer.
struct UnansweredPosts {
    /// When the first of them arrived.
    since: Instant,
    last: Instant,
    why: String,
}

impl UnansweredPosts {
    fn is_over(&self) -> bool {
        self.last.elapsed() > SHOWN
    }

    fn is_long(&self) -> bool {
        self.last - self.since >= SILENT_FOR
    }
}

/// An instance that answers no posts.
#[derive(Clone, Debug, PartialEq, Eq)]
pub struct UnresponsivePeer {
    pub address: String,
    pub time: Duration,
    pub why: String,
}

impl Peers {
    pub fn at(&self, address: &str) -> Arc<Peer> {
        let mut peers = locked(&self.0);
        let new = || {
            Arc::new(Peer {
                address: address.into(),
                connections: Semaphore::new(CONNECTIONS),
                kib: Semaphore::new(KIB),
                silent: Mutex::default(),
                failed: AtomicU32::new(0),
                reached: watch::channel(true).0,
            })
        };
        peers.entry(address.into()).or_insert_with(new).clone()
    }

    /// The instances that have answered no post for long, and still get some.
    pub fn unanswering(&self) -> Vec<UnresponsivePeer> {
        let unanswering = |peer: &Arc<Peer>| {
            let silent = locked(&peer.silent);
            let silent = silent.as_ref().filter(|silent| silent.is_long() && !silent.is_over())?;
            let (address, time) = (peer.address.clone(), silent.since.elapsed());
            Some(UnresponsivePeer { address, time, why: silent.why.clone() })
        };
        locked(&self.0).values().filter_map(unanswering).collect()
    }
}

impl Peer {
    /// Waits for room for a post; dropping the result frees it. `from` instances send posts there. While a long part
    /// waits for its KiB, it holds no connection.
    pub async fn room(&self, bytes: usize, from: usize) -> [Option<SemaphorePermit<'_>>; 2] {
        let long = match bytes > SHORT {
            true => {
                let kib = (bytes / 1024).max(LEAST_KIB) * from.div_ceil(2);
                self.kib.acquire_many(kib.min(KIB) as u32).await.ok() // never closed
            }
            false => None,
        };
        let connections = from.clamp(CONNECTIONS / POSTS, CONNECTIONS) as u32;
        [long, self.connections.acquire_many(connections).await.ok()]
    }

    /// Takes the result of a check. Returns whether the others are told that the instance can be reached.
    pub fn has_reached(&self, is_reached: bool) -> bool {
        let failed = if is_reached { 0 } else { self.failed.load(Relaxed).saturating_add(1) };
        self.failed.store(failed, Relaxed);
        let is_reached = failed < UNREACHED;
        self.reached.send_if_modified(|reached| std::mem::replace(reached, is_reached) != is_reached);
        failed < TOLD_UNREACHED
    }

    /// Returns when the instance can't be reached.
    pub async fn is_unreached(&self) {
        let mut reached = self.reached.subscribe();
        while *reached.borrow_and_update() {
            if reached.changed().await.is_err() {
                std::future::pending::<()>().await; // can't happen while we hold `self`
            }
        }
    }

    pub fn answers(&self) {
        *locked(&self.silent) = None;
    }

    /// Notes that a post that arrived at `came` got no answer. Returns whether that has been so for long.
    pub fn is_silent(&self, came: Instant, why: &str) -> bool {
        let mut silent = locked(&self.silent);
        let before = silent.take().filter(|before| !before.is_over());
        let since = before.map_or(came, |before| before.since);
        silent.insert(UnansweredPosts { since, last: Instant::now(), why: why.into() }).is_long()
    }
}

#[cfg(test)]
mod tests {
    use super::*;

    /// Otherwise one late answer would abort all posts in flight.
    #[test]
    fn who_is_late_once_is_reached_and_the_others_are_told_otherwise_after_ten_looks() {
        let peer = Peers::default().at("a:1");
        let mut look = |is_there: bool| (peer.has_reached(is_there), *peer.reached.borrow());
        assert_eq!([false, true, false].map(&mut look), [(true, true); 3]);
        assert_eq!([false; 8].map(&mut look), [(true, false); 8]);
        assert_eq!([false; 2].map(&mut look), [(false, false); 2]);
        assert_eq!(look(true), (true, true));
    }
}
