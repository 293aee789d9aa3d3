//! Owns the connection permits of an address and decides which connection is closed when all are taken and one more
//! client has connected.
//!
//! The connection that has been idle for longest is closed, so clients that only hold connections keep no sender out. A
//! sender that posts often loses its connection only if no connection is idle, and then with an answer that says so.

use super::Listener;
use crate::work::{locked, within};
use std::pin::pin;
use std::sync::atomic::{AtomicBool, AtomicU64, Ordering::Relaxed};
use std::sync::{Arc, Mutex, Weak};
use std::time::{Duration, Instant};
use tokio::sync::{Notify, OwnedSemaphorePermit, Semaphore};

/// A connection that has been idle for less than this is not closed: its sender may just be about to post.
const MIN_IDLE: Duration = Duration::from_secs(1);
/// How often the acceptor looks for an idle connection while a client waits.
const LOOK: Duration = Duration::from_millis(100);
/// How long an evicted connection has to end before another one is evicted.
const TO_END: Duration = Duration::from_secs(1);

/// All permits of an address.
pub struct ConnectionPermits {
    free: Arc<Semaphore>,
    max: usize,
    opened: Instant,
    taken: Mutex<Vec<Weak<ConnectionPermit>>>,
    /// A client has connected and waits for a permit.
    has_waiter: AtomicBool,
    /// No connection is idle: the next connection that answers a request closes.
    wants_close: AtomicBool,
    was_full: AtomicBool,
}

/// The permit of one connection, held until it is dropped.
pub struct ConnectionPermit {
    opened: Instant,
    /// `BUSY`, `EVICTED`, or the time at which the connection became idle, in milliseconds after `opened`.
    state: AtomicU64,
    evicted: Notify,
    /// None once the address is closed.
    _permit: Option<OwnedSemaphorePermit>,
}

const BUSY: u64 = u64::MAX;
const EVICTED: u64 = u64::MAX - 1;

impl ConnectionPermit {
    /// The connection waits for its next request.
    pub fn mark_idle(&self) {
        let now = self.opened.elapsed().as_millis() as u64;
        let _ = self.state.compare_exchange(BUSY, now, Relaxed, Relaxed); // an evicted connection stays evicted
    }

    /// A request has begun.
    pub fn mark_busy(&self) {
        let change = |state| (state != EVICTED).then_some(BUSY);
        let _ = self.state.fetch_update(Relaxed, Relaxed, change);
    }

    /// Whether the connection has to close as soon as it has answered the requests it has begun.
    pub fn is_evicted(&self) -> bool {
        self.state.load(Relaxed) == EVICTED
    }

    /// Waits until the connection is evicted.
    pub async fn evicted(&self) {
        self.evicted.notified().await
    }

    fn idle_since(&self) -> Option<u64> {
        Some(self.state.load(Relaxed)).filter(|state| *state < EVICTED)
    }

    /// Evicts the connection unless it has had a request meanwhile.
    fn try_evict(&self, idle_since: u64) -> bool {
        let is_evicted = self.state.compare_exchange(idle_since, EVICTED, Relaxed, Relaxed).is_ok();
        if is_evicted {
            self.evicted.notify_one();
        }
        is_evicted
    }
}

/// What was done to make room for a waiting client.
#[derive(Clone, Copy, PartialEq, Eq)]
enum Step {
    None,
    /// The next connection that answers a request has to close.
    Asked,
    /// A connection closes.
    Closing,
}

impl ConnectionPermits {
    pub fn new(max: usize) -> Arc<ConnectionPermits> {
        Arc::new(ConnectionPermits {
            free: Arc::new(Semaphore::new(max)),
            max,
            opened: Instant::now(),
            taken: Mutex::default(),
            has_waiter: AtomicBool::new(false),
            wants_close: AtomicBool::new(false),
            was_full: AtomicBool::new(false),
        })
    }

    /// Whether a client has connected and waits for a permit.
    pub fn has_waiter(&self) -> bool {
        self.has_waiter.load(Relaxed)
    }

    /// Whether the calling connection has to close for a waiting client. Each time that is wanted, one connection gets true.
    pub fn has_to_close(&self) -> bool {
        self.wants_close.load(Relaxed) && self.wants_close.swap(false, Relaxed)
    }

    /// Returns a permit for a client that has connected, and waits for it if all are taken.
    pub async fn acquire(&self, listener: &impl Listener) -> Arc<ConnectionPermit> {
        let permit = match self.free.clone().try_acquire_owned() {
            Ok(permit) => Some(permit),
            Err(_) => self.wait_for_permit(listener).await,
        };
        let (opened, state, evicted) = (self.opened, AtomicU64::new(BUSY), Notify::new());
        let permit = Arc::new(ConnectionPermit { opened, state, evicted, _permit: permit });
        let mut taken = locked(&self.taken);
        if taken.len() >= 2 * self.max {
            taken.retain(|permit| permit.strong_count() > 0);
        }
        taken.push(Arc::downgrade(&permit));
        permit
    }

    async fn wait_for_permit(&self, listener: &impl Listener) -> Option<OwnedSemaphorePermit> {
        if !self.was_full.swap(true, Relaxed) {
            let (most, address) = (self.max, listener.shown());
            tracing::warn!(
                address,
                connections = most,
                "all connections of the address are in use: each further client waits until the longest idle one is closed"
            );
        }
        self.has_waiter.store(true, Relaxed);
        let (waits_since, mut freed) = (Instant::now(), pin!(self.free.clone().acquire_owned()));
        let mut last = Step::None;
        let permit = loop {
            last = match last {
                // A connection has taken the request to close.
                Step::Asked if !self.wants_close.load(Relaxed) => Step::Closing,
                _ => self.make_room(waits_since),
            };
            let time = if last == Step::Closing { TO_END } else { LOOK };
            if let Some(permit) = within(time, freed.as_mut()).await {
                break permit.ok(); // the semaphore is never closed
            }
        };
        self.has_waiter.store(false, Relaxed);
        self.wants_close.store(false, Relaxed);
        permit
    }

    /// Evicts the longest idle connection; if none is idle, asks the next one that answers to close.
    fn make_room(&self, waits_since: Instant) -> Step {
        let taken: Vec<_> = locked(&self.taken).iter().filter_map(Weak::upgrade).collect();
        let idle = taken.iter().filter_map(|permit| Some((permit.idle_since()?, permit)));
        let longest = idle.min_by_key(|(since, _)| *since);
        let time = |since| self.opened.elapsed().saturating_sub(Duration::from_millis(since));
        match longest {
            Some((since, permit)) if time(since) >= MIN_IDLE => {
                // Only one connection closes for one client.
                self.wants_close.store(false, Relaxed);
                if permit.try_evict(since) {
                    return Step::Closing;
                }
                Step::None
            }
            Some(_) if waits_since.elapsed() < MIN_IDLE => Step::None, // it may soon have been idle for long enough
            _ => {
                self.wants_close.store(true, Relaxed);
                Step::Asked
            }
        }
    }
}

#[cfg(test)]
mod tests {
    use super::*;
    use crate::ingest::user::User;
    use tokio::net::TcpStream;

    /// A listener to which nobody connects.
    struct Silent;

    impl Listener for Silent {
        type Stream = TcpStream;

        async fn accepted(&self) -> std::io::Result<TcpStream> {
            std::future::pending().await
        }

        fn user(_: &TcpStream) -> Option<User> {
            None
        }

        fn shown(&self) -> String {
            String::new()
        }
    }

    /// Otherwise several senders would lose their connections for one client that waits.
    #[tokio::test]
    async fn one_connection_closes_for_one_waiting_client() {
        let permits = ConnectionPermits::new(2);
        let (one, _other) = (permits.acquire(&Silent).await, permits.acquire(&Silent).await);
        let mut waiting = pin!(permits.acquire(&Silent));
        assert!(within(LOOK / 2, waiting.as_mut()).await.is_none());
        assert!(permits.has_to_close());
        let begun = Instant::now();
        while begun.elapsed() < TO_END / 2 {
            assert!(within(LOOK / 2, waiting.as_mut()).await.is_none());
            assert!(!permits.has_to_close(), "after {:?}", begun.elapsed());
        }
        drop(one);
        assert!(within(LOOK, waiting.as_mut()).await.is_some());
        assert!(!permits.has_to_close());
    }

    /// If the connection that was asked to close does not end, another one is asked.
    #[tokio::test]
    async fn another_connection_closes_if_the_first_does_not_end() {
        let permits = ConnectionPermits::new(1);
        let _one = permits.acquire(&Silent).await;
        let mut waiting = pin!(permits.acquire(&Silent));
        assert!(within(LOOK / 2, waiting.as_mut()).await.is_none());
        assert!(permits.has_to_close());
        assert!(within(TO_END + 3 * LOOK, waiting.as_mut()).await.is_none());
        assert!(permits.has_to_close());
    }
}
