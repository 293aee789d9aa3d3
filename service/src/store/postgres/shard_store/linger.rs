//! How long a commit lingers for the senders that the last one answered. Senders that post as fast as they are answered
//! come back at once; without the pause they would just miss this commit and wait for the next.

use crate::work::{blocking, locked};
use std::sync::atomic::{AtomicU64, Ordering::SeqCst};
use std::sync::{Arc, Condvar, Mutex};
use std::time::{Duration, Instant};

/// A commit lingers for this fraction of the last commit's duration, up to a limit: each post is answered that much
/// later.
const PART: u32 = 4;
const LONGEST: Duration = Duration::from_millis(2);

/// Counts the writes of all shards.
#[derive(Default)]
pub struct Arrivals {
    count: AtomicU64,
    /// The count at which the lane continues.
    awaited: AtomicU64,
    waiting: Mutex<()>,
    all_are_there: Condvar,
}

impl Arrivals {
    /// Normally costs a post one addition.
    pub fn note(&self) {
        if self.count.fetch_add(1, SeqCst) + 1 == self.awaited.load(SeqCst) {
            let _waits = locked(&self.waiting);
            self.all_are_there.notify_one();
        }
    }

    fn count(&self) -> u64 {
        self.count.load(SeqCst)
    }

    fn wait(&self, awaited: u64, until: Instant) {
        self.awaited.store(awaited, SeqCst);
        let left = until.saturating_duration_since(Instant::now());
        let lacks_some = |_: &mut ()| self.count() < awaited;
        drop(self.all_are_there.wait_timeout_while(locked(&self.waiting), left, lacks_some));
    }
}

pub struct Linger {
    arrivals: Arc<Arrivals>,
    /// The count when the last commit began, and how many writes came between that one and the one before.
    began_with: u64,
    answers: u64,
    began: Instant,
    /// The next commit waits until this count or this time.
    next: Option<(u64, Instant)>,
}

impl Linger {
    pub fn for_these(arrivals: &Arc<Arrivals>) -> Linger {
        Linger { arrivals: arrivals.clone(), began_with: 0, answers: 0, began: Instant::now(), next: None }
    }

    pub async fn wait(&mut self) {
        let Some((awaited, until)) = self.next.take() else {
            return;
        };
        if self.arrivals.count() < awaited && Instant::now() < until {
            let arrivals = self.arrivals.clone();
            blocking(move || arrivals.wait(awaited, until)).await;
        }
    }

    /// Called when a commit begins.
    pub fn begin(&mut self) {
        let count = self.arrivals.count();
        self.answers = count - self.began_with;
        (self.began_with, self.began) = (count, Instant::now());
    }

    /// Called when it has ended.
    pub fn end(&mut self) {
        let patience = (self.began.elapsed() / PART).min(LONGEST);
        self.next = Some((self.arrivals.count() + self.answers, Instant::now() + patience));
    }
}
