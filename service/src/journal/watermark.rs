//! A watermark: how far the journal is written, or durable. Wakes the callers that wait for a position, and the thread
//! that moves the watermark.
//!
//! No waiter is told before the watermark has reached its ticket, and none is left waiting after.

use super::locked;
use crate::storage::disk::Disk;
use crate::storage::shard_store::Fenced;
use std::future::Future;
use std::sync::atomic::{AtomicBool, AtomicU64, Ordering::SeqCst};
use std::sync::{Condvar, Mutex, PoisonError};
use std::thread::ThreadId;
use std::time::Duration;
use tokio::sync::oneshot;

#[derive(Default)]
pub(super) struct Watermark {
    /// Everything before this ticket is done.
    reached: AtomicU64,
    waiters: Mutex<Waiters>,
    /// Whether the thread waits for work. It sets this while it holds the lock.
    is_idle: AtomicBool,
    work: Condvar,
}

#[derive(Default)]
struct Waiters {
    list: Vec<Waiter>,
    is_ending: bool,
}

struct Waiter {
    ticket: u64,
    thread: ThreadId,
    tell: oneshot::Sender<WakeUp>,
}

/// Wakes a waiter and, when dropped, the other waiters of the same thread: so a thread is woken once, and the rest are
/// told even if the first waiter has gone.
struct WakeUp(Vec<oneshot::Sender<WakeUp>>);

impl Drop for WakeUp {
    fn drop(&mut self) {
        for other in self.0.drain(..) {
            let _ = other.send(WakeUp(Vec::new())); // a waiter that has gone needs no answer
        }
    }
}

/// What the thread finds to do.
pub(super) enum Wanted {
    Now,
    /// No caller came within the timeout.
    Nobody,
    End,
}

impl Watermark {
    pub fn has(&self, ticket: u64) -> bool {
        self.reached.load(SeqCst) >= ticket
    }

    /// Returns after everything before the ticket is done. Unless `is_begun` says that another thread has begun it,
    /// this wakes the thread after `others` has finished, even if this future is dropped by then: so one call serves
    /// the others too.
    pub async fn wait_for(
        &self,
        ticket: u64,
        disk: &Disk,
        is_begun: impl FnOnce() -> bool,
        others: impl Future<Output = ()>,
    ) -> Result<(), Fenced> {
        if self.has(ticket) {
            return Ok(());
        }
        let Some(done) = self.join(ticket, disk)? else {
            return Ok(());
        };
        if !is_begun() {
            let _in_any_case = Wakes(self);
            others.await;
        }
        match done.await {
            Ok(_) => Ok(()),
            Err(_) if disk.is_fenced() => Err(Fenced),
            // The journal was closed or the process is ending: this caller must not be told that the post is kept.
            Err(_) => std::future::pending().await,
        }
    }

    /// None if the ticket was reached in the meantime.
    fn join(&self, ticket: u64, disk: &Disk) -> Result<Option<oneshot::Receiver<WakeUp>>, Fenced> {
        let mut waiters = locked(&self.waiters);
        // The thread stores this before it looks for waiters.
        if self.has(ticket) {
            return Ok(None);
        }
        // The thread drops the waiters only after it has found the shard fenced, so a later one is refused here.
        if disk.is_fenced() {
            return Err(Fenced);
        }
        let (tell, done) = oneshot::channel();
        let thread = std::thread::current().id();
        waiters.list.push(Waiter { ticket, thread, tell });
        Ok(Some(done))
    }

    fn wake(&self) {
        if self.is_idle.load(SeqCst) && self.is_idle.swap(false, SeqCst) {
            self.work.notify_one();
        }
    }

    /// Everything before the ticket is done. Two threads that reach positions may report them in any order.
    pub fn reach(&self, ticket: u64) {
        self.reached.fetch_max(ticket, SeqCst);
        let due: Vec<Waiter> = {
            let list = &mut locked(&self.waiters).list;
            let (due, later) = std::mem::take(list).into_iter().partition(|one| one.ticket <= ticket);
            *list = later;
            due
        };
        let mut threads: Vec<(ThreadId, Vec<oneshot::Sender<WakeUp>>)> = Vec::new();
        for one in due {
            match threads.iter_mut().find(|(thread, _)| *thread == one.thread) {
                Some((_, others)) => others.push(one.tell),
                None => threads.push((one.thread, vec![one.tell])),
            }
        }
        for (_, mut others) in threads {
            let first = others.pop();
            let told = WakeUp(others);
            if let Some(first) = first {
                let _ = first.send(told); // if the first waiter has gone, dropping this tells the others
            }
        }
    }

    /// The shard is fenced: the callers that wait get the error.
    pub fn give_up(&self) {
        locked(&self.waiters).list.clear();
    }

    /// Tells the thread to finish what is wanted and end.
    pub fn end(&self) {
        locked(&self.waiters).is_ending = true;
        self.work.notify_one();
    }

    /// Returns when a caller waits, or after the timeout; at once if the thread has to end.
    pub fn wanted(&self, within: Duration) -> Wanted {
        let mut waiters = locked(&self.waiters);
        let found = |waiters: &Waiters| match waiters {
            Waiters { is_ending: true, .. } => Wanted::End,
            Waiters { list, .. } if !list.is_empty() => Wanted::Now,
            _ => Wanted::Nobody,
        };
        if matches!(found(&waiters), Wanted::Nobody) {
            self.is_idle.store(true, SeqCst);
            waiters = self.work.wait_timeout(waiters, within).unwrap_or_else(PoisonError::into_inner).0;
            self.is_idle.store(false, SeqCst);
        }
        found(&waiters)
    }
}

/// Wakes the thread when dropped: if this waiter goes away, no other one may come.
struct Wakes<'w>(&'w Watermark);

impl Drop for Wakes<'_> {
    fn drop(&mut self) {
        self.0.wake();
    }
}
