//! Work that takes long, on threads beside the runtime's, or on several in parallel (`in_order`); and rarely needed
//! timeouts.
//!
//! The timers here are boxed: otherwise each future that may need one would have room for it, which costs every post
//! memory.

mod in_order;
pub mod own_call;

pub use in_order::{in_order, made_in_order, WorkQueue};

use hyper::body::HttpBody;
use hyper::Body;
use std::future::{poll_fn, Future};
use std::pin::pin;
use std::sync::{Arc, Mutex, MutexGuard, PoisonError};
use std::task::Poll;
use std::thread;
use std::time::Duration;
use tokio::sync::Semaphore;
use tokio::task::JoinSet;

/// Runs work that waits for the disk, or computes for long, without blocking a thread of the runtime.
pub async fn blocking<T: Send + 'static>(work: impl FnOnce() -> T + Send + 'static) -> T {
    match tokio::task::spawn_blocking(work).await {
        Ok(done) => done,
        Err(ended) => match ended.try_into_panic() {
            Ok(panic) => std::panic::resume_unwind(panic),
            // The runtime is ending, and this task with it.
            Err(_) => std::future::pending().await,
        },
    }
}

/// Parses bodies: a short one on the calling thread, a long one on a blocking thread, so that no short post waits for
/// it. Only so many long ones are parsed at a time, since one takes several times its length of memory.
pub struct Readers(Arc<Semaphore>);

impl Readers {
    /// A body up to this long is short.
    pub const SHORT: usize = 64 << 10;

    pub fn new(most: usize) -> Readers {
        Readers(Arc::new(Semaphore::new(most)))
    }

    /// Parses something of this length.
    pub async fn read<T: Send + 'static>(
        &self,
        length: usize,
        read: impl FnOnce() -> T + Send + 'static,
    ) -> T {
        match length <= Readers::SHORT {
            true => read(),
            false => self.read_long(read).await,
        }
    }

    /// Parses something long. The work keeps its turn until it is done, even if its sender goes away and nobody awaits it.
    pub async fn read_long<T: Send + 'static>(&self, read: impl FnOnce() -> T + Send + 'static) -> T {
        let turn = self.0.clone().acquire_owned().await; // it is never closed
        blocking(move || {
            let done = read();
            drop(turn);
            done
        })
        .await
    }

    /// How many more long bodies may be parsed now.
    #[cfg(test)]
    pub fn free(&self) -> usize {
        self.0.available_permits()
    }
}

/// The result of a future if it is ready in time. Usually it is ready at once, and then no timer is made.
pub async fn within<T>(time: Duration, future: impl Future<Output = T>) -> Option<T> {
    let mut future = pin!(future);
    match poll_fn(|context| Poll::Ready(future.as_mut().poll(context))).await {
        Poll::Ready(done) => Some(done),
        Poll::Pending => Box::pin(tokio::time::timeout(time, future)).await.ok(),
    }
}

/// The results of all these futures, run in parallel, in no order. One that panics yields nothing.
pub async fn side_by_side<T, F>(all: impl IntoIterator<Item = F>) -> Vec<T>
where
    T: Send + 'static,
    F: Future<Output = T> + Send + 'static,
{
    let (mut under_way, mut done) = (JoinSet::new(), Vec::new());
    for one in all {
        under_way.spawn(one);
    }
    while let Some(one) = under_way.join_next().await {
        done.extend(one);
    }
    done
}

/// The whole body; none if it is longer than `most`.
pub async fn whole_body(mut body: Body, most: usize) -> Result<Option<Vec<u8>>, hyper::Error> {
    let mut bytes = Vec::new();
    while let Some(part) = body.data().await {
        bytes.extend_from_slice(&part?);
        if bytes.len() > most {
            return Ok(None);
        }
    }
    Ok(Some(bytes))
}

/// Locks a mutex. Poison is ignored: a panic ends the process, so nobody sees what it left half changed, and tests keep
/// such state valid.
pub fn locked<T>(mutex: &Mutex<T>) -> MutexGuard<'_, T> {
    mutex.lock().unwrap_or_else(PoisonError::into_inner)
}

/// Yields until all tasks that are ready on this thread have run.
pub async fn others_first() {
    let mut had_theirs = false;
    poll_fn(|context| match std::mem::replace(&mut had_theirs, true) {
        true => Poll::Ready(()),
        false => {
            context.waker().wake_by_ref();
            Poll::Pending
        }
    })
    .await
}

/// The most threads of parallel work: more would wait for each other.
const MOST_THREADS: usize = 8;

/// How many threads work in parallel.
fn threads() -> usize {
    thread::available_parallelism().map_or(1, |most| most.get().min(MOST_THREADS))
}

#[cfg(test)]
mod tests {
    use super::*;
    use std::sync::mpsc::channel;

    /// Otherwise senders that go away at once would have any number of long bodies read at a time.
    #[tokio::test(flavor = "multi_thread")]
    async fn a_long_body_keeps_its_turn_if_nobody_waits_for_it_any_more() {
        let readers = Arc::new(Readers::new(1));
        let (begun, has_begun) = tokio::sync::oneshot::channel();
        let (end, ends) = channel();
        let reading = tokio::spawn({
            let readers = readers.clone();
            async move {
                let read = move || {
                    let _ = begun.send(());
                    ends.recv().unwrap()
                };
                readers.read_long(read).await
            }
        });
        has_begun.await.unwrap();
        reading.abort();
        assert!(reading.await.unwrap_err().is_cancelled());
        assert_eq!(readers.free(), 0);
        end.send(()).unwrap();
        readers.read_long(|| ()).await;
    }
}
