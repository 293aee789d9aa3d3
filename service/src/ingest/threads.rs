//! The threads that serve senders. Each has a runtime of its own, so a request stays on one thread from its first byte
//! to its answer and wakes no other thread.
//!
//! A serving thread leaves its runtime to make calls that may block (`work/own_call`). If such a call takes long, the
//! watch thread starts a stand-in, a thread that runs the runtime until the serving thread is back. So a stalled disk
//! keeps no connection waiting.

use crate::book::give_back_of_thread;
use crate::work::own_call::OwnCalls;
use crate::work::within;
use std::future::{poll_fn, Future};
use std::io::Result;
use std::pin::pin;
use std::sync::atomic::{
    AtomicBool, AtomicU64, AtomicUsize,
    Ordering::{Relaxed, SeqCst},
};
use std::sync::{Arc, Weak};
use std::task::Poll;
use std::time::Duration;
use tokio::runtime::{Builder, Handle, Runtime};
use tokio::sync::{oneshot, Notify};

/// Blocking threads of each runtime, for long bodies. `Ingest` bounds how many of these are parsed at a time.
const LONG_WORK: usize = 2;
/// How often a thread gives back memory if it serves nobody.
const LOOK: Duration = Duration::from_secs(5);
/// A call that takes longer than once to twice this time gets a stand-in.
const PATIENCE: Duration = Duration::from_millis(100);

/// All serving threads. They end when this is dropped, and abandon what they do.
pub struct Threads(Arc<[Thread]>);

/// A serving thread, as its owner sees it.
struct Thread {
    name: String,
    runtime: Handle,
    connections: Arc<AtomicUsize>,
    away: Arc<Away>,
    /// The runtime, for a stand-in to run.
    run: Weak<Runtime>,
    _end: oneshot::Sender<()>,
}

/// The place of one connection on a thread, until it is dropped.
pub struct Place(Arc<AtomicUsize>);

/// Whether a serving thread is outside its runtime.
#[derive(Default)]
struct Away {
    /// Counts each exit and each return, so it is odd while the thread is outside.
    turns: AtomicU64,
    has_stand_in: AtomicBool,
    back: Notify,
}

impl Threads {
    pub fn new(count: usize) -> Result<Threads> {
        Threads::named("front", count)
    }

    pub fn named(name: &str, count: usize) -> Result<Threads> {
        let threads: Result<Arc<[Thread]>> =
            (0..count.max(1)).map(|number| Thread::start(format!("{name}-{number}"))).collect();
        let threads = threads?;
        let watched = Arc::downgrade(&threads);
        std::thread::Builder::new().name(format!("{name}-watch")).spawn(move || watch(&watched))?;
        Ok(Threads(threads))
    }

    /// Takes a place on the thread with the fewest connections.
    pub fn place(&self) -> (Handle, Place) {
        let load = |thread: &&Thread| thread.connections.load(Relaxed);
        let thread = self.0.iter().min_by_key(load).unwrap_or(&self.0[0]);
        thread.connections.fetch_add(1, Relaxed);
        (thread.runtime.clone(), Place(thread.connections.clone()))
    }
}

/// Starts a stand-in for each thread that stays away, until the threads end.
fn watch(threads: &Weak<[Thread]>) {
    let mut seen = Vec::new();
    loop {
        std::thread::sleep(PATIENCE);
        let Some(threads) = threads.upgrade() else { return };
        let now: Vec<u64> = threads.iter().map(|thread| thread.away.turns.load(SeqCst)).collect();
        let both = seen.iter().zip(&now).zip(threads.iter());
        for (_, thread) in both.filter(|((seen, now), _)| seen == now && *now % 2 == 1) {
            thread.stand_in();
        }
        seen = now;
    }
}

impl Thread {
    fn start(name: String) -> Result<Thread> {
        let runtime = Builder::new_current_thread().max_blocking_threads(LONG_WORK).enable_all().build()?;
        let (runtime, away) = (Arc::new(runtime), Arc::new(Away::default()));
        let (handle, run) = (runtime.handle().clone(), Arc::downgrade(&runtime));
        let (end, ended) = oneshot::channel::<()>();
        let leaves = away.clone();
        std::thread::Builder::new().name(name.clone()).spawn(move || {
            serve(&runtime, &leaves, ended);
            if let Some(runtime) = Arc::into_inner(runtime) {
                runtime.shutdown_background(); // tasks that still wait for a disk or a sender are abandoned
            }
        })?;
        Ok(Thread { name, runtime: handle, connections: Arc::default(), away, run, _end: end })
    }

    /// Has another thread run the runtime until this thread is back, unless one already does.
    fn stand_in(&self) {
        if self.away.has_stand_in.swap(true, SeqCst) {
            return;
        }
        let (away, run) = (self.away.clone(), self.run.clone());
        let started = std::thread::Builder::new().name(format!("{}-stand-in", self.name)).spawn(move || {
            if let Some(runtime) = run.upgrade() {
                runtime.block_on(away.until_back());
            }
            away.has_stand_in.store(false, SeqCst);
        });
        if started.is_err() {
            self.away.has_stand_in.store(false, SeqCst); // the next look retries
        }
    }
}

impl Away {
    /// Does work that may block. The caller must not be inside the runtime.
    fn leave(&self, work: impl FnOnce()) {
        self.turns.fetch_add(1, SeqCst);
        work();
        self.turns.fetch_add(1, SeqCst);
        if self.has_stand_in.load(SeqCst) {
            self.back.notify_one();
        }
    }

    async fn until_back(&self) {
        while self.turns.load(SeqCst) % 2 == 1 {
            self.back.notified().await;
        }
    }
}

/// Runs the tasks of a thread until `ended` resolves.
fn serve(runtime: &Runtime, away: &Away, ended: oneshot::Receiver<()>) {
    let (mut rest, mut calls) = (pin!(rest_until(ended)), OwnCalls::of_this_thread());
    while runtime.block_on(poll_fn(|context| match rest.as_mut().poll(context) {
        Poll::Ready(()) => Poll::Ready(false),
        Poll::Pending => calls.poll_asked(context).map(|()| true),
    })) {
        away.leave(|| calls.make());
    }
}

/// Waits for the end. Until then it gives the allocator's memory of this thread back whenever the thread serves nobody.
async fn rest_until(ended: oneshot::Receiver<()>) {
    let (mut ended, mut before) = (pin!(ended), None);
    while within(LOOK, &mut ended).await.is_none() {
        before = give_back_of_thread(before);
    }
}

impl Drop for Place {
    fn drop(&mut self) {
        self.0.fetch_sub(1, Relaxed);
    }
}

#[cfg(test)]
mod tests {
    use super::*;
    use crate::work::own_call::{self, OwnCall};
    use std::sync::{mpsc, Mutex};
    use std::time::Instant;

    #[test]
    fn places_are_spread() {
        let threads = Threads::new(2).unwrap();
        let loads = || threads.0.iter().map(|thread| thread.connections.load(Relaxed)).collect::<Vec<_>>();
        let mut places: Vec<Place> = (0..4).map(|_| threads.place().1).collect();
        assert_eq!(loads(), [2, 2]);
        places.remove(0);
        places.remove(1);
        assert_eq!(loads().iter().sum::<usize>(), 2);
        places.extend((0..2).map(|_| threads.place().1));
        assert_eq!(loads(), [2, 2]);
        drop(places);
        assert_eq!(loads(), [0, 0]);
    }

    #[test]
    fn they_end_with_their_owner() {
        let threads = Threads::new(1).unwrap();
        let (handle, _place) = threads.place();
        let (never, waiting) = oneshot::channel::<()>();
        let task = handle.spawn(async move {
            let _never = never;
            std::future::pending::<()>().await;
        });
        assert!(!task.is_finished());
        drop(threads);
        assert!(waiting.blocking_recv().is_err(), "what it did is dropped");
    }
    /// Counts how often it is made; each call waits for the gate.
    #[derive(Default)]
    struct Write {
        made: AtomicU64,
        told: Mutex<Vec<oneshot::Sender<u64>>>,
        gate: Mutex<()>,
    }

    impl OwnCall for Write {
        fn make(&self) -> u64 {
            drop(self.gate.lock());
            self.made.fetch_add(1, SeqCst) + 1
        }

        fn tell(&self, reached: u64) {
            for waiter in self.told.lock().unwrap().drain(..) {
                let _ = waiter.send(reached);
            }
        }
    }

    async fn ask(write: Arc<Write>) -> u64 {
        let (tell, told) = oneshot::channel();
        write.told.lock().unwrap().push(tell);
        assert!(own_call::ask(&write), "this thread serves");
        told.await.unwrap()
    }

    fn run<T: Send + 'static>(thread: &Handle, task: impl Future<Output = T> + Send + 'static) -> T {
        let (tell, told) = mpsc::channel();
        thread.spawn(async move { tell.send(task.await) });
        told.recv_timeout(Duration::from_secs(20)).expect("the thread serves")
    }

    /// Otherwise each post would cost a write of its own.
    #[test]
    fn a_call_is_made_once_for_all_tasks_that_are_ready() {
        let threads = Threads::new(1).unwrap();
        let (thread, _place) = threads.place();
        let write = Arc::new(Write::default());
        for made in 1..=100 {
            let write = write.clone();
            let reached = run(&thread, async move {
                let asking: Vec<_> = (0..5).map(|_| tokio::spawn(ask(write.clone()))).collect();
                let mut all = Vec::new();
                for one in asking {
                    all.push(one.await.unwrap());
                }
                all
            });
            assert_eq!(reached, [made; 5]);
        }
        assert!(!own_call::ask(&write), "nobody would make it");
    }

    /// Otherwise a stalled disk would block all connections of the thread, even those whose posts are refused
    /// meanwhile.
    #[test]
    fn a_stand_in_serves_while_a_call_takes_long() {
        let threads = Threads::new(1).unwrap();
        let (thread, _place) = threads.place();
        let write = Arc::new(Write::default());
        for made in 1..=3 {
            let gate = write.gate.lock().unwrap();
            let asked = thread.spawn(ask(write.clone()));
            for number in 0..3 {
                let sleeps = async move {
                    tokio::time::sleep(Duration::from_millis(10)).await;
                    (number, std::thread::current().name().map(str::to_string))
                };
                assert_eq!(run(&thread, sleeps), (number, Some("front-0-stand-in".to_string())));
            }
            assert!(!asked.is_finished());
            drop(gate);
            assert_eq!(run(&thread, async move { asked.await.unwrap() }), made);
            let began = Instant::now();
            while threads.0[0].away.has_stand_in.load(SeqCst) {
                assert!(began.elapsed() < Duration::from_secs(20), "the stand-in goes on");
                std::thread::sleep(Duration::from_millis(1));
            }
            let name = async { std::thread::current().name().map(str::to_string) };
            assert_eq!(run(&thread, name), Some("front-0".to_string()));
        }
    }
}
