//! Seeds a fresh book from the outbox alone, so a start does it in parallel with everything else before the journal's
//! posts.

use super::super::numbers::Own;
use super::super::WorkerError;
use super::{not_filled, not_taken};
use crate::book::{free_spare_readers, with_reserve, Book, Read, Refused, SharedBook};
use crate::otlp::series::{zeros, NotForwarded};
use crate::outbox::{Outbox, Owned};
use crate::work::in_order;
use std::panic::resume_unwind;
use std::sync::atomic::{AtomicBool, Ordering::Relaxed};
use std::sync::Arc;
use std::thread::{sleep, Builder, JoinHandle};
use std::time::Duration;

/// So that no post takes long. What the series of a post share is in memory once.
const SERIES_OF_A_POST: usize = 1000;
/// How often `ended` looks whether the thread is done.
const LOOK: Duration = Duration::from_millis(1);

/// A book that is being seeded, on a thread that ends soon after this is dropped.
pub struct Seeding {
    thread: JoinHandle<Result<Arc<Own>, WorkerError>>,
    stop: Stop,
}

/// Tells the thread to stop when it is dropped.
struct Stop(Arc<AtomicBool>);

impl Drop for Stop {
    fn drop(&mut self) {
        self.0.store(true, Relaxed);
    }
}

impl Seeding {
    /// Starts seeding, if a thread can be had.
    pub fn begin(shared_book: &Arc<SharedBook>, outbox: &Arc<Outbox>, has_posts: bool) -> Option<Seeding> {
        let (shared_book, outbox, stop) = (shared_book.clone(), outbox.clone(), Stop(Arc::default()));
        let stopped = stop.0.clone();
        let work = move || {
            let stops = || stopped.load(Relaxed);
            seed(&shared_book, &outbox, &mut shared_book.lock(), has_posts, stops)
        };
        let thread = Builder::new().name("seeding".into()).spawn(work).ok()?;
        Some(Seeding { thread, stop })
    }

    /// Waits until seeding has ended or was stopped.
    pub(super) fn ended(self, stops: impl Fn() -> bool) -> Result<Arc<Own>, WorkerError> {
        while !self.thread.is_finished() {
            if stops() {
                self.stop.0.store(true, Relaxed);
            }
            sleep(LOOK);
        }
        self.thread.join().unwrap_or_else(|panic| resume_unwind(panic))
    }
}

/// Series of one owner.
struct Part<'o> {
    of: &'o Owned,
    owner: &'o str,
    series: &'o [(u32, u64)],
    /// The parsed posts that seed them.
    posts: Result<Vec<Read>, NotSeeded>,
}

/// Why series can't be seeded.
#[derive(Debug, thiserror::Error)]
enum NotSeeded {
    #[error(transparent)]
    Refused(#[from] Refused),
    #[error(transparent)]
    NotForwarded(#[from] NotForwarded),
}

/// Seeds the book and returns its numbers; if there are no posts to put in, series get none.
pub(super) fn seed(
    shared_book: &SharedBook,
    outbox: &Outbox,
    book: &mut Book,
    has_posts: bool,
    stops: impl Fn() -> bool,
) -> Result<Arc<Own>, WorkerError> {
    let own = Arc::<Own>::default();
    let noted = has_posts.then_some(&*own);
    // In the order of their keys, so that neighbours share most, and each goes at or near the end of those that a book
    // has.
    let of = &outbox.owned();
    in_order(
        |part: &mut Part| with_reserve(|| part.parse(shared_book, noted)),
        |part| with_reserve(|| part.put(shared_book, outbox, book, noted)),
        |queue| {
            for (owner, series) in &of.all {
                let mut parts = series.chunks(SERIES_OF_A_POST);
                let unread = |series| Part { of, owner, series, posts: Ok(Vec::new()) };
                if !parts.all(|part| !stops() && queue.push(unread(part))) {
                    break;
                }
            }
            Ok(())
        },
    )?;
    let taken = book.take_all().map_err(not_taken)?;
    book.settle(taken).map_err(not_taken)?;
    book.note_seeded();
    Ok(own)
}

impl Part<'_> {
    fn parse(&mut self, shared_book: &SharedBook, own: Option<&Own>) {
        self.posts = self.read(shared_book);
        if let (Ok(posts), Some(own)) = (&mut self.posts, own) {
            posts.iter_mut().for_each(|read| own.note(read));
        }
    }

    fn read(&self, shared_book: &SharedBook) -> Result<Vec<Read>, NotSeeded> {
        let read = |body: String| Ok(shared_book.read(self.owner.into(), body.into())?);
        zeros(self.of.with_keys(self.series))?.into_iter().map(read).collect()
    }

    fn put(
        mut self,
        shared_book: &SharedBook,
        outbox: &Outbox,
        book: &mut Book,
        own: Option<&Own>,
    ) -> Result<(), WorkerError> {
        if matches!(self.posts, Err(NotSeeded::Refused(_))) {
            free_spare_readers();
            self.parse(shared_book, own);
        }
        let admit = |mut read: Read| Ok(book.admit(&mut read)?);
        let put = self.posts.and_then(|posts| posts.into_iter().try_for_each(admit));
        put.map_err(|why| match why {
            NotSeeded::Refused(refused) => not_filled(outbox, self.owner, refused),
            why => WorkerError::NotFilled(format!("the outbox has a series that the book refuses: {why}")),
        })
    }
}
