//! Fills a fresh book from the files: the owner and frontier of each series, the posts that are in no group, and the
//! quarantines. `run` calls it at a start, `forget` for a book that replaces another.
//!
//! To seed the book, each series with frontier F gets a point of value zero over (F-1, F] from its owner, and these
//! points are flushed and discarded. The book then knows every owner and frontier and has nothing to forward, so
//! duplicates and late points are refused as before. After that it gets the posts of the journal in their order, which
//! was the order of the old book; only those of quarantined senders come last.
//!
//! All of it was taken before, so it may use the memory reserve, and if that is too small, pending points are
//! serialised meanwhile. If even that fails nothing is lost: the worker reports it, and the shard takes no posts.
//!
//! Posts are parsed in parallel by scoped threads and applied in order; the series that the journal names get their
//! numbers before, in the same way. Consecutive posts of one sender go in as one (`again`): the points of each of its
//! series keep their order, and one call of the book costs as much as many points.

mod defined;
mod replay;
mod seed;

use super::numbers::{Numbers, Own};
use super::WorkerError;
use crate::book::{free_spare_readers, with_reserve, Book, Read, Refused};
use crate::journal::{Body, Post};
use crate::outbox::Outbox;
use crate::runs::State;
use crate::shard::Shard;
use crate::work::{in_order, WorkQueue};
use defined::{posts_with_definitions, PostWithDefinitions};
use replay::{Groups, ReplayBatch};
use seed::seed;
pub use seed::Seeding;
use std::collections::BTreeSet;
use std::sync::Arc;
use std::thread::Builder;
use std::time::{Duration, Instant};

/// How often the progress is logged.
const PROGRESS: Duration = Duration::from_secs(1);

/// The result of filling a book.
#[derive(Default)]
pub(super) struct Recovered {
    /// How many posts of the journal were put in.
    pub posts: u64,
    /// Requests that were serialised meanwhile to make room; they belong to the next group.
    pub carried: Vec<Vec<u8>>,
    /// The runs of the last commit, continued by the posts.
    pub runs: State,
}

/// Fills the book of a shard, whose seeding may have begun already. None if it was told to stop.
pub(super) fn recover_seeded(
    shard: &Arc<Shard>,
    seeding: Option<Seeding>,
    stops: impl Fn() -> bool,
) -> Result<Option<Recovered>, WorkerError> {
    match seeding {
        Some(seeding) => {
            let own = seeding.ended(&stops)?;
            replay(shard, &mut shard.shared_book.lock(), own, stops)
        }
        None => recover(shard, &mut shard.shared_book.lock(), stops),
    }
}

/// None if it was told to stop.
pub(super) fn recover(
    shard: &Arc<Shard>,
    book: &mut Book,
    stops: impl Fn() -> bool,
) -> Result<Option<Recovered>, WorkerError> {
    let own = seed(&shard.shared_book, &shard.outbox, book, shard.has_posts(), &stops)?;
    replay(shard, book, own, stops)
}

/// Puts the posts of the journal into a seeded book; `own` has its numbers.
fn replay(
    shard: &Arc<Shard>,
    book: &mut Book,
    own: Arc<Own>,
    stops: impl Fn() -> bool,
) -> Result<Option<Recovered>, WorkerError> {
    let mut filling = Recovery {
        numbers: Numbers::new(shard.shared_book.clone(), own),
        fresh: RecoveringBook {
            shard,
            book,
            filled: Recovered { runs: State::of(&shard.outbox), ..Recovered::default() },
            shown: Instant::now(),
        },
        stops,
    };
    let held = shard.outbox.quarantined();
    filling.replay(|post| !held.contains(&post.sender), Book::admit_again)?;
    if !held.is_empty() {
        // After the others: whatever is flushed to make room for these posts must not belong to a quarantined sender.
        if !filling.fresh.filled.carried.is_empty() {
            filling.fresh.make_room()?;
        }
        filling.replay(|post| held.contains(&post.sender), Book::admit_held)?;
    }
    filling.fresh.quarantine(&held)?;
    filling.fresh.book.note_filled();
    // On a thread, since freeing readers takes long and nobody waits for it. If no thread can be had, they are freed
    // when nobody posts.
    let _ = Builder::new().name("readers".into()).spawn(free_spare_readers);
    let stopped = (filling.stops)();
    Ok((!stopped).then_some(filling.fresh.filled))
}

/// How a post is put in again.
type Admit = fn(&mut Book, &mut Read) -> Result<(), Refused>;

/// A replay of the journal into a fresh book.
struct Recovery<'a, S> {
    numbers: Numbers,
    fresh: RecoveringBook<'a>,
    /// Whether it was told to stop.
    stops: S,
}

/// The book, and what came of it so far.
struct RecoveringBook<'a> {
    shard: &'a Shard,
    book: &'a mut Book,
    filled: Recovered,
    shown: Instant,
}

/// The next posts to put in; none to make room first.
type ReplayItem = Option<ReplayBatch>;

impl<S: Fn() -> bool> Recovery<'_, S> {
    /// Puts in those posts of the journal that are wanted, in its order.
    fn replay(&mut self, is_wanted: impl Fn(&Post) -> bool + Sync, admit: Admit) -> Result<(), WorkerError> {
        let Recovery { numbers, fresh, stops } = self;
        let shard = fresh.shard;
        in_order(
            |coming: &mut ReplayItem| with_reserve(|| coming.iter_mut().for_each(ReplayBatch::parse)),
            |coming| {
                with_reserve(|| match coming {
                    Some(again) => fresh.replay(again, admit),
                    None => fresh.make_room(),
                })
            },
            |queue| {
                let own = numbers.own.clone();
                posts_with_definitions(shard, &own, stops, |said| {
                    let mut groups = Groups::new(&shard.shared_book);
                    for PostWithDefinitions { named, mut post } in said {
                        // Done even if the post is not wanted, since no later post defines the number again.
                        numbers.note(named);
                        if !is_wanted(&post) {
                            continue;
                        }
                        let mut numbered = numbers.number(&mut post);
                        if numbered.is_err_and(|refused| refused.status() == 503) {
                            // There is no memory for that: tries again with room, after all posts before it were put
                            // in.
                            put(
                                std::mem::replace(&mut groups, Groups::new(&shard.shared_book)),
                                numbers,
                                queue,
                            );
                            queue.push(None);
                            queue.wait_until_empty();
                            numbered = numbers.number(&mut post);
                        }
                        groups.push(post, numbered);
                    }
                    put(groups, numbers, queue)
                })
            },
        )
    }
}

/// Returns whether more is wanted.
fn put(groups: Groups, numbers: &Numbers, queue: &WorkQueue<ReplayItem>) -> bool {
    groups.into_again(numbers).all(|again| queue.push(Some(again)))
}

impl RecoveringBook<'_> {
    /// Puts in posts as one; if they are refused, puts in each by itself.
    fn replay(&mut self, mut again: ReplayBatch, admit: Admit) -> Result<(), WorkerError> {
        self.say_progress();
        let posts = again.posts();
        if posts == 1 {
            return self.replay_one(again, admit);
        }
        if again.has_all() && self.put(&mut again, admit).is_ok() {
            self.filled.posts += posts as u64;
            return Ok(());
        }
        again.each().try_for_each(|mut one| {
            one.parse();
            self.replay_one(one, admit)
        })
    }

    /// Puts in a post, after a flush if a limit refuses it.
    fn replay_one(&mut self, mut again: ReplayBatch, admit: Admit) -> Result<(), WorkerError> {
        let mut put = self.put(&mut again, admit);
        if matches!(put, Err(refused) if refused.status() == 503 && refused != Refused::HalfTaken) {
            self.make_room()?;
            again.parse();
            put = self.put(&mut again, admit);
        }
        self.count(&again, put)
    }

    /// Counts a post. If it is now refused for good, it was in a group before: this is reported as a fault, since
    /// stopping the service would not help.
    fn count(&mut self, again: &ReplayBatch, put: Result<u64, Refused>) -> Result<(), WorkerError> {
        let (sender, foreign) = (&again.sender, again.foreign);
        match put {
            Ok(now) if now == foreign => {}
            Err(refused) if refused.status() == 503 => {
                return Err(not_filled(&self.shard.outbox, sender, refused))
            }
            other => {
                let (shard, reason) = (self.shard.number(), format!("{other:?}"));
                tracing::error!(
                    shard,
                    sender,
                    rejected = foreign,
                    reason,
                    "an accepted post is refused on replay: this is a bug of totxegun"
                );
                self.shard.metrics.faults.with_label_values(&["replay"]).inc();
            }
        }
        self.filled.posts += 1;
        Ok(())
    }

    /// Returns how many points are foreign.
    fn put(&mut self, again: &mut ReplayBatch, admit: Admit) -> Result<u64, Refused> {
        admit(self.book, again.as_read()?)?;
        let read = again.was_read()?;
        if let (Body::Points(points), Some(names)) = (&read.post.body, read.named()) {
            self.filled.runs.replay(names, points);
        }
        self.book.note_recent(read, again.each_post());
        Ok(read.post.foreign)
    }

    /// Makes room. A fresh book has one more point of each series than the old one had, so it may reach a limit a
    /// little sooner.
    fn make_room(&mut self) -> Result<(), WorkerError> {
        free_spare_readers();
        self.book.make_room(&mut self.filled.carried).map_err(not_taken)
    }

    fn quarantine(&mut self, held: &BTreeSet<String>) -> Result<(), WorkerError> {
        for sender in held {
            let done = self.book.quarantine(sender);
            done.map_err(|refused| {
                WorkerError::NotFilled(format!("{sender} can't be quarantined: {refused}"))
            })?;
        }
        Ok(())
    }

    fn say_progress(&mut self) {
        self.shard.set_ungrouped(self.filled.posts);
        if self.shown.elapsed() >= PROGRESS {
            self.shown = Instant::now();
            let (shard, posts) = (self.shard.number(), self.filled.posts);
            tracing::info!(shard, posts, "the journal is being replayed");
        }
    }
}

fn not_filled(outbox: &Outbox, sender: &str, refused: Refused) -> WorkerError {
    let series = outbox.series_count();
    let why = format!(
        "the book can't be filled with {series} series and the posts of the journal: {refused}, at a post of {sender}. \
         Nothing is changed or lost"
    );
    match refused {
        Refused::NoMemory | Refused::HalfTaken => {
            WorkerError::NoMemoryToFill(format!("{why}: raise --max-memory"))
        }
        Refused::TooManySeries => WorkerError::NotFilled(format!("{why}: raise --max-series")),
        _ => WorkerError::NotFilled(format!("{why}: look at the log of the previous run")),
    }
}

fn not_taken(refused: Refused) -> WorkerError {
    WorkerError::NoMemoryToFill(format!(
        "the book can't be flushed: {refused}. Nothing is lost: raise --max-memory"
    ))
}

#[cfg(test)]
mod tests;
