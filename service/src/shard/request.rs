//! The way of a post: it is parsed, put into the book and the journal under one lock, and answered once it is durable.
//! `Shard::post` and the ingest task call it.
//!
//! Between the book and the journal there is no await. So the journal has the order of the book, and a post is in both
//! or in neither, even if its sender goes away.

use super::posted::{Posted, RequestReader};
use super::verdict::PendingAnswer;
use super::{is_sender, Phase, Request, Shard};
use crate::book::{Locked, Read, Refused};
use crate::journal::Body;
use crate::otlp::series::{self, Profile, SeriesKey};
use crate::otlp::{Outcome, Reading, Reason, Window};
use crate::quota::{OverQuota, QuotaClaim, Series};
use crate::storage::{Fenced, FAILED};
use crate::work::{blocking, locked};
use bytes::Bytes;
use std::sync::Arc;

/// If requests of earlier windows have more bytes, the worker takes a checkpoint at once.
const MANY_BYTES: usize = 32 << 20;
const NO_REST: &str = "no memory is left for the rest of a post of several hours";

/// A post that has been put into the book and the journal, or that adds nothing.
pub(super) struct Put {
    pub journalled: PendingAnswer,
    /// Whether it has changed the book.
    pub is_in_book: bool,
    /// How many of its points were taken, and how many were duplicates.
    pub points: u64,
    pub duplicates: u64,
}

impl Shard {
    /// Does what `post` does, for a request in any form.
    pub async fn request(self: &Arc<Shard>, sender: String, request: Request) -> Outcome {
        if !is_sender(&sender) {
            return Refused::BadSender.into();
        }
        if let Some(why) = self.unavailable() {
            return why.into();
        }
        if let Some(reading) = self.unsaved() {
            if let Err(Fenced) = Box::pin(self.keep(reading)).await {
                return Reason::ShardMoves.into();
            }
        }
        let said = match request {
            Request::Numbered(by) if !by.cumulative.is_empty() => {
                let series = || Series::numbered(by.names.clone(), by.points.numbers());
                match self.claim(&sender, by.points.count() as u64, by.source.length(), series).await {
                    Ok(claim) => self.put_cumulative(sender, *by, claim).await,
                    Err(over) => return over.into(),
                }
            }
            request => {
                let (length, source) = (request.length(), request.source());
                let window = self.clock.window();
                let posted = match request.is_short() {
                    true => RequestReader { shared_book: &self.shared_book, numbers: &self.numbers, window }
                        .read(sender, request),
                    false => self.read_long(window, sender, request).await,
                };
                match posted {
                    Ok(mut posted) => {
                        posted.source = Some(source);
                        let (sender, points) = (&posted.read.post.sender, posted.read.points());
                        match self.claim(sender, points, length, series_of(&posted.read)).await {
                            Ok(claim) => self.put_in_turn(posted, claim).await,
                            Err(over) => return over.into(),
                        }
                    }
                    Err(refused) => Ok(PendingAnswer::behind_all(refused, &self.journal)),
                }
            }
        };
        match said {
            Ok(journalled) => {
                let (outcome, late) = journalled.durable(&self.journal).await;
                if let Some(late) = late {
                    self.keep_late(*late, &outcome);
                }
                outcome
            }
            Err(why) => why.into(),
        }
    }

    /// The settings by which it was read, if these have decided something that the outbox does not have yet.
    fn unsaved(&self) -> Option<Arc<Reading>> {
        let reading = self.reading.as_ref()?;
        reading.finer_units.has_unkept().then(|| reading.clone())
    }

    /// Has the outbox keep these decisions before the journal may have the post: otherwise a start would read later
    /// posts differently.
    async fn keep(&self, reading: Arc<Reading>) -> Result<(), Fenced> {
        let turn = self.keeping.clone().lock_owned().await;
        if !reading.finer_units.has_unkept() {
            return Ok(()); // another post has done it
        }
        let outbox = self.outbox.clone();
        blocking(move || {
            let _turn = turn; // held even if the sender goes away meanwhile
            reading.finer_units.keep(&outbox).map_err(|why| outbox.fail(why))
        })
        .await
    }

    /// Parses a long request on another thread.
    async fn read_long(&self, window: Window, sender: String, request: Request) -> Result<Posted, Refused> {
        let (shared_book, numbers) = (self.shared_book.clone(), self.numbers.clone());
        let reads = move || {
            RequestReader { shared_book: &shared_book, numbers: &numbers, window }.read(sender, request)
        };
        self.readers.read_long(reads).await
    }

    /// Claims points and series from the sender's quota, for a request of this length.
    async fn claim(
        &self,
        sender: &str,
        points: u64,
        length: usize,
        series: impl Fn() -> Series,
    ) -> Result<QuotaClaim, OverQuota> {
        let look = || {
            let (quotas, sender, series) = (self.quotas.clone(), sender.to_string(), series());
            let in_book = self.shared_book.lock().series();
            let unflushed = in_book.saturating_sub(self.outbox.series_count()) as u64;
            self.readers.read(length, move || quotas.look(&sender, points, series, unflushed))
        };
        let claim = self.quotas.claim(sender, points, look).await;
        claim.inspect_err(|over| {
            if !matches!(over, OverQuota::Points { .. }) {
                self.crowded.notify_one();
            }
        })
    }

    /// Puts a post into the book and the journal. If a flush of an earlier window is in flight, waits for it and tries
    /// again. An error says why the book was not asked.
    async fn put_in_turn(
        self: &Arc<Shard>,
        mut posted: Posted,
        mut claim: QuotaClaim,
    ) -> Result<PendingAnswer, Reason> {
        let (all, mut apart) = (posted.read.points(), None);
        loop {
            let landed = self.landed.notified(); // registered before the try, so that none is missed
            let put;
            match apart {
                None => {
                    put = self.put(&mut posted);
                    keep_points(&mut claim, &put, all);
                }
                Some(refused) => {
                    (posted, claim, put) = Box::pin(self.put_apart(posted, refused, claim, all)).await;
                }
            }
            match put? {
                Ok(put) => {
                    self.count_put(&posted.read.post.sender, &put);
                    return Ok(put.journalled.with_late(posted.late));
                }
                Err(Refused::InFlight) => landed.await,
                Err(refused)
                    if refused.is_of_series() && apart.is_none() && posted.read.named().is_some() =>
                {
                    apart = Some(refused);
                }
                Err(refused) => {
                    if refused.is_of_series() && apart.is_none() {
                        self.late.count_lost(all); // it has no numbers
                    }
                    let refused = refused.placed(|point| posted.left_out.place_of(point));
                    let outcome = self.refusal(&posted.read, refused);
                    return Ok(PendingAnswer::behind_all(outcome, &self.journal).with_late(posted.late));
                }
            }
        }
    }

    /// Counts what was put in. The log says once an hour that a sender repeats points.
    pub(super) fn count_put(&self, sender: &str, put: &Put) {
        self.metrics.accepted(sender, put.points);
        let points = put.duplicates;
        if points == 0 {
            return;
        }
        self.metrics.duplicates(sender, points);
        if locked(&self.duplicates).is_due(&sender.to_string()) {
            tracing::info!(
                sender,
                points,
                "points of a post are duplicates: they are left out, and the post is answered as the first time"
            );
        }
    }

    /// Tries to put a post in; the inner error is the book's refusal, which may be `InFlight`. If there is no memory, a
    /// post without new series is tried again with more: senders may have made as many series as there is memory for.
    pub(super) fn put(&self, posted: &mut Posted) -> Result<Result<Put, Refused>, Reason> {
        let put = self.put_once(posted)?;
        let has_no_memory = matches!(put, Err(Refused::NoMemory));
        if has_no_memory && self.has_series_of(&posted.read) && posted.read.parse_with_known_series().is_ok()
        {
            return self.put_once(posted);
        }
        Ok(put)
    }

    /// Whether all series of a post have been flushed before.
    pub(super) fn has_series_of(&self, read: &Read) -> bool {
        let is_known = |series: &SeriesKey| self.outbox.frontier(&series.digest()) > 0;
        match series_of(read)() {
            Series::Numbered(names, numbers) => {
                let of = |number: u64| series::only(&names.text(number));
                numbers.into_iter().all(|number| of(number).is_some_and(|series| is_known(&series)))
            }
            Series::Text(text) => series::others(&text, Profile::Deltas, 0, is_known) == 0,
        }
    }

    fn put_once(&self, posted: &mut Posted) -> Result<Result<Put, Refused>, Reason> {
        // Other posts may have passed the check of `unavailable` at the same time.
        let Some(_reserved) = self.free_space.reserve(posted.read.bytes()) else {
            return Err(Reason::NoRoom);
        };
        posted.read.series_apart(); // computed here, without the lock
        let book = self.serving_book()?;
        Ok(self.put_locked(book, posted))
    }

    /// Locks the book, if posts are taken.
    pub(super) fn serving_book(&self) -> Result<Locked<'_>, Reason> {
        let book = self.shared_book.lock();
        // Checked under the lock, since the last checkpoint may have come in between.
        match self.phase() {
            Phase::Serving => Ok(book),
            _ => Err(self.unavailable().unwrap_or(Reason::Recovering)),
        }
    }

    /// Puts a post into the locked book and appends it to the journal before the lock is released.
    pub(super) fn put_locked(&self, mut book: Locked<'_>, posted: &mut Posted) -> Result<Put, Refused> {
        let before = book.series();
        let admitted = book.admit(&mut posted.read);
        let closed = book.rounds_closed() as u64;
        if closed > 0 {
            self.metrics.rounds_closed.inc_by(closed);
        }
        if book.earlier_bytes() > MANY_BYTES {
            self.hurried.notify_one();
        }
        if let Err(refused) = admitted {
            self.note_refusal(book, refused);
            return Err(refused);
        }
        book.note_recent(&posted.read, &[]);
        let new_series = book.series().saturating_sub(before);
        self.count_post();
        // Under the lock, so that the journal has the order of the book, and a checkpoint finds the post in both or in
        // neither.
        let journalled = PendingAnswer::taken(posted, &self.journal);
        drop(book);
        self.tell_long_ago(&posted.read);
        self.quotas.came(&posted.read.post.sender, new_series, series_of(&posted.read));
        Ok(Put { journalled, is_in_book: true, points: posted.read.points(), duplicates: 0 })
    }

    /// Reacts to a refusal: too many series, no memory, or a half-taken post.
    pub(super) fn note_refusal(&self, book: Locked<'_>, refused: Refused) {
        if refused == Refused::HalfTaken {
            self.end(); // with the lock, so that nobody sees this book
        }
        let has_earlier = book.has_earlier();
        drop(book);
        match refused {
            Refused::TooManySeries => {
                self.quotas.tell_full();
                self.crowded.notify_one();
            }
            Refused::NoMemory if has_earlier => self.hurried.notify_one(),
            _ => {}
        }
    }

    /// Ends the shard, because the book has a part of a post that the journal lacks. Whoever reads the journal next has
    /// no part of it, and the sender retries. In a store only the shard ends, and nothing that its book says is
    /// answered; in a folder the process ends.
    fn end(&self) {
        if self.journal.close(NO_REST) {
            return self.fence_off();
        }
        crate::complain(format_args!(
            "{NO_REST}, so the service ends. Nothing is lost, since its sender got no answer and retries: raise --max-memory"
        ));
        std::process::exit(FAILED)
    }
}

#[cfg(test)]
impl Shard {
    /// Puts a parsed post into the book and the journal.
    pub(crate) fn put_of_test(&self, read: crate::book::Read) -> Result<(), Reason> {
        self.put(&mut Posted::whole(read)).map(drop)
    }
}

/// Counts the points that were put towards their sender's quota. Duplicates count too, since finding them costs more than
/// taking points.
pub(super) fn keep_points(claim: &mut QuotaClaim, put: &Result<Result<Put, Refused>, Reason>, all: u64) {
    if let Ok(Ok(put)) = put {
        claim.keep(put.points + put.duplicates, all);
    }
}

/// Returns the series of a post's points, without using its reader.
fn series_of(read: &Read) -> impl Fn() -> Series + '_ {
    let (post, names) = (&read.post, read.named());
    move || match (names, &post.body) {
        (Some(names), _) => Series::numbered(names.clone(), post.numbers()),
        (None, Body::Text(text)) => Series::Text(text.clone()),
        (None, Body::Points(_)) => Series::Text(Bytes::new()), // it has no points
    }
}

#[cfg(test)]
mod tests;
