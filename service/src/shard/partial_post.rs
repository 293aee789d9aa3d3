//! Handles a post some of whose points their series refuse: these are left out and named in the answer, duplicates
//! count as taken, and all other points are taken.
//!
//! `request` and `cumulative` call it only after the book has refused the whole post, so other posts cost nothing more.
//! Under one lock, the book says for each point whether its series refuses it, and takes the others in one step, as one
//! record of the journal. Only refused points are compared with earlier posts, so the book alone decides what is added.

use super::duplicates::{fates, PointFate};
use super::posted::{Posted, RequestReader};
use super::refused_points::RefusedPoints;
use super::request::{keep_points, Put};
use super::verdict::PendingAnswer;
use super::Shard;
use crate::book::{Book, Locked, PointRefusal, Read, Refused};
use crate::journal::{Body, Names as _, Points};
use crate::otlp::series::only;
use crate::otlp::{Causes, Outcome, Reason};
use crate::outbox::POSTS_KNOWN;
use crate::quota::QuotaClaim;
use std::sync::Arc;

impl Shard {
    /// Puts a post point by point, after the book has refused it for one of its series. It had so many points in all.
    pub(super) async fn put_apart(
        self: &Arc<Shard>,
        mut posted: Posted,
        refused: Refused,
        mut claim: QuotaClaim,
        all: u64,
    ) -> (Posted, QuotaClaim, Result<Result<Put, Refused>, Reason>) {
        let (shard, length) = (self.clone(), posted.read.bytes());
        let put = move || {
            let put = shard.try_apart(&mut posted, refused);
            keep_points(&mut claim, &put, all);
            (posted, claim, put)
        };
        self.readers.read(length, put).await
    }

    /// `refused` is how the book refused the whole post.
    fn try_apart(&self, posted: &mut Posted, refused: Refused) -> Result<Result<Put, Refused>, Reason> {
        if posted.read.is_of_body() && !self.put_in_order(posted) {
            self.late.count_lost(posted.read.points());
            return Ok(Err(refused));
        }
        let Some(_reserved) = self.free_space.reserve(posted.read.bytes()) else {
            return Err(Reason::NoRoom);
        };
        let mut book = self.serving_book()?;
        match self.fates(&mut book, &mut posted.read) {
            Ok(fates) => Ok(self.put_those(book, posted, &fates)),
            Err(refused) => {
                self.note_refusal(book, refused);
                Ok(Err(refused))
            }
        }
    }

    /// Parses the post again by number, in the order of its body. False if its series have no numbers.
    fn put_in_order(&self, posted: &mut Posted) -> bool {
        let reader = RequestReader {
            shared_book: &self.shared_book,
            numbers: &self.numbers,
            window: self.clock.window(),
        };
        let sender = &posted.read.post.sender;
        let in_order = posted.source.as_ref().and_then(|source| reader.read_in_order(sender.clone(), source));
        in_order.map(|in_order| *posted = in_order).is_some()
    }

    fn fates(&self, book: &mut Book, read: &mut Read) -> Result<Vec<PointFate>, Refused> {
        let refusals = book.point_refusals(read)?;
        self.fates_of(book, read, &refusals)
    }

    /// The fate of each point, given the book's refusals.
    pub(super) fn fates_of(
        &self,
        book: &Book,
        read: &Read,
        refusals: &[Option<PointRefusal>],
    ) -> Result<Vec<PointFate>, Refused> {
        let (Body::Points(points), Some(names)) = (&read.post.body, read.named()) else {
            return Err(Refused::NoSuch);
        };
        let recent = |number| {
            let mut known = book.recent(names, number);
            // What the outbox has is older than, or equal to, what the book has taken since.
            let key = if known.len() < POSTS_KNOWN { only(&names.text(number)) } else { None };
            for digest in key.into_iter().flat_map(|key| self.outbox.recent(&key.digest()).digests()) {
                if known.len() < POSTS_KNOWN && !known.contains(&digest) {
                    known.push(digest);
                }
            }
            known
        };
        Ok(fates(points, refusals, recent))
    }

    /// Tries again as `put` does if there is no memory for new series. Other posts may have come meanwhile: if the book
    /// now refuses a point for its series, the sender retries the post.
    fn put_known(&self, posted: &mut Posted) -> Result<Put, Refused> {
        if !self.has_series_of(&posted.read) {
            return Err(Refused::NoMemory);
        }
        posted.read.parse_with_known_series()?;
        let book = self.serving_book().map_err(|_| Refused::NoMemory)?;
        let put = self.put_locked(book, posted);
        put.map_err(|refused| if refused.is_of_series() { Refused::NoMemory } else { refused })
    }

    /// Puts in the points that are to be taken.
    fn put_those(&self, book: Locked<'_>, posted: &mut Posted, fates: &[PointFate]) -> Result<Put, Refused> {
        let (Body::Points(whole), Some(names)) = (&posted.read.post.body, posted.read.named()) else {
            return Err(Refused::NoSuch);
        };
        let (whole, names): (Points, _) = (whole.clone(), names.clone());
        let mut refused = RefusedPoints::of(&whole, fates);
        let sender = posted.read.post.sender.clone();
        let count = |wanted| fates.iter().filter(|fate| **fate == wanted).count() as u64;
        let (taken, duplicates) = (count(PointFate::Taken), count(PointFate::Duplicate));
        let put = match (taken, refused.first()) {
            (0, Some(first)) if duplicates == 0 => {
                drop(book);
                posted.late = Some(refused.take_kept(self, &sender, &names));
                return Err(first);
            }
            (0, _) => {
                drop(book);
                let (foreign, off) = (posted.read.post.foreign, posted.left_out.off);
                let outcome = Outcome::taken_but(foreign, off, Causes::default());
                let journalled = PendingAnswer::behind_all(outcome, &self.journal);
                Put { journalled, is_in_book: false, points: 0, duplicates }
            }
            _ => {
                let kept = whole.of_places(|place| fates[place] == PointFate::Taken);
                let mut put = posted.read.keep(kept).and_then(|()| self.put_locked(book, posted));
                if matches!(put, Err(Refused::NoMemory)) {
                    put = self.put_known(posted);
                }
                if put.is_err() {
                    posted.read.post.body = Body::Points(whole.clone()); // the post may be tried again
                }
                Put { duplicates, ..put? }
            }
        };
        posted.late = Some(refused.take_kept(self, &sender, &names));
        let named = refused.named(&names, |point| posted.left_out.place_of(point));
        Ok(Put { journalled: put.journalled.without_refused(named), ..put })
    }
}

#[cfg(test)]
mod tests;
