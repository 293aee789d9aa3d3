//! Finds which points of a refused post their series refuse, since the book names only the first. `shard/partial_post` takes
//! the others.

use super::refusal::check;
use super::{Book, Read, Refused};
use crate::journal::{Body, Points};
use ahash::AHashMap;

/// Why its series refuses a point.
#[derive(Clone, Copy, Debug, PartialEq, Eq)]
pub enum PointRefusal {
    /// The point begins before the end (`frontier`) of its series, which an earlier point of the same post may have set
    /// (`is_by_post`).
    OutOfOrder { frontier: u64, is_by_post: bool },
    /// The series belongs to another sender.
    OtherWriter,
}

/// What is known of a series while its points are checked.
#[derive(Clone, Copy)]
enum SeriesState {
    EndsAt(u64),
    /// A point of the same post ends there.
    EndsInPost(u64),
    OfAnother,
}

impl SeriesState {
    fn refusal_of(self, start: u64) -> Option<PointRefusal> {
        let (frontier, is_by_post) = match self {
            SeriesState::OfAnother => return Some(PointRefusal::OtherWriter),
            SeriesState::EndsAt(frontier) => (frontier, false),
            SeriesState::EndsInPost(frontier) => (frontier, true),
        };
        (start < frontier).then_some(PointRefusal::OutOfOrder { frontier, is_by_post })
    }
}

impl Book {
    /// For each point of a post by number, why its series refuses it. Of the other points of a series only those count
    /// that come before it and are taken. An error says why the whole post can't be taken. The books do not change, but
    /// the reader loses its post.
    pub fn point_refusals(&mut self, read: &mut Read) -> Result<Vec<Option<PointRefusal>>, Refused> {
        let body = std::mem::replace(&mut read.post.body, Body::Points(Points::default()));
        let found = match &body {
            Body::Points(points) => self.refusals_of(read, points),
            Body::Text(_) => Err(Refused::NoSuch),
        };
        read.post.body = body;
        found
    }

    fn refusals_of(
        &mut self,
        read: &mut Read,
        points: &Points,
    ) -> Result<Vec<Option<PointRefusal>>, Refused> {
        let mut known = AHashMap::with_capacity(points.count());
        let mut of_point = |point: &[u64]| {
            let (number, start, end) = (point[0], point[1], point[2]);
            let series = match known.get(&number) {
                Some(series) => *series,
                None => self.try_first(read, point)?,
            };
            let refusal = series.refusal_of(start);
            known.insert(number, if refusal.is_none() { SeriesState::EndsInPost(end) } else { series });
            Ok(refusal)
        };
        points.each().map(&mut of_point).collect()
    }

    /// The state of a point's series in the book, as far as the book tells by trying that point: 0 if it would take it.
    fn try_first(&mut self, read: &mut Read, point: &[u64]) -> Result<SeriesState, Refused> {
        let mut single = Points::default();
        single.push_words(point[0], &point[1..]);
        let reader = read.put(&single)?;
        self.came += 1;
        match check(self.desk.try_admit(reader)) {
            Ok(_) => Ok(SeriesState::EndsAt(0)),
            Err(Refused::OutOfOrder { frontier, .. }) => Ok(SeriesState::EndsAt(frontier)),
            Err(Refused::OtherWriter { .. }) => Ok(SeriesState::OfAnother),
            Err(refused) => Err(refused),
        }
    }
}
