//! The refused points of a post: for each reason the answer says how many there are, and names the series and interval
//! of the first. All are kept as late data. `apart` and `cumulative` call it.

use super::duplicates::PointFate;
use super::Shard;
use crate::book::{Names, PointRefusal, Refused};
use crate::journal::{Names as _, Points};
use crate::late::Refusals;
use crate::otlp::{point_at, Outcome, Profile, Rejection};
use crate::post_reports::{late, named, of_another, twice, Interval};
use std::mem::{discriminant, take};
use std::sync::Arc;

/// Collects the refused points of one post.
#[derive(Default)]
pub(super) struct RefusedPoints {
    by_reason: Vec<OfReason>,
    points: Points,
    /// For each point why it is refused, and whether it is cumulative.
    why: Vec<(PointRefusal, bool)>,
}

/// How many points were refused for one reason, and the first of them: its index, the number of its series, and its
/// interval.
struct OfReason {
    count: u64,
    place: u64,
    number: u64,
    interval: Interval,
    refusal: PointRefusal,
}

impl PointRefusal {
    /// The refusal as the book would give it for a whole post.
    fn of(self, point: u64) -> Refused {
        match self {
            PointRefusal::OutOfOrder { frontier, .. } => Refused::OutOfOrder { point, frontier },
            PointRefusal::OtherWriter => Refused::OtherWriter { point },
        }
    }

    /// What the owner of the sender needs to know about a point; `named` names its series.
    fn advice(self, named: &str, interval: Interval) -> String {
        match self {
            PointRefusal::OtherWriter => of_another(named, interval),
            PointRefusal::OutOfOrder { is_by_post: true, .. } => twice(named, interval),
            PointRefusal::OutOfOrder { frontier, .. } => late(named, interval, frontier),
        }
    }
}

impl RefusedPoints {
    /// The refused ones among these points.
    pub fn of(points: &Points, fates: &[PointFate]) -> RefusedPoints {
        let mut all = RefusedPoints::default();
        for ((place, point), fate) in (0..).zip(points.each()).zip(fates) {
            if let PointFate::Refused(refusal) = fate {
                all.add(place, point, *refusal, false);
            }
        }
        all
    }

    /// Adds a point of these words; `place` is its index among all points.
    pub fn add(&mut self, place: u64, point: &[u64], refusal: PointRefusal, is_cumulative: bool) {
        let [number, start, end, ..] = *point else { return }; // every point has these
        self.points.push_words(number, &point[1..]);
        self.why.push((refusal, is_cumulative));
        let is_same = |other: &&mut OfReason| discriminant(&other.refusal) == discriminant(&refusal);
        let found = OfReason { count: 1, place, number, interval: (start, end), refusal };
        let Some(same) = self.by_reason.iter_mut().find(is_same) else {
            self.by_reason.push(found);
            return;
        };
        let count = same.count + 1;
        if place < same.place {
            *same = found;
        }
        same.count = count;
    }

    /// Takes the points that are to be kept.
    pub fn take_kept(&mut self, shard: &Shard, sender: &str, names: &Arc<Names>) -> Refusals {
        let (points, why) = (take(&mut self.points), take(&mut self.why));
        Refusals::new(sender, names, points, why, &shard.outbox)
    }

    /// The first refusal, as the book would give it for a whole post.
    pub fn first(&self) -> Option<Refused> {
        let first = self.by_reason.iter().min_by_key(|of| of.place);
        first.map(|of| of.refusal.of(of.place))
    }

    /// The rejections for the answer; `among_all` maps the index of a point to its index in the request.
    pub fn named(&self, names: &Names, among_all: impl Fn(u64) -> u64) -> Vec<(u64, Rejection)> {
        let told = |of: &OfReason| {
            let Outcome::Refused(rejection) = Outcome::from(of.refusal.of(among_all(of.place))) else {
                return None;
            };
            let point = point_at(&names.text(of.number), Profile::Deltas, 0);
            let series = point.map_or_else(String::new, |(point, _)| named(&point));
            Some((of.count, rejection.and(&of.refusal.advice(&series, of.interval))))
        };
        self.by_reason.iter().filter_map(told).collect()
    }
}

impl Shard {
    /// Keeps the refused points of a post as late data. Does so only after the post is answered, and only if the answer
    /// is final: a retry of the post may have one of them taken. They must not use up the last room of a disk.
    pub(super) fn keep_late(&self, refusals: Refusals, answer: &Outcome) {
        if !matches!(answer.status(), 200 | 400 | 413) {
            return;
        }
        match self.free_space.is_left() {
            true => self.late.keep(refusals),
            false => self.late.count_lost(refusals.count()),
        }
    }
}
