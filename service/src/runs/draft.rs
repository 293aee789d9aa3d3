//! Converts a post's cumulative points to the deltas that the book is asked to take. `shard/cumulative` makes a draft
//! for each try.

use super::{added_by, Kind, Locked, Names, Point, Points, Run, Runs};
use crate::book;
use crate::journal::OfRun;
use crate::otlp::series::Digest;
use crate::otlp::Causes;
use ahash::AHashMap;
use std::collections::HashMap;

/// The draft of a post. The runs do not change until it is kept.
pub struct Draft<'r> {
    of: &'r Runs,
    runs: Locked<'r>,
    /// By number, the runs as they are after this post.
    overlay: AHashMap<u64, Run>,
    /// The points for the book, in their order: deltas made of cumulative points, and delta points as they came.
    pub points: Points,
    /// The indexes of the points that are not sound, ascending.
    unsound: Vec<u32>,
    /// Sound points that are not taken, by reason.
    pub turned: Causes,
    /// Points from which their series begin to count, so that what these had before is left out: the number of the
    /// series, and the first word.
    pub noted: Vec<(u64, u64)>,
    /// Points that add nothing, since they are counted already: the index in the post, and the series.
    pub late: Vec<(u32, Digest)>,
    /// For each point that was made here, its index in `points` and the number of its series.
    made: Vec<(u32, u64)>,
    /// The index in the post of each point in `points`.
    places: Vec<u32>,
    /// By number, the latest end of the delta points so far.
    deltas: HashMap<u64, u64>,
}

/// Points of which some are cumulative; these are given by their indexes.
#[derive(Clone, Copy)]
pub struct Posted<'p> {
    pub points: &'p Points,
    pub cumulative: &'p [u32],
    pub names: &'p Names,
}

impl Runs {
    /// Makes the draft of a post. `frontier` returns the end of a series that has no run.
    pub fn draft(&self, posted: Posted<'_>, frontier: impl Fn(&Digest) -> u64) -> Draft<'_> {
        let mut runs = self.lock();
        runs.go_by(posted.names);
        let (points, cumulative) = (posted.points, posted.cumulative.len());
        let mut draft = Draft {
            of: self,
            runs,
            overlay: AHashMap::with_capacity(cumulative),
            points: Points::with_room(points.words().len(), points.count()),
            unsound: Vec::new(),
            turned: Causes::default(),
            noted: Vec::new(),
            late: Vec::new(),
            made: Vec::with_capacity(cumulative),
            places: Vec::with_capacity(points.count()),
            deltas: HashMap::new(),
        };
        let mut cumulative = posted.cumulative.iter().copied().peekable();
        for (place, point) in (0..).zip(points.each()) {
            match cumulative.next_if_eq(&place) {
                None => draft.add_delta(point),
                Some(_) => draft.add(posted.names, (place, point), &frontier),
            }
            draft.places.resize(draft.points.count(), place);
        }
        draft
    }
}

impl Draft<'_> {
    /// Records a delta point for the cumulative points after it. The book would refuse those, one series at a time, as
    /// if it had this point already.
    fn add_delta(&mut self, point: &[u64]) {
        self.points.push_words(point[0], &point[1..]);
        let end = self.deltas.entry(point[0]).or_default();
        *end = point[2].max(*end);
    }

    fn add(&mut self, names: &Names, (place, words): (u32, &[u64]), frontier: impl Fn(&Digest) -> u64) {
        let number = words[0];
        let point = Point { start: words[1], time: words[2], words: words[3..].to_vec() };
        let Some(series) =
            self.runs.find(names, number, frontier).filter(|series| point.is_sound(series.terms.kind))
        else {
            self.unsound.push(place);
            return;
        };
        let known = self.overlay.get(&number).or(series.run.as_deref());
        let deltas = self.deltas.get(&number).copied().unwrap_or(0);
        match added_by(self.of.options(), series.terms, known, deltas, &point) {
            Ok(None) => self.late.push((place, series.digest)),
            Err(refused) => self.turned.add(refused, 1),
            Ok(Some(entry)) => {
                let run = self.overlay.entry(number);
                let run = run.or_insert_with(|| series.run.as_deref().cloned().unwrap_or_default());
                if let OfRun::Noted { words, .. } = &entry.of_run {
                    self.noted.push((number, words[0]));
                }
                entry.put_after(series.terms.kind, point, run);
                let at = self.points.count() as u32;
                self.made.push((at, number));
                self.points.push(number, entry.from, entry.time, entry.words);
                self.points.put_run(at, entry.of_run);
            }
        }
    }

    /// The book has refused this point because the series ends at `frontier` there: it also has delta points, from
    /// before this post. So that stays known even if the post is refused. Returns the series if the point was made
    /// here.
    pub fn note_frontier(&mut self, at: u32, frontier: u64) -> Option<Digest> {
        let found = self.made.binary_search_by_key(&at, |made| made.0).ok()?;
        let series = self.runs.get_mut(self.made[found].1)?;
        series.terms.frontier = frontier;
        Some(series.digest)
    }

    /// The index in the post of the point with this index in `points`.
    pub fn place(&self, at: u32) -> Option<u32> {
        self.places.get(at as usize).copied()
    }

    /// Whether this point was made of a cumulative one.
    pub fn has_made(&self, at: u32) -> bool {
        self.made.binary_search_by_key(&at, |made| made.0).is_ok()
    }

    /// How many points are not sound.
    pub fn foreign(&self) -> u64 {
        self.unsound.len() as u64
    }

    /// The index of a point among those of the profile; `among_all` maps its index in the post to that in the request.
    pub fn placed(&self, place: u32, among_all: impl Fn(u64) -> u64) -> u64 {
        let before = self.unsound.partition_point(|unsound| *unsound < place);
        among_all(place.into()) - before as u64
    }

    /// A refusal that names a point, with the point's index among those of the profile.
    pub fn refused(&self, refused: book::Refused, among_all: impl Fn(u64) -> u64) -> book::Refused {
        refused.placed(|point| match self.places.get(point as usize) {
            Some(place) => self.placed(*place, &among_all),
            None => point,
        })
    }

    /// Keeps the changed runs, since the book has taken the points.
    pub fn keep(self) {
        let Draft { of, mut runs, overlay, .. } = self;
        for (number, run) in overlay {
            runs.come_to(number, run);
        }
        runs.untaken.shrink_to_fit(); // of series that have a run now
        of.note_count(&runs);
    }
}

impl Point {
    /// Whether the book could take such a point, whatever its span.
    fn is_sound(&self, kind: Kind) -> bool {
        const LONGEST_SUM: u64 = 1 << 53;
        let is_spanned = self.start <= self.time && self.time > 1;
        is_spanned
            && match (kind, &self.words[..]) {
                (Kind::Sum, [value]) => *value != 1 << 63,
                (Kind::Monotonic, [value]) => *value < 1 << 63,
                (Kind::Histogram, [count, _, sum, buckets @ ..]) => {
                    let all: u128 = buckets.iter().map(|bucket| u128::from(*bucket)).sum();
                    all == u128::from(*count) && *sum <= LONGEST_SUM
                }
                _ => false,
            }
    }
}
