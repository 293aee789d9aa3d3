//! Why points of a request are foreign, counted by cause: what a sender is told in one line, and what is counted.

use super::series::{visit_body, Profile, Seen, What};
use super::{Off, OffClock, Reason};
use serde::{Deserialize, Serialize};
use std::collections::BTreeMap;
use std::fmt;

/// By cause, how many points of a request are foreign.
#[derive(Clone, Debug, Default, PartialEq, Eq, Deserialize, Serialize)]
pub struct Causes(BTreeMap<Reason, u64>);

impl Causes {
    /// Those points that are off by their clock.
    pub fn of_clocks(off: OffClock) -> Causes {
        let both = [(Reason::ClockAhead, off.ahead), (Reason::ClockBehind, off.behind)];
        both.into_iter().filter(|(_, points)| *points > 0).collect()
    }

    /// Of a body, of which the book did not take so many points. Where deltas are made of cumulative points these may be
    /// foreign all the same, as in a text that does not go by number: that is seen by how many there are. Where this says more
    /// or less than the book, the rest is `Other`.
    pub fn of(body: &[u8], profile: Profile, foreign: u64) -> Causes {
        let mut causes = Causes::of_profile(body, profile);
        if causes.count() != foreign && profile != Profile::Deltas {
            let of_deltas = Causes::of_profile(body, Profile::Deltas);
            if of_deltas.count() == foreign || causes.count() > foreign {
                causes = of_deltas;
            }
        }
        match foreign.checked_sub(causes.count()) {
            None => return Causes([(Reason::Other, foreign)].into()),
            Some(0) => {}
            Some(unknown) => causes.add(Reason::Other, unknown),
        }
        causes
    }

    fn of_profile(body: &[u8], profile: Profile) -> Causes {
        let mut causes = Causes::default();
        let _ = visit_body(body, profile, |seen| {
            if let Some(cause) = Reason::of_seen(&seen) {
                causes.add(cause, 1);
            }
        });
        causes
    }

    /// How many points these are.
    pub fn count(&self) -> u64 {
        self.0.values().sum()
    }

    /// These and others.
    pub fn and(self, others: &Causes) -> Causes {
        self.iter().chain(others.iter()).collect()
    }

    pub fn add(&mut self, cause: Reason, points: u64) {
        *self.0.entry(cause).or_default() += points;
    }

    pub fn iter(&self) -> impl Iterator<Item = (Reason, u64)> + '_ {
        self.0.iter().map(|(cause, points)| (*cause, *points))
    }
}

impl FromIterator<(Reason, u64)> for Causes {
    fn from_iter<T: IntoIterator<Item = (Reason, u64)>>(all: T) -> Causes {
        let mut causes = Causes::default();
        all.into_iter().for_each(|(cause, points)| causes.add(cause, points));
        causes
    }
}

impl fmt::Display for Causes {
    /// `3 gauges, 1 cumulative sum`: what is most first.
    fn fmt(&self, out: &mut fmt::Formatter<'_>) -> fmt::Result {
        let mut all: Vec<(Reason, u64)> = self.iter().collect();
        all.sort_by_key(|(_, points)| std::cmp::Reverse(*points));
        for (place, (cause, points)) in all.into_iter().enumerate() {
            let comma = if place > 0 { ", " } else { "" };
            write!(out, "{comma}{points} {}", cause.noun(points))?;
        }
        Ok(())
    }
}

impl Reason {
    /// Of a point; none where it is taken.
    pub(super) fn of_seen(seen: &Seen<'_, '_>) -> Option<Reason> {
        let why = seen.found.err()?;
        Some(match (why.what, seen.kind) {
            (What::OtherKind, "gauge") => Reason::Gauge,
            (What::OtherKind, "summary") => Reason::Summary,
            (What::Cumulative, "histogram") => Reason::CumulativeHistogram,
            (What::Cumulative, _) if seen.metric.is_monotonic => Reason::CumulativeSum,
            _ if why.is_fraction() => Reason::Fraction,
            _ => why.reason(),
        })
    }

    pub(super) fn of_clock(off: Off) -> Reason {
        match off {
            Off::Ahead(_) => Reason::ClockAhead,
            Off::Behind(_) => Reason::ClockBehind,
        }
    }
}
