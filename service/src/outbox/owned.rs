//! Lists which series each sender has: for `worker/recovery/seed`, which seeds a fresh book, and for operators.

use super::texts::{begin_of, Texts};
use super::{locked, Outbox};
use crate::otlp::series::SeriesKey;
use std::collections::{BTreeMap, HashMap};
use std::sync::Arc;

/// Series by owner. Keys are read in parts, since together they may be very long.
pub struct Owned {
    /// The ids of the owner's series, and where each ends.
    pub all: BTreeMap<Arc<str>, Vec<(u32, u64)>>,
    texts: Texts,
}

/// The sorted part of a key, and the id and end of the series.
type Begun = (Box<[u8]>, (u32, u64));

impl Owned {
    /// Some of these with their keys.
    pub fn with_keys<'o>(&'o self, some: &'o [(u32, u64)]) -> impl Iterator<Item = (SeriesKey, u64)> + 'o {
        let ends = some.iter().map(|(_, end)| *end);
        self.texts.of(some.iter().map(|(id, _)| *id)).zip(ends)
    }
}

impl Outbox {
    /// All series with a known owner, sorted by as much of their keys as `begin_of` gives.
    pub fn owned(&self) -> Owned {
        let (those, texts) = self.those(|series| series.owner.is_some());
        let those = those.into_iter().map(|(id, series)| (id, (id, series))).collect();
        let found = texts.each_of(those, |key, (id, series)| {
            let begin = begin_of(&key);
            series.owner.map(|owner| (owner, begin, (id, series.frontier)))
        });
        let mut by_begin: BTreeMap<Arc<str>, Vec<Begun>> = BTreeMap::new();
        for (owner, begin, series) in found.into_iter().flatten() {
            by_begin.entry(owner).or_default().push((begin, series));
        }
        let in_order = |(owner, mut series): (_, Vec<Begun>)| {
            series.sort(); // already sorted for the most part, which this sort handles fast
            (owner, series.into_iter().map(|(_, series)| series).collect())
        };
        Owned { all: by_begin.into_iter().map(in_order).collect(), texts }
    }

    /// Counts the series with a known owner: an owner is known soon after the first group with the series.
    pub fn series_by_owner(&self) -> HashMap<Arc<str>, u64> {
        let mut counts = HashMap::new();
        for (_, known) in locked(&self.state).series.iter() {
            if let Some(owner) = &known.series.owner {
                *counts.entry(owner.clone()).or_default() += 1;
            }
        }
        counts
    }
}
