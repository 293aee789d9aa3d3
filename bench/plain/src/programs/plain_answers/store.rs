//! Series and who is quarantined.

use std::collections::hash_map::Entry;
use std::collections::{HashMap, HashSet};

use plain::series::{self, Data, Identity, Series, Stored, Taken};

use crate::reading::{Point, MAX_EXACT};
use crate::refusal::Refusal;

const MAX_SERIES: usize = 10_000;
const MAX_QUARANTINED: usize = 1000;
const MAX_POINTS: u64 = (1 << 40) - 1;
const MAX_SUM: u64 = i64::MAX as u64;

/// What a series has accepted in all, as far as it has limits.
#[derive(Clone, Copy, Default)]
struct Accepted {
    points: u64,
    /// What a sum added, or a histogram's sum.
    added: u64,
    taken_away: u64,
    /// What is in a histogram's buckets.
    count: u64,
}

impl Accepted {
    /// The same and a point more, where that is within the limits.
    fn with(self, data: &Data) -> Option<Accepted> {
        let points = up_to(MAX_POINTS, self.points, 1)?;
        match data {
            Data::Sum(value) if *value < 0 => Some(Accepted {
                points,
                taken_away: up_to(MAX_SUM, self.taken_away, value.unsigned_abs())?,
                ..self
            }),
            Data::Sum(value) => Some(Accepted {
                points,
                added: up_to(MAX_SUM, self.added, value.unsigned_abs())?,
                ..self
            }),
            Data::Histogram { sum, buckets } => Some(Accepted {
                points,
                added: up_to(MAX_EXACT, self.added, sum.unwrap_or(0))?,
                count: up_to(u64::MAX, self.count, buckets.iter().sum())?,
                ..self
            }),
        }
    }
}

fn up_to(limit: u64, old: u64, more: u64) -> Option<u64> {
    old.checked_add(more).filter(|sum| *sum <= limit)
}

struct Kept {
    series: Series,
    accepted: Accepted,
}

impl Kept {
    fn new(owner: &str) -> Kept {
        Kept {
            series: Series::new(owner),
            accepted: Accepted::default(),
        }
    }

    /// Puts a point that was found to be within the limits.
    fn put(&mut self, stored: Stored) {
        self.accepted = self.accepted.with(&stored.data).unwrap_or(self.accepted);
        self.series.frontier = stored.end;
        self.series.put(stored);
    }
}

/// What a batch would make of a series.
struct Planned {
    frontier: u64,
    /// None where a limit would be passed.
    accepted: Option<Accepted>,
}

impl Planned {
    /// As the series is, or would begin.
    fn new(kept: Option<&Kept>) -> Planned {
        Planned {
            frontier: kept.map_or(0, |kept| kept.series.frontier),
            accepted: Some(kept.map_or_else(Accepted::default, |kept| kept.accepted)),
        }
    }

    fn add(&mut self, point: usize, stored: &Stored) -> Result<(), Refusal> {
        let frontier = self.frontier;
        if stored.start < frontier {
            return Err(Refusal::OutOfOrder { point, frontier });
        }
        self.frontier = stored.end;
        self.accepted = self.accepted.and_then(|accepted| accepted.with(&stored.data));
        Ok(())
    }
}

#[derive(Default)]
pub struct Store {
    all: HashMap<Identity, Kept>,
    quarantined: HashSet<String>,
    flushes: u64,
}

impl Store {
    /// Takes all points of a batch, or none.
    pub fn admit(&mut self, sender: &str, points: Vec<Point>) -> Result<(), Refusal> {
        if self.quarantined.contains(sender) {
            return Err(Refusal::Quarantined);
        }
        self.check(sender, &points)?;
        for Point { series, stored } in points {
            let kept = self.all.entry(series).or_insert_with(|| Kept::new(sender));
            kept.put(stored);
        }
        Ok(())
    }

    fn check(&self, sender: &str, points: &[Point]) -> Result<(), Refusal> {
        let mut planned: HashMap<&Identity, Planned> = HashMap::new();
        let mut fresh = 0;
        for (point, Point { series, stored }) in points.iter().enumerate() {
            let plan = match planned.entry(series) {
                Entry::Occupied(entry) => entry.into_mut(),
                Entry::Vacant(entry) => {
                    let kept = self.all.get(series);
                    if kept.is_some_and(|kept| kept.series.owner != sender) {
                        return Err(Refusal::OtherWriter { point });
                    }
                    fresh += usize::from(kept.is_none());
                    entry.insert(Planned::new(kept))
                }
            };
            plan.add(point, stored)?;
        }
        if self.all.len() + fresh > MAX_SERIES {
            return Err(Refusal::TooManySeries);
        }
        match planned.values().all(|plan| plan.accepted.is_some()) {
            true => Ok(()),
            false => Err(Refusal::TooLarge),
        }
    }

    pub fn quarantine(&mut self, sender: &str) -> Result<(), Refusal> {
        if self.quarantined.contains(sender) {
            return Err(Refusal::AlreadyQuarantined);
        }
        if self.quarantined.len() >= MAX_QUARANTINED {
            return Err(Refusal::Full);
        }
        self.quarantined.insert(sender.to_owned());
        Ok(())
    }

    pub fn lift(&mut self, sender: &str) -> Result<(), Refusal> {
        match self.quarantined.remove(sender) {
            true => Ok(()),
            false => Err(Refusal::NotQuarantined),
        }
    }

    /// Takes what is stored of so many series whose owners are not quarantined; with the flush's number, where there is
    /// any.
    pub fn take(&mut self, most: usize) -> Option<(u64, Vec<Taken>)> {
        let free = self
            .all
            .iter_mut()
            .filter(|(_, kept)| !self.quarantined.contains(&kept.series.owner));
        let taken = series::take(free.map(|(identity, kept)| (identity, &mut kept.series)), most);
        if taken.is_empty() {
            return None;
        }
        self.flushes += 1;
        Some((self.flushes, taken))
    }

    pub fn settle(&mut self, taken: &[Taken]) {
        for Taken { series, .. } in taken {
            if let Some(kept) = self.all.get_mut(series) {
                kept.series.acknowledged += 1;
            }
        }
    }

    pub fn give_back(&mut self, taken: Vec<Taken>) {
        for Taken { series, stored } in taken {
            if let Some(kept) = self.all.get_mut(&series) {
                kept.series.put(stored);
            }
        }
    }

    /// A line for each series.
    pub fn report(&self) -> String {
        self.all
            .iter()
            .map(|(identity, kept)| kept.series.line(identity))
            .collect()
    }
}
