//! The outbox in memory: some bytes for each series and each group, and nothing for a single waiting request.
//!
//! `written` applies a change after its record is in the segment, and `reading` applies the same change at a start, so
//! both arrive at the same state.

use super::changes::{Change, Group, UnitOfMetric};
use super::epochs::Epochs;
use super::snapshot::Snapshot;
use super::table::{whole_seconds, Heard, KnownSeries, Table};
use super::{Recent, Series, Waiting};
use crate::otlp::series::{Digest, SeriesKey};
use crate::runs::{Forgotten, Since};
use crate::storage::{nanoseconds, seconds};
use serde::{Deserialize, Serialize};
use std::collections::{BTreeSet, HashSet, VecDeque};
use std::sync::Arc;
use std::time::Duration;

/// A minimum age.
#[derive(Clone, Copy)]
pub struct Age {
    /// Before this time, in seconds since 1970.
    pub before: u64,
    /// And this long ago by a clock that is never set, if it happened in this run.
    pub age: Duration,
}

impl Age {
    pub fn from_now(age: Duration) -> Age {
        Age { before: seconds().saturating_sub(age.as_secs()), age }
    }
}

impl Table {
    /// The ids of the series that may be forgotten, except those in `keep`.
    pub fn old(&self, age: Age, keep: &HashSet<Digest>) -> impl Iterator<Item = u32> + '_ {
        let keep: HashSet<u32> = keep.iter().filter_map(|digest| self.id_of(digest)).collect();
        let old = self.iter().filter(move |(id, known)| known.may_be_forgotten(age) && !keep.contains(id));
        old.map(|(id, _)| id)
    }
}

impl KnownSeries {
    /// A series that ends ahead of the clock stays: otherwise runs of it that begin before its end would never count.
    fn may_be_forgotten(&self, age: Age) -> bool {
        u64::from(self.series.seen) < age.before
            && self.series.frontier / 1_000_000_000 < age.before
            && self.heard.is_so_long_ago(age.age)
    }
}

/// Consecutive waiting requests of one group.
#[derive(Clone, Debug)]
pub struct Batch {
    pub first: u64,
    pub count: u64,
    pub epoch: Arc<str>,
    pub since: u64,
    pub segment: u64,
    /// The offset of the first record, and the end of the last one.
    pub at: u64,
    pub end: u64,
}

impl Batch {
    pub fn front(&self) -> Front {
        let waiting = Waiting { number: self.first, since: self.since };
        Front { waiting, segment: self.segment, at: self.at }
    }

    /// Removes the first `count` requests; the next record begins at `at`.
    pub fn pass(&mut self, count: u64, at: u64) {
        (self.first, self.count, self.at) = (self.first + count, self.count - count, at);
    }
}

/// The position of the first waiting request.
#[derive(Clone, Debug)]
pub struct Front {
    pub waiting: Waiting,
    pub segment: u64,
    pub at: u64,
}

/// Everything known except series and requests.
#[derive(Clone, Default, Serialize, Deserialize)]
pub struct Facts {
    /// The epoch of future groups, which each start sets.
    #[serde(skip)]
    pub epoch: Arc<str>,
    pub next: u64,
    /// The sink has all requests up to this number.
    pub acknowledged: u64,
    pub journal: u64,
    pub quarantined: BTreeSet<String>,
    pub beside: BTreeSet<UnitOfMetric>,
    pub since: Since,
    pub forgotten: Forgotten,
    pub epochs: Epochs,
}

#[derive(Default)]
pub struct State {
    pub facts: Facts,
    pub series: Table,
    pub batches: VecDeque<Batch>,
    /// The bytes of the waiting requests on disk.
    pub bytes: u64,
}

impl State {
    pub fn new(epoch: &str) -> State {
        let since = Since { made: nanoseconds(), forgotten: 0 };
        let facts = Facts { epoch: epoch.into(), next: 1, journal: 1, since, ..Facts::default() };
        State { facts, ..State::default() }
    }

    pub fn epoch(&self) -> &str {
        self.batches.front().map_or(&self.facts.epoch, |batch| &batch.epoch)
    }

    pub fn front(&self) -> Option<Front> {
        self.batches.front().map(Batch::front)
    }

    /// The first batches that all have the epoch of the first request.
    pub fn of_one_epoch(&self, most: usize) -> Vec<Batch> {
        let those = self.batches.iter().take_while(|batch| *batch.epoch == *self.epoch());
        those.take(most).cloned().collect()
    }

    /// Renumbers the series first, so that they have the ids that the snapshot gives them.
    pub fn snapshot(&mut self) -> Snapshot {
        self.series.renumber();
        let known = self.series.iter().map(|(_, known)| known.series.clone());
        Snapshot { facts: self.facts.clone(), series: known.collect(), texts: self.series.texts() }
    }

    pub fn wait(&mut self, batch: Batch) {
        self.bytes += batch.end - batch.at;
        self.batches.push_back(batch);
    }

    pub fn apply(&mut self, change: Change) {
        match change {
            Change::Group { group, count, segment, items } => {
                self.facts.journal = group.journal;
                self.facts.next = group.first + count;
                if count > 0 {
                    let (first, epoch, since) = (group.first, group.epoch.clone(), group.since);
                    self.wait(Batch { first, count, epoch, since, segment, at: items.start, end: items.end });
                }
                self.advance(*group);
            }
            Change::Acknowledge { number, length } => self.acknowledge(number, length),
            Change::Quarantine(sender) => drop(self.facts.quarantined.insert(sender)),
            Change::Lift(sender) => drop(self.facts.quarantined.remove(&sender)),
            Change::Forget(ids) => self.forget_series(&ids),
            Change::Beside(units) => self.facts.beside.extend(units),
        }
    }

    fn forget_series(&mut self, ids: &[u32]) {
        let ends = self.series.forget_series(ids);
        self.facts.forgotten.note(ends, &mut self.facts.since);
    }

    /// The caller has to write a snapshot next, since no record has this change. Runs keep the values they have
    /// reached, so a run's next point adds only what is new.
    pub fn put_back(&mut self, series: &[SeriesKey], to: u64) {
        let ids: Vec<u32> = series.iter().filter_map(|key| self.series.id(key)).collect();
        for id in ids {
            let Some(KnownSeries { series, .. }) = self.series.at_mut(id) else {
                continue;
            };
            if to < series.frontier {
                series.frontier = to;
                series.recent = Recent::default(); // so that the same points may be posted again
            }
            if let Some(run) = &mut series.run {
                let last = &mut Arc::make_mut(run).last;
                last.time = last.time.min(to);
            }
        }
    }

    /// The caller has to write a snapshot next, since no record has this change.
    pub fn adopt(&mut self, series: Vec<(SeriesKey, Series)>) {
        for (key, mut series) in series {
            series.owner = series.owner.map(|owner| self.series.shared(&owner));
            self.series.put(key, KnownSeries { series, heard: Heard::default() });
        }
    }

    fn advance(&mut self, group: Group) {
        let (seen, heard) = (whole_seconds(group.since), group.heard);
        let new = group.owners.into_iter().map(|owner| {
            let (frontier, run, recent) = (0, None, Recent::default());
            let owner = owner.map(|owner| self.series.shared(&owner));
            KnownSeries { series: Series { frontier, owner, seen, run, recent }, heard }
        });
        let new: Vec<KnownSeries> = new.collect();
        self.series.put_all(&group.new, new);
        for end in group.ends {
            let Some(known) = self.series.at_mut(end.id) else {
                continue;
            };
            known.series.frontier = known.series.frontier.max(end.end);
            known.series.seen = seen;
            known.heard = heard;
            if end.run.is_some() {
                known.series.run = end.run;
            }
        }
        for (id, recent) in group.recent {
            if let Some(KnownSeries { series, .. }) = self.series.at_mut(id) {
                series.recent = series.recent.then(recent);
            }
        }
        if let Some(renamed) = group.renamed {
            self.series.rename_owner(&renamed);
        }
    }

    fn acknowledge(&mut self, number: u64, length: u64) {
        self.facts.acknowledged = number;
        let Some(batch) = self.batches.front_mut() else {
            return;
        };
        if batch.count == 1 {
            self.bytes -= batch.end - batch.at;
            self.batches.pop_front();
        } else {
            self.bytes -= length;
            batch.pass(1, batch.at + length);
        }
    }
}
