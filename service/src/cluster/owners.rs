//! Decides which shards this instance takes, hands over, or has lost. `beats` calls it with each heartbeat and carries
//! out its steps. Only what heartbeats read counts, and no clock: a store that stalls for a minute moves no shard.
//!
//! Safety never depends on these decisions: it rests on the term in the shard's row, and of two instances that take the
//! same shard only one succeeds.

mod clock;
mod cut_off;
mod fit;
mod namesake;
mod others;
mod refused;
mod shown;
mod step;

pub use refused::Refusal;
pub use step::{ShardAction, ShardOwner, Step};

use super::placement::places;
use super::terms::{Eligibility, InstanceReport, Refused, Row, Seen};
use clock::OwnClock;
use cut_off::CutOff;
use namesake::Namesake;
use others::Others;
use refused::Refusals;
use std::collections::BTreeMap;
use std::time::Duration;

/// An instance counts as gone if its heartbeat stays the same during this many of ours.
pub const GONE: u32 = 6;
/// How many more after the store was silent: connections are made anew, and some instances get theirs sooner than
/// others.
pub const AFTER_SILENCE: u32 = 14;
/// For how many heartbeats a shard must belong elsewhere before it is handed over.
pub const SETTLED: u32 = 20;
/// How many heartbeats later, a day, the row of an instance that is gone is deleted. If the instance comes back, its
/// first heartbeat writes everything again; others read the row only to see whether it is alive, and where.
pub const FORGOTTEN: u32 = if cfg!(test) { 120 } else { 2 * 24 * 3600 };
/// How many shards are taken or opened at the same time: each replays its journal.
const AT_ONCE: usize = 4;

#[derive(Clone, Copy, Debug, PartialEq, Eq)]
enum Phase {
    Taking,
    Opening,
    Serving,
    Closing,
}

struct OwnShard {
    /// While it is being taken, the term that was seen.
    term: u64,
    phase: Phase,
    /// For how many heartbeats the shard has belonged elsewhere.
    elsewhere: u32,
}

/// A shard that was handed over, until another instance takes it.
struct HandedOver {
    shard: u16,
    term: u64,
    beats: u32,
    is_released: bool,
}

pub struct Owners {
    me: String,
    /// The process is stopping, and hands over its shards.
    ends: bool,
    clock: OwnClock,
    cut_off: CutOff,
    others: Others,
    /// The instances that may own shards, each with the shards it can't open; and where each shard belongs.
    living: BTreeMap<String, Refused>,
    places: BTreeMap<u16, Option<String>>,
    rows: Vec<Row>,
    mine: BTreeMap<u16, OwnShard>,
    refusals: Refusals,
    handed: Option<HandedOver>,
    namesake: Namesake,
}

impl Owners {
    /// `clock` is how far this instance's clock may be off, if that matters.
    pub fn new(me: &str, clock: Option<Duration>) -> Owners {
        Owners {
            me: me.into(),
            ends: false,
            clock: OwnClock::of(clock),
            cut_off: CutOff::default(),
            others: Others::of(me),
            living: BTreeMap::new(),
            places: BTreeMap::new(),
            rows: Vec::new(),
            mine: BTreeMap::new(),
            refusals: Refusals::default(),
            handed: None,
            namesake: Namesake::default(),
        }
    }

    /// What this instance tells the others with a heartbeat.
    pub fn told(&self) -> (Eligibility, InstanceReport) {
        (
            self.stay(),
            InstanceReport {
                refused: self.refusals.told(),
                clock: self.clock.now(),
                reached: self.cut_off.reached().cloned(),
            },
        )
    }

    /// Whether this instance owns no shards and has no steps left.
    pub fn has_drained(&self) -> bool {
        self.mine.is_empty() && self.rows.iter().all(|row| row.owner != self.me)
    }

    /// Whether another process uses this instance's name.
    pub fn has_namesake(&self) -> bool {
        self.namesake.is_there()
    }

    /// Whether that process had the name before, so that this one has to end.
    pub fn came_later(&self) -> bool {
        self.namesake.came_later()
    }

    /// An instance that has been gone for so long that its row is deleted, and its last heartbeat. The row stays while
    /// a shard has its name, since the status shows the owner.
    pub fn forgotten(&self) -> Option<(String, u64)> {
        let is_owner = |name: &str| self.rows.iter().any(|row| row.owner == name);
        let (name, beat) = self.others.forgotten().find(|(name, _)| !is_owner(name))?;
        Some((name.into(), beat))
    }

    /// The shards that are open here, or being opened or closed, and their terms.
    pub fn terms(&self) -> BTreeMap<u16, u64> {
        let owned = self.mine.iter().filter(|(_, mine)| mine.phase != Phase::Taking);
        owned.map(|(shard, mine)| (*shard, mine.term)).collect()
    }

    /// The owners of all shards in the store.
    pub fn whose(&self) -> BTreeMap<u16, ShardOwner> {
        self.rows.iter().map(|row| (row.shard, self.whose_is(row))).collect()
    }

    fn whose_is(&self, row: &Row) -> ShardOwner {
        match (self.mine.get(&row.shard), self.others.address(&row.owner)) {
            (Some(mine), _) if mine.phase == Phase::Serving && mine.term >= row.term => {
                ShardOwner::Here { term: mine.term }
            }
            (_, Some(address)) => {
                ShardOwner::There { name: row.owner.clone(), address: address.into(), term: row.term }
            }
            _ => ShardOwner::Nobody,
        }
    }

    // ----------------------------------------------------------------------------------------------------------------
    // Heartbeats

    /// A heartbeat got no answer.
    pub fn unanswered(&mut self) {
        self.others.wait();
    }

    /// A heartbeat got its answer late.
    pub fn late(&mut self) {
        self.others.wait();
    }

    /// Rows that were read without a heartbeat; they cause no steps.
    pub fn look(&mut self, rows: Vec<Row>) {
        self.rows = rows;
    }

    /// Takes what was read after a committed heartbeat, and returns the steps to take now.
    pub fn heartbeat(&mut self, seen: Seen) -> Vec<Step> {
        if let Some(own) = seen.instances.iter().find(|one| one.name == self.me) {
            self.namesake.note(own, seen.life);
        }
        self.others.note(&seen);
        self.clock.note(seen.clock, self.others.clocks());
        self.note_reached();
        self.rows = seen.shards;
        self.note_living();
        let mut steps = self.drop_lost();
        self.note_places();
        self.note_handed();
        steps.extend(self.hand_over());
        steps.extend(self.take());
        steps
    }

    /// Assigns the shards again if an instance came or went, or can't open a shard.
    fn note_living(&mut self) {
        let others = self.others.staying().filter(|(name, _)| !self.cut_off.is_cut_off(name));
        let mut living: BTreeMap<String, Refused> =
            others.map(|(name, told)| (name.into(), told.refused.clone())).collect();
        let may_another = |shard| living.values().any(|refused| !refused.contains_key(&shard));
        self.refusals.heartbeat(may_another);
        if self.is_place_of_any() {
            living.insert(self.me.clone(), self.refusals.told());
        }
        if living == self.living && self.places.len() == self.rows.len() {
            return;
        }
        let shards: Vec<u16> = self.rows.iter().map(|row| row.shard).collect();
        let names: Vec<&str> = living.keys().map(String::as_str).collect();
        let places = places(&shards, &names, |shard, name| !living[name].contains_key(&shard));
        let kept = places.into_iter().map(|(shard, place)| (shard, place.map(String::from)));
        self.places = kept.collect();
        self.living = living;
    }

    fn is_place(&self, shard: u16) -> bool {
        self.places.get(&shard).is_some_and(|place| place.as_ref() == Some(&self.me))
    }

    fn drop_lost(&mut self) -> Vec<Step> {
        // After a store was restored, another instance may have the same term.
        let is_anothers = |row: &Row, term: u64| row.term > term || row.term == term && row.owner != self.me;
        let is_later =
            |shard: u16, term: u64| self.rows.iter().any(|row| row.shard == shard && is_anothers(row, term));
        // While a shard is being opened or closed, its own calls find this out.
        let is_lost =
            |shard: &u16, mine: &mut OwnShard| mine.phase == Phase::Serving && is_later(*shard, mine.term);
        let lost = self.mine.extract_if(.., is_lost);
        lost.map(|(shard, mine)| Step { act: ShardAction::Drop, shard, term: mine.term }).collect()
    }

    fn note_places(&mut self) {
        for (shard, mine) in &mut self.mine {
            let is_here = self.places.get(shard).is_some_and(|place| place.as_ref() == Some(&self.me));
            mine.elsewhere = if is_here { 0 } else { mine.elsewhere.saturating_add(1) };
        }
    }

    /// Forgets the shard that was handed over after another instance has taken it, or if none does.
    fn note_handed(&mut self) {
        let leaves = !self.is_place_of_any();
        let Some(handed) = &mut self.handed else { return };
        handed.beats += 1;
        let is_taken = |row: &Row| row.shard == handed.shard && row.term > handed.term;
        let waits_no_more = handed.beats > SETTLED || leaves;
        if handed.is_released && (waits_no_more || self.rows.iter().any(is_taken)) {
            self.handed = None;
        }
    }

    /// Hands over one shard, unless a hand-over is in progress.
    fn hand_over(&mut self) -> Option<Step> {
        if self.handed.is_some() {
            return None;
        }
        let patience = if self.is_place_of_any() { SETTLED } else { 1 };
        let is_due = |mine: &OwnShard| mine.phase == Phase::Serving && mine.elsewhere >= patience;
        let (shard, mine) = self.mine.iter_mut().find(|(_, mine)| is_due(mine))?;
        mine.phase = Phase::Closing;
        self.handed = Some(HandedOver { shard: *shard, term: mine.term, beats: 0, is_released: false });
        Some(Step { act: ShardAction::HandOver, shard: *shard, term: mine.term })
    }

    // ----------------------------------------------------------------------------------------------------------------
    // Takeovers

    fn take(&mut self) -> Vec<Step> {
        if self.namesake.may_own() {
            return Vec::new();
        }
        let rows = std::mem::take(&mut self.rows);
        let mut steps = Vec::new();
        for row in &rows {
            if !self.mine.contains_key(&row.shard) {
                steps.extend(self.step_for(row));
            }
        }
        self.rows = rows;
        steps
    }

    /// The step for a shard that is not open here. If it has this instance's name, an earlier process had it, or a
    /// takeover got no answer, or it failed.
    fn step_for(&mut self, row: &Row) -> Option<Step> {
        let owner = row.owner.as_str();
        let is_ours = owner.is_empty() || owner == self.me;
        if !(is_ours || self.others.is_gone(owner) || self.cut_off.is_left(owner)) {
            return None;
        }
        let shard = row.shard;
        if !self.is_place(shard) {
            let is_mine = row.owner == self.me;
            return is_mine.then_some(Step { act: ShardAction::Release, shard, term: row.term });
        }
        let begun = self.mine.values().filter(|mine| matches!(mine.phase, Phase::Taking | Phase::Opening));
        if begun.count() >= AT_ONCE {
            return None;
        }
        self.mine.insert(shard, OwnShard { term: row.term, phase: Phase::Taking, elsewhere: 0 });
        Some(Step { act: ShardAction::Take, shard, term: row.term })
    }

    // ----------------------------------------------------------------------------------------------------------------
    // Results of steps

    /// The result of a takeover: its term, or none if another instance was first or the outcome is unknown.
    pub fn taken(&mut self, shard: u16, term: Option<u64>) {
        match (term, self.mine.get_mut(&shard)) {
            (Some(term), Some(mine)) if mine.phase == Phase::Taking => {
                (mine.term, mine.phase) = (term, Phase::Opening);
            }
            _ => {
                self.mine.remove(&shard);
            }
        }
    }

    /// The shard is served now. False if it was lost in the meantime.
    pub fn opened(&mut self, shard: u16, term: u64) -> bool {
        match self.mine.get_mut(&shard) {
            Some(mine) if mine.term == term && mine.phase == Phase::Opening => {
                mine.phase = Phase::Serving;
                self.refusals.opened(shard);
                true
            }
            _ => false,
        }
    }

    /// The shard could not be opened, or ended because of a fault: the next heartbeat releases it, so that another
    /// instance can try. False if no other instance may, so that this one tries again.
    pub fn failed(&mut self, shard: u16, term: u64, reason: &str) -> bool {
        if self.lost(shard, term) {
            self.refusals.failed(shard, reason);
        }
        self.others.staying().any(|(_, told)| !told.refused.contains_key(&shard))
    }

    /// The shard is no longer open here: its writer found another owner. False if it was not open under this term.
    pub fn lost(&mut self, shard: u16, term: u64) -> bool {
        let is_it = self.mine.get(&shard).is_some_and(|mine| mine.term == term);
        if is_it {
            self.mine.remove(&shard);
        }
        is_it
    }

    /// The shard was handed over, though the release may have an unknown outcome. A stopping instance hands over the
    /// next one at once.
    pub fn released(&mut self, shard: u16, term: u64) -> Option<Step> {
        self.lost(shard, term);
        if let Some(handed) = self.handed.as_mut().filter(|handed| handed.shard == shard) {
            handed.is_released = true;
        }
        if self.is_place_of_any() {
            return None;
        }
        self.note_handed();
        self.hand_over()
    }
}

#[cfg(test)]
mod tests;
