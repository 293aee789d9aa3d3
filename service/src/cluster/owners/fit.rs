//! Whether this instance may own shards: not while it is stopping, nor while its clock is wrong and another's is right,
//! nor while most of the others can't reach it.

use super::cut_off::Reached;
use super::Owners;
use crate::cluster::terms::{Eligibility, InstanceReport};
use std::collections::BTreeSet;

impl Owners {
    /// From now on each shard belongs elsewhere.
    pub fn leave(&mut self) {
        self.ends = true;
    }

    pub fn leaves(&self) -> bool {
        self.ends
    }

    /// How many microseconds the clock is ahead, if it is too far off; below 0 if it is behind.
    pub fn clock_off(&self) -> Option<i64> {
        self.clock.off()
    }

    /// Whether it may own no shards because of its clock: another instance that stays has a right clock. A single
    /// instance goes on.
    pub fn leaves_for_clock(&self) -> bool {
        let is_right = |told: &InstanceReport| told.clock.is_some_and(|clock| self.clock.is_right(clock));
        self.clock_off().is_some() && self.others.staying().any(|(_, told)| is_right(told))
    }

    /// Sets which other instances it can reach now; none while that is unknown.
    pub fn has_reached(&mut self, reached: Option<BTreeSet<String>>) {
        self.cut_off.has_reached(reached);
    }

    /// Whether most of the others can't reach this instance, so that it may own no shards.
    pub fn is_cut_off(&self) -> bool {
        self.cut_off.is_cut_off(&self.me)
    }

    /// An owner that this instance can't reach, although it is alive and not cut off.
    pub fn missed_owner(&self) -> Option<&str> {
        let owners = self.rows.iter().map(|row| row.owner.as_str());
        owners.into_iter().find(|owner| self.cut_off.is_missed(owner))
    }

    /// Whether posts should go to another instance: one that is up to date and reaches all owners, itself included.
    pub fn misses_owner(&self) -> bool {
        let reaches_all = |name: &str, reached: &BTreeSet<String>| {
            let owners = self.rows.iter().map(|row| row.owner.as_str());
            let mut owners = owners.filter(|owner| !owner.is_empty() && !self.others.is_gone(owner));
            owners.all(|owner| owner == name || reached.contains(owner))
        };
        self.missed_owner().is_some()
            && self.others.reached().any(|(name, reached)| reached.is_some_and(|one| reaches_all(name, one)))
    }

    /// Whether it may own shards.
    pub(super) fn is_place_of_any(&self) -> bool {
        self.stay() == Eligibility::Here && !self.is_cut_off()
    }

    /// What the others are told about that; they find by themselves which instances are cut off.
    pub(super) fn stay(&self) -> Eligibility {
        match self.ends || self.leaves_for_clock() {
            true => Eligibility::Leaves,
            false => Eligibility::Here,
        }
    }

    pub(super) fn note_reached(&mut self) {
        let (is_here, own) = (self.stay() == Eligibility::Here, self.cut_off.reached().cloned());
        let mut all: Reached = self.others.reached().collect();
        if is_here {
            all.insert(&self.me, own.as_ref());
        }
        self.cut_off.note(&self.me, &all);
    }
}
