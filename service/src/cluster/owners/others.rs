//! The other instances, and whether they are alive, counted in our own heartbeats.

use super::{AFTER_SILENCE, FORGOTTEN, GONE};
use crate::cluster::status::OtherInstance;
use crate::cluster::terms::{Instance, InstanceReport, Seen};
use std::collections::{BTreeMap, BTreeSet};

/// How many heartbeats must lie between two silences after which the others get more time.
const BETWEEN_SILENCES: u32 = 40;
/// An instance whose heartbeat stood still for fewer heartbeats than this counts as up to date.
const LATELY: u32 = GONE / 2;

#[derive(Default)]
struct Other {
    beat: Option<u64>,
    told: InstanceReport,
    /// `address` is the last one that it had: while it leaves it has none, but may still own shards.
    shown: OtherInstance,
}

impl Other {
    /// Takes what was read of an instance after `own_beats` heartbeats that count; an owner may have no row.
    fn note(&mut self, read: Option<&Instance>, own_beats: u32) {
        let beat = read.map(|read| read.beat);
        let address = read.map_or("", |read| read.address.as_str());
        let shown = &mut self.shown;
        shown.still = match self.beat == beat {
            true => shown.still.saturating_add(own_beats),
            false => 0,
        };
        shown.is_gone = shown.still >= GONE;
        shown.leaves = address.is_empty();
        if !shown.leaves {
            shown.address = address.into();
        }
        shown.version = read.map(|read| read.version.clone()).unwrap_or_default();
        shown.operate = read.map(|read| read.operate.clone()).unwrap_or_default();
        self.told = read.map(|read| read.told.clone()).unwrap_or_default();
        self.beat = beat;
    }
}

pub(super) struct Others {
    me: String,
    by_name: BTreeMap<String, Other>,
    /// For how many more heartbeats unchanged heartbeats of others don't count.
    uncounted: u32,
    /// Heartbeats since the last silence after which the others got more time.
    since_silence: u32,
}

impl Others {
    pub fn of(me: &str) -> Others {
        Others { me: me.into(), by_name: BTreeMap::new(), uncounted: 0, since_silence: BETWEEN_SILENCES }
    }

    /// Takes what was read after a heartbeat.
    pub fn note(&mut self, seen: &Seen) {
        // An owner without a row sends no heartbeats, whoever deleted the row.
        let owners = seen.shards.iter().map(|row| (row.owner.as_str(), None));
        let mut there: BTreeMap<&str, Option<&Instance>> = owners.collect();
        there.extend(seen.instances.iter().map(|one| (one.name.as_str(), Some(one))));
        there.retain(|name, _| !name.is_empty() && *name != self.me);
        self.since_silence = self.since_silence.saturating_add(1);
        let own_beats = u32::from(self.uncounted == 0);
        self.uncounted = self.uncounted.saturating_sub(1);
        self.by_name.retain(|name, _| there.contains_key(name.as_str()));
        for (name, read) in there {
            let other = self.by_name.entry(name.into()).or_default();
            other.shown.name = name.into();
            other.note(read, own_beats);
        }
    }

    /// The store was silent, and others may have to wait for it longer than we do. Not again soon: otherwise an
    /// instance whose own connection breaks all the time would never see that another one is gone.
    pub fn wait(&mut self) {
        if self.since_silence < BETWEEN_SILENCES {
            return;
        }
        self.since_silence = 0;
        self.uncounted = AFTER_SILENCE;
        let others = self.by_name.values_mut().map(|other| &mut other.shown);
        others.filter(|other| !other.is_gone).for_each(|other| other.still = 0);
    }

    pub fn is_gone(&self, name: &str) -> bool {
        self.by_name.get(name).is_some_and(|other| other.shown.is_gone)
    }

    /// The instances that have been gone for long, and their last heartbeats.
    pub fn forgotten(&self) -> impl Iterator<Item = (&str, u64)> {
        let gone = self.by_name.iter().filter(|(_, other)| other.shown.still >= FORGOTTEN);
        gone.filter_map(|(name, other)| Some((name.as_str(), other.beat?)))
    }

    /// The instances that may own shards, and what they told last.
    pub fn staying(&self) -> impl Iterator<Item = (&str, &InstanceReport)> {
        let stays = |other: &Other| !other.shown.is_gone && !other.shown.leaves;
        let others = self.by_name.iter().filter(move |(_, other)| stays(other));
        others.map(|(name, other)| (name.as_str(), &other.told))
    }

    /// How far the clocks of live instances are ahead of the store's.
    pub fn clocks(&self) -> impl Iterator<Item = i64> + '_ {
        self.by_name.values().filter(|other| !other.shown.is_gone).filter_map(|other| other.told.clock)
    }

    /// Which instances each of those that may own shards can reach; none for one whose heartbeat is not up to date.
    pub fn reached(&self) -> impl Iterator<Item = (&str, Option<&BTreeSet<String>>)> {
        let is_of_now = |name: &str| self.by_name[name].shown.still < LATELY;
        self.staying().map(move |(name, told)| (name, told.reached.as_ref().filter(|_| is_of_now(name))))
    }

    /// Each instance as the status shows it.
    pub fn shown(&self) -> impl Iterator<Item = OtherInstance> + '_ {
        self.by_name.values().map(|other| other.shown.clone())
    }

    /// The address for posts, if it is known.
    pub fn address(&self, name: &str) -> Option<&str> {
        let address = &self.by_name.get(name)?.shown.address;
        (!address.is_empty()).then_some(address)
    }
}
