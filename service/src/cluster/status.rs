//! The status of an instance among others, for `/status` and metrics.

use super::owners::Refusal;
use crate::command::values::seconds_shown;
use std::collections::{BTreeMap, BTreeSet};
use std::time::Duration;
use tokio::time::Instant;

#[derive(Clone, Debug, Default, PartialEq, Eq)]
pub struct Status {
    /// This instance's name.
    pub name: String,
    /// All other instances that the store knows, by name.
    pub others: Vec<OtherInstance>,
    /// All shards of the store, ascending.
    pub shards: Vec<OwnedShard>,
    /// How many of them no instance serves, as far as is known.
    pub without_owner: usize,
    /// How long the shard that has been without an owner for longest has been so.
    pub longest_without_owner: Duration,
    /// The term of each shard of this instance.
    pub terms: BTreeMap<u16, u64>,
    /// The time since the last committed heartbeat was sent; none before the first.
    pub beat_age: Option<Duration>,
    /// Why the store's commits are on too few servers.
    pub few_copies: Option<String>,
    /// How many microseconds the clock is ahead, if that is so much that the instance may own no shards; below 0 if it
    /// is behind.
    pub clock_off: Option<i64>,
    /// Most of the other instances can't reach it, so it may own no shards.
    pub is_cut_off: bool,
    /// An owner that other instances reach and this one does not.
    pub missed_owner: Option<String>,
    /// Another process uses this name.
    pub has_namesake: bool,
    /// Shards that some instances could not open; another instance owns them, or none.
    pub refused: Vec<Refusal>,
    pub counted: Counted,
}

impl Status {
    /// The number of instances that are alive, this one included.
    pub fn instances(&self) -> usize {
        1 + self.others.iter().filter(|other| !other.is_gone).count()
    }
}

/// The difference of a clock, in words.
pub fn shown_off(ahead: i64) -> String {
    let way = if ahead < 0 { "behind" } else { "ahead of" };
    let time = seconds_shown(ahead.unsigned_abs() / 1_000_000);
    format!("this instance's clock is {time} {way} those of the others and the store")
}

/// Another instance, as seen by this one's heartbeats.
#[derive(Clone, Debug, Default, PartialEq, Eq)]
pub struct OtherInstance {
    pub name: String,
    /// The last address that it had.
    pub address: String,
    /// Where operators on other machines connect; empty if they can't.
    pub operate: String,
    pub version: String,
    /// For how many of our heartbeats its own has not changed.
    pub still: u32,
    /// Its heartbeat has not changed for so long that its shards are taken.
    pub is_gone: bool,
    /// It hands over its shards.
    pub leaves: bool,
}

/// A shard's row in the store.
#[derive(Clone, Debug, PartialEq, Eq)]
pub struct OwnedShard {
    pub shard: u16,
    pub term: u64,
    /// Empty if no instance owns the shard.
    pub owner: String,
    /// Whether the owner is alive and serves it, as far as is known.
    pub is_served: bool,
}

/// Since when shards have been served by no instance.
#[derive(Default)]
pub(super) struct UnservedShards {
    since: BTreeMap<u16, Instant>,
    /// Shards of this instance whose books are still recovering.
    pub filling: BTreeSet<u16>,
}

impl UnservedShards {
    pub fn note(&mut self, shards: &[OwnedShard], now: Instant) {
        let is_unserved = |shard: &&OwnedShard| !shard.is_served || self.filling.contains(&shard.shard);
        let since = |shard: &OwnedShard| (shard.shard, self.since.get(&shard.shard).copied().unwrap_or(now));
        self.since = shards.iter().filter(is_unserved).map(since).collect();
    }

    pub fn count(&self) -> usize {
        self.since.len()
    }

    pub fn longest(&self, now: Instant) -> Duration {
        let since = self.since.values().min();
        since.map_or(Duration::ZERO, |since| now.saturating_duration_since(*since))
    }
}

/// Counters since the start.
#[derive(Clone, Copy, Debug, Default, PartialEq, Eq)]
pub struct Counted {
    pub takeovers: u64,
    pub hand_overs: u64,
    /// Shards that another instance took while they were open here.
    pub lost: u64,
}

#[cfg(test)]
mod tests {
    use super::*;

    #[test]
    fn a_shard_is_without_an_owner_since_it_was_first_seen_so() {
        let shards = |served: &[bool]| -> Vec<OwnedShard> {
            let shards = (0..).zip(served).map(|(shard, is_served)| OwnedShard {
                shard,
                term: 1,
                owner: "a".into(),
                is_served: *is_served,
            });
            shards.collect()
        };
        let (mut unserved, began) = (UnservedShards::default(), Instant::now());
        let at = |seconds| began + Duration::from_secs(seconds);
        let longest = |unserved: &UnservedShards, seconds| unserved.longest(at(seconds)).as_secs();
        unserved.note(&shards(&[true, true, true]), at(0));
        assert_eq!((unserved.count(), longest(&unserved, 9)), (0, 0));
        unserved.note(&shards(&[true, false, true]), at(10));
        unserved.note(&shards(&[true, false, false]), at(20));
        assert_eq!((unserved.count(), longest(&unserved, 25)), (2, 15));
        // Another shard each time, as in a series of hand-overs.
        unserved.note(&shards(&[true, true, false]), at(30));
        assert_eq!((unserved.count(), longest(&unserved, 31)), (1, 11));
        unserved.note(&shards(&[false, true, true]), at(40));
        assert_eq!(longest(&unserved, 41), 1);
        // The shard is open, and its journal is being read.
        unserved.filling = [0].into();
        unserved.note(&shards(&[true, true, true]), at(50));
        assert_eq!((unserved.count(), longest(&unserved, 75)), (1, 35));
        unserved.filling.clear();
        unserved.note(&shards(&[true, true, true]), at(80));
        assert_eq!(unserved.count(), 0);
    }
}
