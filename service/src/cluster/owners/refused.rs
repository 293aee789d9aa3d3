//! Shards that could not be opened here. While another live instance may open such a shard, it belongs to that one and
//! does not bounce between them. If no instance is left, each tries again, at growing intervals.

use crate::cluster::terms::Refused;
use std::collections::BTreeMap;

/// After how many heartbeats a shard that no instance could open is tried again; doubled each time, up to `MOST`.
const AGAIN: u32 = 20;
const MOST: u32 = 120;
/// For how many heartbeats the tries of a shard are remembered after it was opened.
const REMEMBERED: u32 = 2 * MOST;

struct One {
    reason: String,
    tries: u32,
    /// In heartbeats.
    waits: u32,
    /// Until it is tried again.
    is_refused: bool,
}

/// The refusals of this instance.
#[derive(Default)]
pub(super) struct Refusals(BTreeMap<u16, One>);

/// What operators are told.
#[derive(Clone, Debug, PartialEq, Eq)]
pub struct Refusal {
    pub shard: u16,
    pub instance: String,
    pub reason: String,
}

impl Refusals {
    pub fn failed(&mut self, shard: u16, reason: &str) {
        let tries = self.0.get(&shard).map_or(1, |one| one.tries + 1);
        let one = One {
            reason: reason.into(),
            tries,
            waits: (AGAIN << (tries - 1).min(8)).min(MOST),
            is_refused: true,
        };
        self.0.insert(shard, one);
    }

    /// The shard is open, but may still fail while its book recovers.
    pub fn opened(&mut self, shard: u16) {
        if let Some(one) = self.0.get_mut(&shard) {
            one.is_tried();
        }
    }

    /// Counts a heartbeat, and allows another try of shards that no other instance may open.
    pub fn heartbeat(&mut self, may_another: impl Fn(u16) -> bool) {
        for (shard, one) in &mut self.0 {
            one.waits = one.waits.saturating_sub(1);
            if one.is_refused && one.waits == 0 && !may_another(*shard) {
                one.is_tried();
            }
        }
        self.0.retain(|_, one| one.is_refused || one.waits > 0);
    }

    /// The shards that are refused now, with the reasons.
    pub fn told(&self) -> Refused {
        let refused = self.0.iter().filter(|(_, one)| one.is_refused);
        refused.map(|(shard, one)| (*shard, one.reason.clone())).collect()
    }
}

impl One {
    fn is_tried(&mut self) {
        (self.is_refused, self.waits) = (false, REMEMBERED);
    }
}
