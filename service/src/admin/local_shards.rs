//! The shards that are open here, for operators.
//!
//! `service` puts a shard in when it is opened and removes it when it is closed, so `LocalShards` changes at any time; a
//! caller keeps a `LocalShard` by its own `Arc`.

use crate::dead_letters::DeadLetters;
use crate::otlp::series::SeriesKey;
use crate::otlp::Reason;
use crate::outbox::Outbox;
use crate::quota::Owned;
use crate::shard::{Phase, Shard};
use crate::sink::Attempts;
use crate::work::locked;
use crate::worker::Orders;
use std::collections::hash_map::DefaultHasher;
use std::collections::{BTreeMap, HashMap};
use std::hash::{Hash, Hasher};
use std::sync::atomic::{AtomicBool, Ordering::Relaxed};
use std::sync::{Arc, Mutex};
use std::time::Duration;

/// An open shard with what belongs to it.
pub struct LocalShard {
    pub shard: Arc<Shard>,
    pub orders: Orders,
    pub undelivered: Undelivered,
    pub dead: Arc<DeadLetters>,
}

impl LocalShard {
    /// Has the sink tried again now.
    pub fn retry_now(&self) {
        self.undelivered.delivery.retry_now();
    }
}

/// What a shard has for the sink.
pub struct Undelivered {
    pub number: u16,
    pub outbox: Arc<Outbox>,
    pub delivery: Arc<Attempts>,
}

/// The shards that are open here now, out of all.
pub struct LocalShards {
    shards: u16,
    here: Mutex<BTreeMap<u16, Arc<LocalShard>>>,
    /// Set once each book here had all of its journal.
    started: AtomicBool,
}

impl LocalShards {
    pub fn of(shards: u16) -> Arc<LocalShards> {
        Arc::new(LocalShards { shards, here: Mutex::default(), started: AtomicBool::new(false) })
    }

    pub fn put(&self, open_shard: Arc<LocalShard>) {
        locked(&self.here).insert(open_shard.shard.number(), open_shard);
    }

    /// Removes a shard. It goes on until the last holder drops it.
    pub fn remove(&self, shard: u16) -> Option<Arc<LocalShard>> {
        locked(&self.here).remove(&shard)
    }

    /// All shards here, by number.
    pub fn all(&self) -> Vec<Arc<LocalShard>> {
        locked(&self.here).values().cloned().collect()
    }

    /// Whether no shard is open here.
    pub fn is_empty(&self) -> bool {
        locked(&self.here).is_empty()
    }

    /// How many shards there are, here and elsewhere.
    pub fn shards(&self) -> u16 {
        self.shards
    }

    /// The shard, if it is open here.
    pub fn get(&self, shard: u16) -> Option<Arc<LocalShard>> {
        locked(&self.here).get(&shard).cloned()
    }

    /// Why posts of all shards here get 503. None if one takes posts, or if none is here.
    pub fn unavailable(&self) -> Option<Reason> {
        let reasons: Option<Vec<_>> =
            self.all().iter().map(|open_shard| open_shard.shard.unavailable()).collect();
        reasons?.first().copied()
    }

    /// Whether each book has all posts that were accepted.
    pub fn are_ready(&self) -> bool {
        self.all().iter().all(|open_shard| open_shard.shard.is_ready())
    }

    /// A shard whose book has not got all of its journal since the start. Once all have it, shards that are taken over
    /// later do not count.
    pub fn starting(&self) -> Option<Arc<LocalShard>> {
        let recovering = |open_shard: &Arc<LocalShard>| open_shard.shard.phase() == Phase::Recovering;
        let found = self.all().into_iter().find(recovering).filter(|_| !self.started.load(Relaxed));
        self.started.fetch_or(found.is_none(), Relaxed);
        found
    }

    pub fn sum(&self, of: impl Fn(&LocalShard) -> u64) -> u64 {
        self.all().iter().map(|open_shard| of(open_shard)).sum()
    }

    /// How many series certainly fit into the shards here, each of which has its own limit. None if no shard is here.
    pub fn max_series(&self) -> Option<usize> {
        let shards = self.all().into_iter();
        let shards = shards.map(|open_shard| {
            (open_shard.shard.outbox.series_count(), open_shard.shard.shared_book().max_series())
        });
        fit_for_sure(&shards.collect::<Vec<_>>())
    }

    /// The shard that has the dead letter of this key, if there is such a letter. Shard 0 is asked for a key of no
    /// shard.
    pub fn shard_of_key(&self, key: &str) -> u16 {
        let shard = key.split('-').next().and_then(|shard| shard.parse().ok());
        shard.filter(|shard| *shard < self.shards).unwrap_or(0)
    }

    /// How many dead letters there are.
    pub fn dead(&self) -> u64 {
        self.sum(|open_shard| open_shard.dead.count())
    }

    /// How long the oldest pending call of the disk has taken.
    pub fn disk_call(&self) -> Duration {
        let calls = self.all().into_iter().map(|open_shard| open_shard.shard.disk_call());
        calls.max().unwrap_or_default()
    }

    pub fn disk_answers(&self) -> bool {
        self.all().iter().all(|open_shard| open_shard.shard.disk_answers())
    }
}

/// `shards` has the number of series and the limit of each shard. New series may all be of the shard that is full first.
fn fit_for_sure(shards: &[(usize, usize)]) -> Option<usize> {
    let known: usize = shards.iter().map(|(known, _)| known).sum();
    let free = shards.iter().map(|(known, room)| room.saturating_sub(*known));
    Some(known + free.min()?)
}

/// The owners of the series here, for quotas.
impl Owned for Arc<LocalShards> {
    fn seen(&self) -> (u64, usize) {
        let (mut state, mut series) = (DefaultHasher::new(), 0);
        for open_shard in self.all() {
            let (outbox, shard) = (&open_shard.shard.outbox, open_shard.shard.number());
            (shard, outbox.journal(), outbox.series_count()).hash(&mut state);
            series += outbox.series_count();
        }
        (state.finish(), series)
    }

    fn by_owner(&self) -> HashMap<String, u64> {
        let mut all = HashMap::new();
        for open_shard in self.all() {
            for (owner, series) in open_shard.shard.outbox.series_by_owner() {
                *all.entry(owner.to_string()).or_default() += series;
            }
        }
        all
    }

    fn has(&self, series: &SeriesKey) -> bool {
        let open_shards = self.all();
        open_shards.iter().any(|open_shard| open_shard.shard.outbox.owner(&series.digest()).is_some())
    }
}

#[cfg(test)]
mod tests {
    use super::*;

    /// Otherwise the alert on series would not fire before a shard is full.
    #[test]
    fn so_many_series_fit_until_the_first_shard_is_full() {
        assert_eq!(fit_for_sure(&[]), None);
        assert_eq!(fit_for_sure(&[(5, 40)]), Some(40));
        assert_eq!(fit_for_sure(&[(39, 40), (1, 40), (0, 80)]), Some(41));
        assert_eq!(fit_for_sure(&[(41, 40), (1, 40)]), Some(42));
    }

    #[test]
    fn a_letter_is_in_the_shard_of_its_key_and_the_first_is_asked_for_one_of_no_shard() {
        let found = |shards, key: &str| LocalShards::of(shards).shard_of_key(key);
        for (key, shard) in [
            ("0-a-1", 0),
            ("3-a-1", 3),
            ("3-a-1_2", 3),
            ("4-a-1", 0),
            ("11-a-1-partial", 0),
            ("70000-a-1", 0),
            ("a", 0),
        ] {
            assert_eq!(found(4, key), shard, "{key}");
        }
        assert_eq!(found(1, "3-a-1"), 0);
    }
}
