//! The metrics of an instance that shares a store with others: about itself, and about what it sees of the others.
//! `admin` sets them when the page is made.

use super::make::metrics;
use crate::admin::DatabaseStatus;
use crate::cluster::{Forwarded, Status};
use crate::store::postgres::Counts;
use crate::work::locked;
use prometheus::{Gauge, GaugeVec, IntCounter, IntCounterVec, IntGauge, IntGaugeVec};
use std::sync::atomic::Ordering::Relaxed;
use std::sync::Mutex;

metrics! {
    /// Set when the page is made.
    pub struct ClusterMetrics(registry) {
        shards_owned: IntGauge = "shards_owned", "Shards that this instance owns";
        shard_term: IntGaugeVec = "shard_term" ["shard"],
            "The term of each shard that this instance owns: it rises whenever an instance takes the shard";
        without_owner: IntGauge = "shards_without_owner", "Shards that no instance serves, as far as this one knows";
        longest_without_owner: Gauge = "longest_without_owner_seconds",
            "Longest time for which no instance has served one of these shards";
        instances: IntGauge = "instances", "Instances whose heartbeats continue, including this one";
        beat_age: Gauge = "heartbeat_age_seconds",
            "Age of the last heartbeat of this instance that is known to be in the store";
        clock_off: Gauge = "clock_off_seconds",
            "How far this instance's clock is ahead of the other instances and the store (negative: behind), while it is so \
             far off that the instance takes no shards; otherwise 0";
        cut_off: IntGauge = "cut_off",
            "1 while most other instances can't connect to this one, so that it has no shards, or while it can't connect to \
             an owner of shards that others can connect to";
        copies: IntGaugeVec = "store_copies" ["database"],
            "Servers that have each commit of the database; absent if unknown";
        copies_asked: IntGauge = "store_copies_asked", "Servers that must have each commit, by --store-copies";
        doubt: GaugeVec = "store_unknown_outcome_seconds" ["database"],
            "Age of this instance's oldest write to the store of which the outcome is unknown; 0 if there is none";
        forwarded: IntCounterVec = "forwarded_posts_total" ["result"],
            "Posts, or parts of them, that were sent on to the instance of their shard, by its answer";
        writes: IntCounterVec = "store_writes_total" ["outcome"], "Writes of shards to the store, by outcome";
        takeovers: IntCounter = "takeovers_total", "Shards that this instance took";
        hand_overs: IntCounter = "hand_overs_total", "Shards that this instance handed over";
        lost: IntCounter = "shards_lost_total", "Shards that another instance took while this one owned them";
    }
    with {
        // One page at a time raises the counters to the values that are counted elsewhere.
        setting: Mutex<()> = Mutex::default();
    }
}

impl ClusterMetrics {
    /// `owned` shards are here.
    pub fn set(
        &self,
        owned: usize,
        seen: &Status,
        database: &DatabaseStatus,
        forwarded: Forwarded,
        writes: &Counts,
    ) {
        let _one = locked(&self.setting);
        self.shards_owned.set(owned as i64);
        self.shard_term.reset();
        for (shard, term) in &seen.terms {
            self.shard_term.with_label_values(&[&shard.to_string()]).set(*term as i64);
        }
        self.without_owner.set(seen.without_owner as i64);
        self.longest_without_owner.set(seen.longest_without_owner.as_secs_f64());
        self.instances.set(seen.instances() as i64);
        self.beat_age.set(seen.beat_age.unwrap_or_default().as_secs_f64());
        self.clock_off.set(seen.clock_off.unwrap_or_default() as f64 / 1e6);
        self.cut_off.set(i64::from(seen.is_cut_off || seen.missed_owner.is_some()));
        self.set_database(database);
        for (result, count) in
            [("answered", forwarded.answered), ("not_mine", forwarded.not_mine), ("broken", forwarded.broken)]
        {
            bring(&self.forwarded.with_label_values(&[result]), count);
        }
        for (outcome, count) in [
            ("committed", &writes.commits),
            ("repeated", &writes.doubts),
            ("fenced", &writes.fenced),
            ("vanished", &writes.vanished),
        ] {
            bring(&self.writes.with_label_values(&[outcome]), count.load(Relaxed));
        }
        bring(&self.takeovers, seen.counted.takeovers);
        bring(&self.hand_overs, seen.counted.hand_overs);
        bring(&self.lost, seen.counted.lost);
    }

    fn set_database(&self, of: &DatabaseStatus) {
        let label = [&*of.database];
        self.copies.reset();
        if let Some(copies) = of.copies {
            self.copies.with_label_values(&label).set(copies as i64);
        }
        self.copies_asked.set(of.copies_asked as i64);
        self.doubt.with_label_values(&label).set(of.unknown_outcome_seconds as f64);
    }
}

/// Raises a counter to the value that is counted elsewhere.
fn bring(counter: &IntCounter, to: u64) {
    counter.inc_by(to.saturating_sub(counter.get()));
}

#[cfg(test)]
mod tests {
    use super::*;
    use crate::cluster::status::{Counted, OtherInstance};
    use crate::metrics::Metrics;
    use std::collections::BTreeMap;
    use std::time::Duration;

    fn seen(terms: &[(u16, u64)], takeovers: u64) -> Status {
        Status {
            name: "a".into(),
            others: vec![other("b", false), other("c", true), other("d", false)],
            without_owner: 2,
            longest_without_owner: Duration::from_millis(31_500),
            terms: terms.iter().copied().collect::<BTreeMap<_, _>>(),
            beat_age: Some(Duration::from_millis(250)),
            clock_off: Some(-90_500_000),
            missed_owner: Some("b".into()),
            counted: Counted { takeovers, hand_overs: 1, lost: 0 },
            ..Status::default()
        }
    }

    fn other(name: &str, is_gone: bool) -> OtherInstance {
        OtherInstance { name: name.into(), is_gone, ..OtherInstance::default() }
    }

    fn database(copies: Option<u64>) -> DatabaseStatus {
        DatabaseStatus {
            database: "db/x".into(),
            copies,
            copies_asked: 2,
            why: None,
            unknown_outcome_seconds: 12,
        }
    }

    #[test]
    fn the_page_has_what_is_seen_now_and_counters_as_they_are() {
        let metrics = Metrics::new().unwrap();
        let of_cluster = ClusterMetrics::of(&metrics.registry).unwrap();
        let (writes, forwarded) = (Counts::default(), Forwarded { answered: 7, not_mine: 2, broken: 1 });
        writes.commits.store(40, Relaxed);
        of_cluster.set(2, &seen(&[(3, 5), (4, 9)], 2), &database(Some(1)), forwarded, &writes);
        of_cluster.set(1, &seen(&[(4, 10)], 3), &database(Some(1)), forwarded, &writes);
        let page = || String::from_utf8(metrics.page()).unwrap();
        let has = |line: &str| page().lines().any(|found| found == line);
        for line in [
            "totxegun_shards_owned 1",
            "totxegun_shard_term{shard=\"4\"} 10",
            "totxegun_shards_without_owner 2",
            "totxegun_longest_without_owner_seconds 31.5",
            "totxegun_instances 3",
            "totxegun_heartbeat_age_seconds 0.25",
            "totxegun_clock_off_seconds -90.5",
            "totxegun_cut_off 1",
            "totxegun_store_copies{database=\"db/x\"} 1",
            "totxegun_store_copies_asked 2",
            "totxegun_store_unknown_outcome_seconds{database=\"db/x\"} 12",
            "totxegun_forwarded_posts_total{result=\"answered\"} 7",
            "totxegun_forwarded_posts_total{result=\"not_mine\"} 2",
            "totxegun_forwarded_posts_total{result=\"broken\"} 1",
            "totxegun_store_writes_total{outcome=\"committed\"} 40",
            "totxegun_store_writes_total{outcome=\"vanished\"} 0",
            "totxegun_takeovers_total 3",
            "totxegun_hand_overs_total 1",
            "totxegun_shards_lost_total 0",
        ] {
            assert!(has(line), "{line} in\n{}", page());
        }
        assert!(!page().contains("shard=\"3\""), "it is another's");
        of_cluster.set(1, &seen(&[], 3), &database(None), forwarded, &writes);
        assert!(!page().contains("totxegun_store_copies{"), "it is not known");
    }
}
