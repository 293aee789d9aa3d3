//! Gauges whose values are kept elsewhere. They are set when somebody reads the metrics.

use super::{held, quarantined, ShardStatus, Stock};
use crate::admin::AdminApi;

impl AdminApi {
    /// Sets the gauges by the status of this instance.
    pub(in crate::admin) fn read_levels(&self) {
        let status = self.levels();
        let (shards, limits, levels) = (&status.shards, &status.limits, &self.metrics.levels);
        let stock = |of: fn(&ShardStatus) -> &Stock| {
            let all = Stock::of_all(shards, of);
            (all.bytes as i64, all.age_seconds.unwrap_or(0) as i64)
        };
        let (journal, outbox) = (stock(|shard| &shard.journal), stock(|shard| &shard.outbox));
        let quarantined = if self.counts_senders() { quarantined(shards).len() } else { 0 };
        let held = held(shards);
        for (level, value) in [
            (&levels.ready, i64::from(status.ready)),
            (&levels.post_bytes_in_flight, limits.request_bytes.used as i64),
            (&levels.journal_bytes, journal.0),
            (&levels.journal_age_seconds, journal.1),
            (&levels.outbox_requests, status.waiting() as i64),
            (&levels.outbox_bytes, outbox.0),
            (&levels.outbox_age_seconds, outbox.1),
            (&levels.dead_letters, status.dead_letters as i64),
            (&levels.quarantined_senders, quarantined as i64),
            (&levels.parked_posts, held.posts as i64),
            (&levels.late_bytes, status.late.bytes as i64),
            (&levels.parked_bytes, held.bytes as i64),
            (&levels.delivery_stuck, shards.iter().any(|shard| shard.stuck.is_some()).into()),
            (&levels.series, limits.series.used as i64),
            (&levels.series_limit, limits.series.limit as i64),
            (&levels.cumulative_series, status.cumulative.series as i64),
            (&levels.book_memory_bytes, limits.memory_bytes.used as i64),
            (&levels.memory_limit_bytes, limits.memory_bytes.limit as i64),
        ] {
            level.set(value);
        }
        // A call to the store is counted by the store's own metrics, not as one of the disk.
        let call = self.others.is_none().then(|| self.open_shards.disk_call());
        levels.disk_call_seconds.set(call.unwrap_or_default().as_secs_f64());
        if let Some(free) = limits.disk_free_bytes {
            levels.disk_free_bytes.set(free as i64);
        }
        self.metrics.quotas(&status.quotas);
        if let Some(others) = &self.others {
            self.read_cluster(others);
        }
    }

    /// Whether this instance counts quarantined senders. Each is quarantined in all shards, so only the instance that
    /// has the first open shard counts them.
    fn counts_senders(&self) -> bool {
        let Some(others) = &self.others else { return true };
        let here = self.open_shards.all().first().map(|unit| unit.shard.number());
        let shards = others.cluster.status().shards.into_iter();
        let mut there = shards.filter(|shard| shard.is_served && shard.owner != others.instance);
        here.is_some_and(|here| there.all(|shard| here < shard.shard))
    }
}
