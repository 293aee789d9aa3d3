//! The status of the service: as JSON, which `totxegun status` and the overview page put into words (`shown`), and as
//! gauges for Prometheus (`levels`).
//!
//! Each instance gives its own; `merged` adds those of the other instances. The structs here are a format between
//! instances and for programs.

mod cluster;
mod levels;
mod merged;
mod posts;
mod pulse;
mod shown;

pub use cluster::{ClusterStatus, DatabaseStatus, InstanceStatus};
pub use posts::{First, RefusedStatus, RejectedStatus, SenderStatus};
pub use pulse::{Pulse, Rates, KEPT};
pub use shown::{Section, Shown, Tile};

use super::{AdminApi, LocalShard, Undelivered};
use crate::journal::Held;
use crate::log::seconds;
use crate::metrics::{RoundedSeries, SeriesOfRule};
use crate::otlp::Rounding;
use crate::quota::Used;
use serde::{Deserialize, Serialize};
use std::collections::BTreeSet;

/// The answer to `GET /status`.
#[derive(Debug, Default, Serialize, Deserialize)]
pub struct Status {
    pub version: String,
    pub pid: u32,
    pub uptime_seconds: u64,
    /// Whether posts are taken.
    pub ready: bool,
    /// Why posts get 503, in the words of that answer.
    pub unavailable: Option<String>,
    pub listen: String,
    pub data: String,
    pub sink: String,
    /// Posts and deliveries a second, at intervals over the last minutes, the oldest first.
    pub rates: Vec<Rates>,
    /// Dead letters: requests that the sink refused for good.
    pub dead_letters: u64,
    pub shards: Vec<ShardStatus>,
    /// Refused posts since the start, the latest first.
    pub refused: First<RefusedStatus>,
    /// Points that were rejected since the start out of requests that were taken, the most frequent first.
    pub rejected: First<RejectedStatus>,
    /// The sender that posted last comes first.
    pub senders: First<SenderStatus>,
    pub limits: LimitsStatus,
    /// The senders nearest to their quota, the nearest first.
    pub quotas: Vec<Used>,
    /// What `--integer-unit` has rounded since the start.
    pub rounded: Vec<RoundedStatus>,
    pub cumulative: CumulativeStatus,
    pub late: LateStatus,
    /// If several instances share a store.
    #[serde(default, skip_serializing_if = "Option::is_none")]
    pub cluster: Option<ClusterStatus>,
}

impl Status {
    /// How many requests wait for the sink.
    pub fn waiting(&self) -> u64 {
        self.shards.iter().map(|shard| shard.waiting).sum()
    }

    pub fn series(&self) -> usize {
        self.shards.iter().map(|shard| shard.series).sum()
    }

    /// Why the sink does not take what waits.
    pub fn trouble(&self) -> Option<&str> {
        self.shards.iter().find_map(|shard| shard.stuck.as_deref().or(shard.trouble.as_deref()))
    }

    /// The first shard of which nothing is known, and why.
    pub fn unknown(&self) -> Option<(u16, &str)> {
        let mut shards = self.shards.iter();
        shards.find_map(|shard| Some((shard.shard, shard.unknown.as_deref()?)))
    }
}

/// Series whose points come as cumulative.
#[derive(Debug, Default, Serialize, Deserialize)]
pub struct CumulativeStatus {
    pub series: usize,
    /// How many of them, since the start, count only from their first point here: what they had before is left out.
    pub noted: u64,
}

/// Points that their series refused.
#[derive(Debug, Default, Serialize, Deserialize)]
pub struct LateStatus {
    /// The bytes on disk.
    pub bytes: u64,
    /// How many points were kept since the start, and how many were not, for lack of room or time.
    pub kept: u64,
    pub not_kept: u64,
}

/// How much this instance uses of its limits.
#[derive(Debug, Default, Serialize, Deserialize)]
pub struct LimitsStatus {
    pub series: Limit,
    /// Memory of the book.
    pub memory_bytes: Limit,
    /// Memory of requests that are being answered.
    pub request_bytes: Limit,
    /// Free space of the folder's file system. None if the disk does not answer.
    pub disk_free_bytes: Option<u64>,
}

#[derive(Clone, Copy, Debug, Default, PartialEq, Eq, Serialize, Deserialize)]
pub struct Limit {
    pub used: u64,
    pub limit: u64,
}

/// Values that had to be rounded, and the sum of these roundings in the finer unit of the rule.
#[derive(Debug, Serialize, Deserialize)]
pub struct RoundedStatus {
    pub rule: String,
    #[serde(flatten)]
    pub rounding: Rounding,
    /// How many series these values are of.
    pub series: usize,
    /// The series with the greatest sums of roundings, the greatest first.
    pub greatest: Vec<RoundedSeries>,
}

impl RoundedStatus {
    /// A bound in the finer unit of the rule, rounded up.
    pub fn in_its_unit(&self, bound: f64) -> String {
        let unit = self.rule.rsplit_once(':').map_or("", |(_, unit)| unit);
        let shown = format!("{:.3} {unit}", (bound * 1000.0).ceil() / 1000.0);
        shown.trim_end().to_string()
    }
}

#[derive(Debug, Default, Serialize, Deserialize)]
pub struct ShardStatus {
    pub shard: u16,
    /// The owner and the term, if several instances share the shards.
    #[serde(default, skip_serializing_if = "Option::is_none")]
    pub owner: Option<String>,
    #[serde(default, skip_serializing_if = "Option::is_none")]
    pub term: Option<u64>,
    /// Why no more than that is known of the shard.
    #[serde(default, skip_serializing_if = "Option::is_none")]
    pub unknown: Option<String>,
    /// Why its posts get 503, in the words of that answer.
    pub unavailable: Option<String>,
    pub series: usize,
    pub quarantined: Vec<String>,
    /// Parked posts: those of quarantined senders, in files of their own, which no flush takes.
    pub parked: Held,
    /// Whether some of these are of a sender that was released: the next flush takes them.
    pub released: bool,
    /// Posts that are in no group of the outbox yet.
    pub posts: u64,
    pub journal: Stock,
    /// Requests that the sink does not have.
    pub waiting: u64,
    pub outbox: Stock,
    /// How often the request in delivery was tried.
    pub tries: u64,
    /// Why the last try failed.
    pub trouble: Option<String>,
    /// The time until the next try.
    #[serde(default, skip_serializing_if = "Option::is_none")]
    pub next_try_seconds: Option<u64>,
    /// Why the first waiting request can't be delivered: its file was changed.
    pub stuck: Option<String>,
}

/// The bytes on disk, and the age of the oldest part.
#[derive(Debug, Default, PartialEq, Eq, Serialize, Deserialize)]
pub struct Stock {
    pub bytes: u64,
    pub age_seconds: Option<u64>,
}

impl Stock {
    fn new(bytes: u64, since: Option<u64>) -> Stock {
        Stock { bytes, age_seconds: since.map(|since| seconds().saturating_sub(since)) }
    }

    /// The sum over all shards, with the age of the oldest part.
    pub fn of_all(shards: &[ShardStatus], of: impl Fn(&ShardStatus) -> &Stock) -> Stock {
        Stock {
            bytes: shards.iter().map(|shard| of(shard).bytes).sum(),
            age_seconds: shards.iter().filter_map(|shard| of(shard).age_seconds).max(),
        }
    }
}

impl AdminApi {
    /// The status of this instance.
    pub(super) fn status(&self) -> Status {
        self.with_posts(self.levels())
    }

    /// The same without senders and their posts.
    fn levels(&self) -> Status {
        let shards = self.shard_statuses();
        let series = shards.iter().map(|shard| shard.series as u64).sum();
        Status {
            version: env!("CARGO_PKG_VERSION").into(),
            pid: std::process::id(),
            uptime_seconds: self.begun.elapsed().as_secs(),
            ready: self.unavailable().is_none(),
            unavailable: self.unavailable().map(|why| why.text().into()),
            listen: self.listen.clone(),
            data: self.data.clone(),
            sink: self.sink.name(),
            dead_letters: self.open_shards.dead(),
            shards,
            limits: self.limits_status(series),
            quotas: self.quotas.nearest(),
            rounded: self.rounded_status(),
            cumulative: CumulativeStatus {
                series: self.cumulative_series(),
                noted: self.metrics.noted_runs.get(),
            },
            late: self.late_status(),
            cluster: self.own_cluster_status(),
            ..Status::default()
        }
    }

    fn limits_status(&self, series: u64) -> LimitsStatus {
        let of_shards = self.others.as_ref().and_then(|_| self.open_shards.max_series());
        let (used, limit) = crate::book::memory_used();
        let (budget, limit_of_budget) = (self.budget.used(), self.budget.most());
        LimitsStatus {
            series: Limit { used: series, limit: of_shards.unwrap_or(self.max_series) as u64 },
            memory_bytes: Limit { used, limit },
            request_bytes: Limit { used: budget as u64, limit: limit_of_budget as u64 },
            // A disk that stalls may not answer this question either.
            disk_free_bytes: self.open_shards.disk_answers().then(|| free_bytes(&self.data)).flatten(),
        }
    }

    fn rounded_status(&self) -> Vec<RoundedStatus> {
        let all = self.metrics.all_rounded().into_iter();
        all.map(|(rule, rounding)| {
            let SeriesOfRule { count: series, greatest } = self.metrics.rounded_series(&rule);
            RoundedStatus { rule, rounding, series, greatest }
        })
        .collect()
    }

    fn late_status(&self) -> LateStatus {
        let [kept, not_kept] = self.late.points();
        LateStatus { bytes: self.late.bytes(), kept, not_kept }
    }

    fn cumulative_series(&self) -> usize {
        self.open_shards.sum(|unit| unit.shard.runs.count() as u64) as usize
    }

    fn shard_statuses(&self) -> Vec<ShardStatus> {
        let mut shards: Vec<_> =
            self.open_shards.all().iter().map(|unit| ShardStatus::shard_tasks(unit)).collect();
        if let Some(others) = &self.others {
            let terms = others.cluster.status().terms;
            for shard in &mut shards {
                shard.owner = Some(others.instance.clone());
                shard.term = terms.get(&shard.shard).copied();
            }
        }
        shards
    }
}

impl ShardStatus {
    fn shard_tasks(unit: &LocalShard) -> ShardStatus {
        let Undelivered { number, outbox, delivery } = &unit.undelivered;
        let (journal, since) = unit.shard.journal.size();
        // In the order in which posts move, as the journal above: none is missed on its way.
        let released = unit.shard.has_released();
        let (waiting, bytes, first) = outbox.waiting();
        let delivery = delivery.state();
        ShardStatus {
            shard: *number,
            unavailable: unit.shard.unavailable().map(|why| why.text().into()),
            journal: Stock::new(journal, since),
            posts: unit.shard.ungrouped(),
            parked: unit.shard.journal.held(),
            released,
            series: outbox.series_count(),
            quarantined: outbox.quarantined().into_iter().collect(),
            waiting,
            outbox: Stock::new(bytes, first.map(|first| first.since)),
            tries: delivery.tries,
            trouble: delivery.trouble,
            next_try_seconds: delivery.next_try.map(|at| at.saturating_sub(seconds())),
            stuck: outbox.stuck(),
            ..ShardStatus::default()
        }
    }

    /// A shard of which only the store says something.
    fn unknown(shard: u16, owner: &str, term: u64, why: String) -> ShardStatus {
        ShardStatus {
            shard,
            owner: Some(owner.into()).filter(|owner: &String| !owner.is_empty()),
            term: Some(term),
            unknown: Some(why),
            ..ShardStatus::default()
        }
    }
}

/// The free space for this process. `files` asks the same before each post; it takes microseconds.
fn free_bytes(folder: &str) -> Option<u64> {
    let disk = nix::sys::statvfs::statvfs(folder).ok()?;
    Some(disk.blocks_available() * disk.fragment_size())
}

/// The quarantined senders. A sender is quarantined in each shard, and counts once.
pub fn quarantined(shards: &[ShardStatus]) -> BTreeSet<&str> {
    shards.iter().flat_map(|shard| &shard.quarantined).map(String::as_str).collect()
}

/// The parked posts of all shards. A sender counts once in each shard.
pub fn held(shards: &[ShardStatus]) -> Held {
    shards.iter().map(|shard| shard.parked).fold(Held::default(), |all, of| Held {
        senders: all.senders + of.senders,
        posts: all.posts + of.posts,
        bytes: all.bytes + of.bytes,
    })
}

#[cfg(test)]
mod tests {
    use super::*;

    #[test]
    fn who_is_quarantined_in_several_shards_is_one_sender() {
        let shard = |names: &[&str]| ShardStatus {
            quarantined: names.iter().map(ToString::to_string).collect(),
            ..ShardStatus::default()
        };
        let shards = [shard(&["a", "b"]), shard(&["a"]), shard(&[])];
        assert_eq!(Vec::from_iter(quarantined(&shards)), ["a", "b"]);
    }

    #[test]
    fn a_folder_is_on_a_disk() {
        assert!(free_bytes("/").is_some());
        assert_eq!(free_bytes("/no/such/folder"), None);
    }

    #[test]
    fn a_clock_that_was_set_back_gives_no_age_below_zero() {
        assert_eq!(Stock::new(1, Some(u64::MAX)), Stock { bytes: 1, age_seconds: Some(0) });
        assert_eq!(Stock::new(0, None).age_seconds, None);
    }
}
