//! What an instance knows of itself as one of several, and of the store's database: as JSON and as gauges.

use crate::admin::reach::Others;
use crate::admin::AdminApi;
use crate::cluster;
use crate::command::values::seconds_shown;
use crate::otlp::Reason;
use serde::{Deserialize, Serialize};

/// The instances of a store, and its database.
#[derive(Debug, Default, Serialize, Deserialize)]
pub struct ClusterStatus {
    /// The instance that was asked.
    pub instance: String,
    pub instances: Vec<InstanceStatus>,
    pub database: DatabaseStatus,
}

#[derive(Debug, Default, PartialEq, Eq, Serialize, Deserialize)]
pub struct InstanceStatus {
    pub name: String,
    /// The address to which other instances send posts.
    pub address: String,
    pub version: String,
    /// The time since its last heartbeat, as far as it was seen. None if none was seen.
    pub heartbeat_seconds: Option<u64>,
    /// How many shards it owns.
    pub shards: usize,
    /// What an operator should know: it is leaving, or does not answer.
    pub trouble: Option<String>,
}

#[derive(Clone, Debug, Default, PartialEq, Eq, Serialize, Deserialize)]
pub struct DatabaseStatus {
    /// The address of the database.
    pub database: String,
    /// On how many servers a commit is now.
    pub copies: Option<u64>,
    pub copies_asked: u64,
    /// Why the number of copies is not known.
    pub why: Option<String>,
    /// How long the oldest write of unknown outcome has waited.
    pub unknown_outcome_seconds: u64,
}

impl Others {
    /// What to say of an instance that still sends heartbeats, but answers no post that is forwarded to it.
    fn unanswering(&self, seen: &cluster::Status) -> Option<String> {
        let unanswering = self.asks.unanswering();
        seen.others.iter().filter(|other| !other.is_gone).find_map(|other| {
            let one = unanswering.iter().find(|one| one.address == other.address)?;
            let time = seconds_shown(one.time.as_secs());
            Some(format!("its posts to instance {} have had no answer for {time}: {}", other.name, one.why))
        })
    }
}

impl AdminApi {
    /// The part of the status that this instance adds for the cluster.
    pub(super) fn own_cluster_status(&self) -> Option<ClusterStatus> {
        let others = self.others.as_ref()?;
        let seen = others.cluster.status();
        let namesake = "another process beats under its name: give each its own --instance";
        let unavailable = self.unavailable().map(Reason::text);
        let clock =
            seen.clock_off.map(|ahead| format!("{}: set it by NTP", cluster::status::shown_off(ahead)));
        let trouble = seen.has_namesake.then_some(namesake).map(String::from).or(clock);
        let missed = seen.missed_owner.as_ref();
        let missed =
            missed.map(|name| format!("it does not reach instance {name}: look at the network between them"));
        let cut_off = "most of the others don't reach it at its --peer, so it has no shards";
        let trouble = trouble.or(seen.is_cut_off.then(|| cut_off.into())).or(missed);
        let trouble = trouble.or(unavailable.map(String::from));
        let own = InstanceStatus {
            name: others.instance.clone(),
            address: others.address.clone(),
            version: env!("CARGO_PKG_VERSION").into(),
            heartbeat_seconds: seen.beat_age.map(|age| age.as_secs()),
            shards: self.open_shards.all().len(),
            trouble: trouble.or_else(|| others.unanswering(&seen)),
        };
        Some(ClusterStatus {
            instance: others.instance.clone(),
            instances: vec![own],
            database: others.database.status(&self.open_shards, &seen),
        })
    }

    /// Sets the gauges of the cluster.
    pub(super) fn read_cluster(&self, others: &Others) {
        let seen = others.cluster.status();
        let database = others.database.status(&self.open_shards, &seen);
        let own = self.open_shards.all().len();
        others.metrics.set(own, &seen, &database, others.asks.forwarded(), &others.database.counts);
    }
}
