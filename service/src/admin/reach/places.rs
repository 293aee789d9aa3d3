//! Finds the instance of a shard, and asks it.

use super::{AdminApi, Answer, Question, ENDING, NOBODY};
use crate::admin::{LocalShard, StoreHealth};
use crate::cluster::{Asks, Cluster, ShardOwner};
use crate::metrics::ClusterMetrics;
use serde::de::DeserializeOwned;
use std::collections::{BTreeMap, BTreeSet};
use std::sync::Arc;
use std::time::Duration;
use tokio::time::timeout;

/// How long to wait for a change of the shards' places.
const PAUSE: Duration = Duration::from_millis(200);

/// The other instances, and what is known of them.
pub struct Others {
    pub cluster: Arc<Cluster>,
    pub asks: Arc<dyn Asks>,
    pub database: Arc<StoreHealth>,
    pub metrics: ClusterMetrics,
    /// The name of this instance, and the address at which others reach it.
    pub instance: String,
    pub address: String,
}

/// Where to ask for a shard.
#[derive(Clone, Debug, PartialEq, Eq, PartialOrd, Ord)]
pub(super) enum Place {
    Here,
    At { name: String, address: String },
    Nobody,
}

impl AdminApi {
    /// Groups shards by place. A shard that is open here is here, whatever the store says.
    pub(super) fn places(&self, shards: &BTreeSet<u16>) -> BTreeMap<Place, Vec<u16>> {
        let mut places: BTreeMap<Place, Vec<u16>> = BTreeMap::new();
        for shard in shards.iter().copied() {
            let place = match &self.others {
                Some(others) if self.open_shards.get(shard).is_none() => others.place(shard),
                _ => Place::Here,
            };
            places.entry(place).or_default().push(shard);
        }
        places
    }

    /// The shard if it is open here, else the answer where to ask.
    pub(in crate::admin) fn unit_here(&self, shard: u16) -> Result<Arc<LocalShard>, Answer> {
        self.open_shards.get(shard).ok_or_else(|| match &self.others {
            Some(others) => others.elsewhere(shard),
            None => Answer::told(503, ENDING),
        })
    }
}

impl Others {
    /// The answer for a shard that is not here: where to ask.
    fn elsewhere(&self, shard: u16) -> Answer {
        let Place::At { name, address } = self.place(shard) else {
            let why = "`totxegun status` shows who has which shard; ask again";
            return Answer::told(503, &format!("shard {shard}: {NOBODY}; {why}"));
        };
        let location = self.cluster.operate_of(&name);
        let ask = match &location {
            Some(at) => format!("ask there, at {at}"),
            None => format!(
                "ask on its machine ({address}), since its admin address is reached from no other: --admin can be"
            ),
        };
        Answer { location, ..Answer::told(307, &format!("shard {shard} is at instance {name}: {ask}")) }
    }

    fn place(&self, shard: u16) -> Place {
        match self.cluster.whose(shard) {
            ShardOwner::There { name, address, .. } => Place::At { name, address },
            // The shard has left this instance meanwhile: it is looked for again.
            ShardOwner::Here { .. } | ShardOwner::Nobody => Place::Nobody,
        }
    }

    /// Reads the shards' rows again.
    pub(super) async fn look_again(&self) {
        let mut places = self.cluster.places();
        places.borrow_and_update();
        self.cluster.look();
        let _ = timeout(PAUSE, places.changed()).await;
    }

    /// Returns when none of these shards is at this address any more.
    pub(super) async fn have_left(&self, address: &str, shards: &[u16]) {
        let mut places = self.cluster.places();
        let is_there = |shard: &u16| matches!(self.cluster.whose(*shard), ShardOwner::There { address: at, .. } if at == address);
        while shards.iter().any(is_there) {
            if places.changed().await.is_err() {
                return std::future::pending().await; // the heartbeat loop has ended, so nothing moves
            }
        }
    }

    pub(in crate::admin) async fn ask<T: DeserializeOwned>(
        &self,
        address: &str,
        question: &Question,
        within: Duration,
    ) -> Result<T, String> {
        let question = serde_json::to_vec(question).map_err(|error| error.to_string())?;
        let answer = self.asks.put_question(address, question, within).await?;
        serde_json::from_slice(&answer).map_err(|_| "it is of another version: ask it by itself".to_string())
    }
}
