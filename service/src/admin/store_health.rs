//! The health of the store's database: on how many servers a commit is, and how long a write's outcome has been
//! unknown. `status` and the metrics show it. What must hold is checked elsewhere: each write checks by itself whether
//! a standby is required (`store/postgres/session`).

use super::{DatabaseStatus, LocalShards};
use crate::cluster;
use crate::store::postgres::{Copies, Counts, PostgresStore};
use crate::work::locked;
use std::sync::{Arc, Mutex, Weak};
use std::time::Duration;

/// How often the standbys are counted.
const EVERY: Duration = Duration::from_secs(5);
/// If the last own heartbeat is older than this, its outcome counts as unknown too.
const BEAT: Duration = Duration::from_secs(2);
/// The reason if the database's role may not see standbys.
const NOT_SEEN: &str = "its role can't see standbys: GRANT pg_monitor TO it";

pub struct StoreHealth {
    /// What was found last, without the time of unknown outcomes.
    seen: Mutex<DatabaseStatus>,
    /// The counters of writes.
    pub counts: Arc<Counts>,
}

impl StoreHealth {
    /// Counts standbys until the `StoreHealth` is dropped.
    pub fn begin(store: &Arc<PostgresStore>, asked: Copies) -> Arc<StoreHealth> {
        let health = StoreHealth::of(store.name(), asked, store.counts().clone());
        tokio::spawn(look(store.clone(), Arc::downgrade(&health)));
        health
    }

    /// The state before the first count.
    pub fn of(database: String, asked: Copies, counts: Arc<Counts>) -> Arc<StoreHealth> {
        let copies_asked = match asked {
            Copies::One => 1,
            Copies::Two => 2,
        };
        let unknown = DatabaseStatus { database, copies_asked, ..DatabaseStatus::default() };
        Arc::new(StoreHealth { seen: Mutex::new(unknown), counts })
    }

    /// The state now. `seen` is what this instance knows of the cluster.
    pub fn status(&self, open_shards: &LocalShards, seen: &cluster::Status) -> DatabaseStatus {
        let beat = seen.beat_age.filter(|age| *age > BEAT).unwrap_or_default();
        // The oldest write of unknown outcome.
        let unknown_outcome_seconds = beat.max(open_shards.disk_call()).as_secs();
        let status = DatabaseStatus { unknown_outcome_seconds, ..locked(&self.seen).clone() };
        match &seen.few_copies {
            // The database's settings say so, even if the role can't see standbys.
            Some(why) => DatabaseStatus { copies: Some(1), why: Some(why.clone()), ..status },
            None => status,
        }
    }
}

async fn look(store: Arc<PostgresStore>, health: Weak<StoreHealth>) {
    let mut looks = tokio::time::interval(EVERY);
    looks.set_missed_tick_behavior(tokio::time::MissedTickBehavior::Delay);
    loop {
        looks.tick().await;
        // While the database does not answer, the number is unknown.
        let (copies, why) = match tokio::time::timeout(EVERY, store.copies()).await {
            Ok(Ok(Some(copies))) => (Some(copies), None),
            Ok(Ok(None)) => (None, Some(NOT_SEEN.into())),
            Ok(Err(doubt)) => (None, Some(doubt.to_string())),
            Err(_) => (None, Some("it does not answer".into())),
        };
        let Some(health) = health.upgrade() else {
            return;
        };
        let mut seen = locked(&health.seen);
        (seen.copies, seen.why) = (copies, why);
    }
}
