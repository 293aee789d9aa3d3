//! An instance's view of the store: implements the calls that `cluster` makes (`Terms`).

use super::unknown_outcome::UnknownOutcome;
use super::PostgresStore;
use crate::cluster::terms::{Eligibility, InstanceReport, Row, Seen, Terms, Unavailable};
use std::sync::atomic::{AtomicU64, Ordering::Relaxed};
use std::sync::Arc;

pub struct Member {
    store: Arc<PostgresStore>,
    name: String,
    /// Where other instances send posts, and where operators on other machines connect.
    address: String,
    operate: String,
    /// The number of this process among those of its name; 0 until its first heartbeat is known to be committed.
    life: AtomicU64,
}

impl Member {
    pub fn new(store: &Arc<PostgresStore>, name: &str, address: &str, operate: &str) -> Member {
        Member {
            store: store.clone(),
            name: name.into(),
            address: address.into(),
            operate: operate.into(),
            life: AtomicU64::new(0),
        }
    }
}

impl From<UnknownOutcome> for Unavailable {
    fn from(doubt: UnknownOutcome) -> Unavailable {
        match doubt {
            UnknownOutcome::FewCopies(_) => Unavailable::FewCopies(doubt.to_string()),
            doubt => Unavailable::Unanswered(doubt.to_string()),
        }
    }
}

impl Terms for Member {
    async fn heartbeat(&self, stay: Eligibility, told: InstanceReport) -> Result<Seen, Unavailable> {
        let address = match stay {
            Eligibility::Here => self.address.as_str(),
            Eligibility::Leaves => "",
        };
        let life = self.life.load(Relaxed);
        let last = self.store.heartbeat(&self.name, address, &self.operate, told, life).await?;
        let life = if life == 0 { last } else { life };
        self.life.store(life, Relaxed);
        let (instances, clock) = self.store.instances().await?;
        Ok(Seen { instances, shards: self.store.shards().await?, clock, life })
    }

    async fn shards(&self) -> Result<Vec<Row>, Unavailable> {
        Ok(self.store.shards().await?)
    }

    async fn take(&self, shard: u16, seen: u64) -> Result<Option<u64>, Unavailable> {
        Ok(self.store.take(shard, seen, &self.name).await?)
    }

    async fn release(&self, shard: u16, term: u64) -> Result<(), Unavailable> {
        Ok(self.store.release(shard, term, &self.name).await?)
    }

    async fn leave(&self) -> Result<(), Unavailable> {
        Ok(self.store.leave(&self.name).await?)
    }

    async fn remove_row(&self, name: &str, beat: u64) -> Result<bool, Unavailable> {
        Ok(self.store.remove_row(name, beat).await?)
    }
}
