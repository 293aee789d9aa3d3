//! What the status shows of instances and shards.

use super::{Owners, Refusal, ShardOwner};
use crate::cluster::status::{OtherInstance, OwnedShard};
use crate::cluster::terms::Refused;

impl Owners {
    pub fn name(&self) -> &str {
        &self.me
    }

    /// The other instances, by name.
    pub fn others(&self) -> Vec<OtherInstance> {
        self.others.shown().collect()
    }

    /// Where operators on other machines reach an instance, if they can.
    pub fn operate(&self, name: &str) -> Option<String> {
        let found = self.others.shown().find(|other| other.name == name)?;
        (!found.operate.is_empty()).then_some(found.operate)
    }

    /// How many other instances may own shards.
    pub fn staying(&self) -> usize {
        self.others.staying().count()
    }

    /// The shards that live instances can't open.
    pub fn all_refused(&self) -> Vec<Refusal> {
        let of_one = |(instance, refused): (&String, &Refused)| {
            let refusals = refused.iter().map(|(shard, reason)| Refusal {
                shard: *shard,
                instance: instance.clone(),
                reason: reason.clone(),
            });
            refusals.collect::<Vec<_>>()
        };
        self.living.iter().flat_map(of_one).collect()
    }

    /// All shards of the store, ascending.
    pub fn shards(&self) -> Vec<OwnedShard> {
        let shards = self.rows.iter().map(|row| OwnedShard {
            shard: row.shard,
            term: row.term,
            owner: row.owner.clone(),
            is_served: match self.whose_is(row) {
                ShardOwner::Here { .. } => true,
                ShardOwner::There { name, .. } => !self.others.is_gone(&name),
                ShardOwner::Nobody => false,
            },
        });
        shards.collect()
    }
}
