//! The senders of series, which a database has in a column of the series.

use super::Forwarded;
use crate::otlp::series::Digest;
use crate::outbox::Outbox;
use crate::work::locked;
use std::collections::HashMap;
use std::sync::{Arc, Mutex, Weak};

/// Knows the senders of a shard's series.
pub trait KnowsOwners: Send + Sync {
    /// The sender that a series belongs to. A commit has it for each of its series; none if the series is in no commit,
    /// or was forgotten since.
    fn owner(&self, series: &Digest) -> Option<String>;
}

impl KnowsOwners for Outbox {
    fn owner(&self, series: &Digest) -> Option<String> {
        Outbox::owner(self, series)
    }
}

/// What knows the senders, for each shard that is delivered here.
#[derive(Default)]
pub struct Owners(Mutex<HashMap<u16, Weak<dyn KnowsOwners>>>);

impl Owners {
    /// From now on `knows` answers for this shard, as long as it exists.
    pub fn put<K: KnowsOwners + 'static>(&self, shard: u16, knows: &Arc<K>) {
        let knows: Weak<K> = Arc::downgrade(knows);
        locked(&self.0).insert(shard, knows);
    }

    /// What knows the senders of a request's series. None if its shard is not delivered here.
    pub(super) fn of(&self, request: &Forwarded) -> Option<Arc<dyn KnowsOwners>> {
        locked(&self.0).get(&request.shard).and_then(Weak::upgrade)
    }
}
