//! Knows which shards this instance owns, and where posts of the others go. The ingest task asks it for each post, `service`
//! sets it.
//!
//! A folder has one shard, and no post is split. In a store each shard is here or not, which may change at any time: a
//! post goes on with what it found.

use crate::otlp::{Encoding, Original, Outcome, Reason, Resources, Split};
use bytes::Bytes;
use std::future::Future;
use std::pin::Pin;
use std::sync::{Arc, PoisonError, RwLock};

/// Delivers posts to shards of other instances.
pub trait Forwarder: Send + Sync + 'static {
    /// Why no post is taken here now, whichever shard it belongs to.
    fn unavailable(&self) -> Option<Reason> {
        None
    }

    /// Sends a part of a request to the owner of its shard and returns the owner's answer; 503 if there is none, and
    /// then the part may have been taken.
    fn post<'a>(
        &'a self,
        shard: u16,
        sender: &'a str,
        part: Original,
    ) -> Pin<Box<dyn Future<Output = Outcome> + Send + 'a>>;
}

/// All shards, and the takers of those that are here.
pub struct Shards<T> {
    /// None if there is one shard.
    resources: Option<Resources>,
    /// For each shard what takes its posts, if it is here.
    here: Vec<RwLock<Option<Arc<T>>>>,
    elsewhere: Option<Arc<dyn Forwarder>>,
}

/// Where a request goes.
pub enum RequestRoute<T> {
    /// All of it to a shard that is here.
    Here(Arc<T>),
    Split(Split),
}

impl<T> Shards<T> {
    /// Shard 0 alone, which may not be here yet.
    pub fn one(taker: Option<Arc<T>>) -> Arc<Shards<T>> {
        Arc::new(Shards { resources: None, here: vec![RwLock::new(taker)], elsewhere: None })
    }

    /// As many shards as `resources` maps to; none is here yet.
    pub fn several(resources: Resources, elsewhere: Option<Arc<dyn Forwarder>>) -> Arc<Shards<T>> {
        let here = (0..resources.shards()).map(|_| RwLock::default()).collect();
        Arc::new(Shards { resources: Some(resources), here, elsewhere })
    }

    /// Where a request goes: to a shard here, or by the resources in it.
    pub fn way(&self, encoding: Encoding, body: &Bytes) -> RequestRoute<T> {
        let split = match &self.resources {
            None => Split::Whole(0),
            Some(resources) => resources.split(encoding, body),
        };
        match split {
            Split::Whole(shard) => match self.here(shard) {
                Some(taker) => RequestRoute::Here(taker),
                None => RequestRoute::Split(Split::Whole(shard)),
            },
            parts => RequestRoute::Split(parts),
        }
    }

    /// What takes the posts of a shard, if it is here.
    pub fn here(&self, shard: u16) -> Option<Arc<T>> {
        let here = self.here.get(usize::from(shard))?;
        here.read().unwrap_or_else(PoisonError::into_inner).clone() // one value is always consistent
    }

    /// Sets what takes the posts of a shard from now on, if it is here.
    pub fn set(&self, shard: u16, to: Option<Arc<T>>) {
        if let Some(here) = self.here.get(usize::from(shard)) {
            *here.write().unwrap_or_else(PoisonError::into_inner) = to;
        }
    }

    pub fn count(&self) -> u16 {
        self.here.len() as u16 // as many as `resources` has
    }

    /// Why each post is answered 503 now, before it is read.
    pub fn unavailable(&self) -> Option<Reason> {
        self.elsewhere.as_ref()?.unavailable()
    }

    /// Sends a part of a request to the owner of its shard.
    pub async fn elsewhere(&self, shard: u16, sender: &str, part: Original) -> Outcome {
        match &self.elsewhere {
            Some(elsewhere) => elsewhere.post(shard, sender, part).await,
            None => Reason::NoOwner.into(),
        }
    }
}

#[cfg(test)]
mod tests;
