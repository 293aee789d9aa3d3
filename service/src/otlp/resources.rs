//! The shard of each resource of a request, and a request in parts: for each shard one, with its resources as they came.
//!
//! A resource's shard is a hash of it as the identity of its series has it. So all points of a series have one shard, however
//! their resource was written, and whoever sends them. What can't be read as a resource is shard 0's, which refuses it; so is
//! a request that can't be taken apart.

use super::json::Document;
use super::request::{request_of, Node, Request};
use super::schema::{REQUEST, RESOURCES, RESOURCE_OF};
use super::series::{self, SeriesKey};
use super::{prepare, Encoding, Reading};
use ahash::RandomState;
use bytes::Bytes;
use sha2::{Digest, Sha256};
use std::collections::HashMap;
use std::sync::{Arc, PoisonError, RwLock};

/// Whose is what can't be read.
const UNREAD: u16 = 0;
/// How many bytes of resources are known by their shards, about. Where there are more they begin anew.
const MOST_KNOWN: usize = 16 << 20;
/// A longer one is not kept.
const LONGEST_KNOWN: usize = 16 << 10;
/// What one takes beside its bytes.
const ENTRY: usize = 96;

/// The shard that a text has, of so many.
pub fn shard_of(text: &str, shards: u16) -> u16 {
    let digest: [u8; 32] = Sha256::digest(text.as_bytes()).into();
    let [a, b, c, d, e, f, g, h, ..] = digest;
    let number = u64::from_be_bytes([a, b, c, d, e, f, g, h]);
    u16::try_from(number % u64::from(shards.max(1))).unwrap_or(UNREAD)
}

/// The shard of a series, which is that of its resource; none of what is no key.
pub fn shard_of_series(key: &SeriesKey, shards: u16) -> Option<u16> {
    let document = Document::parse(key.0.as_bytes()).ok()?;
    let resource = document.root().elements()?.next()?;
    Some(shard_of(resource.raw(), shards))
}

/// Where a request goes.
#[derive(Debug, PartialEq, Eq)]
pub enum Split {
    /// As it came, to one shard.
    Whole(u16),
    /// To several shards, each once, in the order of their first resources.
    Parts(Vec<Part>),
}

/// Of a request the resources of one shard.
#[derive(Clone, Debug, PartialEq, Eq)]
pub struct Part {
    pub shard: u16,
    /// In the encoding of the request.
    pub body: Bytes,
    /// Their places in the request, ascending.
    pub resources: Vec<u32>,
}

/// What says the shards of resources.
pub struct Resources {
    shards: u16,
    reading: Arc<Reading>,
    /// Of each encoding.
    known: [ShardCache; 2],
}

/// Shards of resources by their bytes as they came.
#[derive(Default)]
struct ShardCache(RwLock<Shards>);

#[derive(Default)]
struct Shards {
    /// Nobody who posts can make two of them meet: the hash has a key of its own.
    of: HashMap<Box<[u8]>, u16, RandomState>,
    bytes: usize,
}

/// A resource of a request, with its metrics, and its shard.
type PlacedResource<'b> = (u16, Node<'b>);

impl Resources {
    pub fn new(shards: u16, reading: Arc<Reading>) -> Resources {
        Resources { shards, reading, known: Default::default() }
    }

    /// How many there are.
    pub fn shards(&self) -> u16 {
        self.shards
    }

    /// Takes a request apart.
    pub fn split(&self, encoding: Encoding, body: &Bytes) -> Split {
        let request = Request::of(encoding, body).ok();
        let Some(found) = request.as_ref().and_then(|request| self.found(encoding, request.root())) else {
            return Split::Whole(UNREAD);
        };
        let first = found.first().map_or(UNREAD, |(shard, _)| *shard);
        match found.iter().all(|(shard, _)| *shard == first) {
            true => Split::Whole(first),
            false => Split::Parts(parts(encoding, &found)),
        }
    }

    /// None of what is refused whole.
    fn found<'b>(&self, encoding: Encoding, root: Node<'b>) -> Option<Vec<PlacedResource<'b>>> {
        let elements = root.loses_nothing(&REQUEST).then(|| root.all(RESOURCES)).flatten()?;
        elements.map(|element| Some((self.of_element(encoding, element)?, element))).collect()
    }

    /// The shard of a resource with its metrics; none if that can be no message.
    fn of_element(&self, encoding: Encoding, element: Node<'_>) -> Option<u16> {
        let Some(mut parts) = element.all(RESOURCE_OF) else {
            return element.may_be_message().then_some(UNREAD);
        };
        let (first, second) = (parts.next(), parts.next());
        let hashed = || {
            let own = std::iter::once(element.only(RESOURCE_OF));
            self.hashed(encoding, request_of(encoding, RESOURCES, own))
        };
        let known = &self.known[usize::from(encoding == Encoding::Json)];
        Some(match second {
            None => known.of(first.map_or(&[], Node::raw), hashed),
            Some(_) => hashed(), // it is there in parts
        })
    }

    /// The shard of the one resource of a request.
    fn hashed(&self, encoding: Encoding, request: Vec<u8>) -> u16 {
        let identity = || {
            let prepared = prepare(encoding, request.into(), &self.reading).ok()?;
            series::first_resource(&Document::parse(&prepared.body).ok()?)
        };
        identity().map_or(UNREAD, |resource| shard_of(&resource, self.shards))
    }
}

fn parts(encoding: Encoding, found: &[PlacedResource<'_>]) -> Vec<Part> {
    let mut parts: Vec<(u16, Vec<u32>)> = Vec::new();
    for (place, (shard, _)) in (0..).zip(found) {
        match parts.iter_mut().find(|(of, _)| of == shard) {
            Some((_, resources)) => resources.push(place),
            None => parts.push((*shard, vec![place])),
        }
    }
    let made = parts.into_iter().map(|(shard, resources)| {
        let own = resources.iter().map(|place| found[*place as usize].1.raw());
        Part { shard, body: request_of(encoding, RESOURCES, own).into(), resources }
    });
    made.collect()
}

impl ShardCache {
    /// The shard of what has these bytes.
    fn of(&self, resource: &[u8], shard: impl FnOnce() -> u16) -> u16 {
        let known = self.0.read().unwrap_or_else(PoisonError::into_inner); // each change of it is whole
        if let Some(shard) = known.of.get(resource) {
            return *shard;
        }
        drop(known);
        let shard = shard();
        if resource.len() <= LONGEST_KNOWN {
            let mut known = self.0.write().unwrap_or_else(PoisonError::into_inner);
            known.put(resource, shard);
        }
        shard
    }
}

impl Shards {
    fn put(&mut self, resource: &[u8], shard: u16) {
        let takes = ENTRY + resource.len();
        if self.bytes + takes > MOST_KNOWN {
            *self = Shards::default();
        }
        if self.of.insert(resource.into(), shard).is_none() {
            self.bytes += takes;
        }
    }
}

#[cfg(test)]
mod tests;
