//! Splits the posts that are in no group by the shards of their resources.

use super::content::Content;
use super::MoveFault;
use crate::journal::{Body, Names, Points, Post, Replayed};
use crate::otlp::series::{only, posted};
use crate::otlp::{shard_of_series, Encoding, Reading, Resources, Split};
use crate::storage::Fault;
use bytes::Bytes;
use std::collections::{BTreeSet, HashMap};
use std::sync::Arc;

pub struct Posts {
    resources: Resources,
    named: Named,
    /// The number of posts, before they were split.
    pub count: u64,
}

/// The dictionary of the file that is being read.
#[derive(Default)]
struct Named {
    /// Changes when a number gets another meaning.
    generation: u64,
    texts: HashMap<u64, (Bytes, u16)>,
}

impl Names for Named {
    fn generation(&self) -> u64 {
        self.generation
    }

    fn text(&self, number: u64) -> Bytes {
        self.texts.get(&number).map(|(text, _)| text.clone()).unwrap_or_default()
    }
}

impl Named {
    fn note(&mut self, number: u64, text: Bytes, shards: u16) {
        let shard = only(&text).and_then(|key| shard_of_series(&key, shards)).unwrap_or(0);
        let before = self.texts.insert(number, (text.clone(), shard));
        self.generation += u64::from(before.is_some_and(|(before, _)| before != text));
    }

    fn shard(&self, number: u64) -> u16 {
        self.texts.get(&number).map_or(0, |(_, shard)| *shard)
    }
}

impl Posts {
    /// For this many shards.
    pub fn new(shards: u16) -> Posts {
        Posts {
            // The journal's posts already have what the service's settings add to a resource.
            resources: Resources::new(shards, Arc::new(Reading::default())),
            named: Named { generation: 1, ..Named::default() },
            count: 0,
        }
    }

    /// Passes the folder's posts to `each`, in order: to each shard its part.
    pub fn each(
        &mut self,
        from: &Content,
        mut each: impl FnMut(u16, &Post, &dyn Names) -> Result<(), Fault>,
    ) -> Result<(), MoveFault> {
        let mut ended = Ok(());
        from.journal.posts(from.outbox.journal(), u64::MAX, |read| {
            self.count += 1;
            let parts = self.parts(read);
            ended = parts.iter().try_for_each(|(shard, post)| each(*shard, post, &self.named));
            ended.is_ok()
        })?;
        Ok(ended?)
    }

    fn parts(&mut self, read: Replayed) -> Vec<(u16, Post)> {
        let shards = self.resources.shards();
        for (number, text) in read.named {
            self.named.note(number, text, shards);
        }
        match &read.post.body {
            _ if shards == 1 => vec![(0, read.post)],
            Body::Text(body) => match self.resources.split(Encoding::Json, body) {
                Split::Whole(shard) => vec![(shard, read.post)],
                Split::Parts(parts) => {
                    let part = |part: crate::otlp::Part| (part.shard, of_text(&read.post, part.body));
                    parts.into_iter().map(part).collect()
                }
            },
            Body::Points(points) => self.of_points(&read.post, points),
        }
    }

    fn of_points(&self, post: &Post, points: &Points) -> Vec<(u16, Post)> {
        let shards: BTreeSet<u16> = points.numbers().map(|number| self.named.shard(number)).collect();
        // Rejected points are counted in one part only.
        let mut foreign = post.foreign;
        let part = |shard| {
            let points = points.of_numbers(|number| self.named.shard(number) == shard);
            let part = Post {
                sender: post.sender.clone(),
                foreign: std::mem::take(&mut foreign),
                body: Body::Points(points),
            };
            (shard, part)
        };
        shards.into_iter().map(part).collect()
    }
}

/// A part of a text, with the number of rejected points in it.
fn of_text(post: &Post, body: Bytes) -> Post {
    Post {
        sender: post.sender.clone(),
        foreign: posted(&body, |_| {}).unwrap_or(post.foreign),
        body: Body::Text(body),
    }
}

#[cfg(test)]
mod tests;
