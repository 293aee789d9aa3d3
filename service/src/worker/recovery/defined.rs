//! Reads the posts of the journal with the numbers that its files define. Series get their numbers in the book in
//! parallel, before `recover` puts their posts in.

use super::super::numbers::{Number, Own};
use super::super::WorkerError;
use crate::book::with_reserve;
use crate::journal::{Body, Post, Replayed};
use crate::shard::Shard;
use crate::work::in_order;

/// The most posts, and bytes, that are handled together.
const POSTS_OF_A_PART: usize = 256;
const BYTES_OF_A_PART: usize = 256 << 10;

/// Consecutive posts of the journal.
#[derive(Default)]
struct Part {
    posts: Vec<PostWithDefinitions>,
    bytes: usize,
}

/// A post, and the numbers that its file defines before it.
pub(super) struct PostWithDefinitions {
    pub named: Vec<(u64, Number)>,
    pub post: Post,
}

/// Calls `each` with the posts of the journal that are in no group, in order, some at a time, until it returns false.
/// Their numbers are resolved already, unless there was no memory for that.
pub(super) fn posts_with_definitions(
    shard: &Shard,
    own: &Own,
    stops: &impl Fn() -> bool,
    mut each: impl FnMut(Vec<PostWithDefinitions>) -> bool + Send,
) -> Result<(), WorkerError> {
    let given = in_order(
        |part: &mut Part| with_reserve(|| part.resolve_all(own)),
        |part| with_reserve(|| each(part.posts)).then_some(()).ok_or(None),
        |queue| {
            let mut part = Part::default();
            let read = shard.journal.posts(shard.outbox.journal(), u64::MAX, |read| {
                part.push(read);
                !stops() && (!part.is_full() || queue.push(std::mem::take(&mut part)))
            });
            queue.push(part);
            read.map_err(|fault| Some(fault.into()))
        },
    );
    match given {
        Err(Some(trouble)) => Err(trouble),
        Err(None) | Ok(()) => Ok(()),
    }
}

impl Part {
    fn push(&mut self, read: Replayed) {
        let Replayed { post, named } = read;
        self.bytes += match &post.body {
            Body::Text(text) => text.len(),
            Body::Points(points) => size_of_val(points.words()),
        };
        let named = named.into_iter().map(|(number, text)| {
            self.bytes += text.len();
            (number, Number::Defined(text))
        });
        self.posts.push(PostWithDefinitions { named: named.collect(), post });
    }

    fn resolve_all(&mut self, own: &Own) {
        let named = self.posts.iter_mut().flat_map(|said| &mut said.named);
        own.find(&mut named.map(|(_, number)| number).collect::<Vec<_>>());
    }

    fn is_full(&self) -> bool {
        self.posts.len() >= POSTS_OF_A_PART || self.bytes >= BYTES_OF_A_PART
    }
}
