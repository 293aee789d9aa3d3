//! The owner's side: accepts posts from other instances, and operators' questions.
//!
//! Nothing is accepted without the cluster's secret, and a post for a shard that is not open here under its term is
//! answered `not mine`.

use super::head::{Head, Secret};
use super::operators::{self, Answers};
use super::peer::SHORT;
use super::{on_the_way, owner_answer, Here, PATH};
use crate::cluster::local_view::Cluster;
use crate::cluster::owners::ShardOwner;
use crate::cluster::terms::Doing;
use crate::ingest::connections::Handler;
use crate::ingest::{Ingest, PostHandler};
use crate::otlp::{Original, Outcome};
use bytes::Bytes;
use hyper::body::HttpBody;
use hyper::{Body, Method, Request, Response};
use std::sync::Arc;
use std::time::Duration;
use tokio::sync::Semaphore;
use tokio::time::timeout;

/// The bytes that `otlp::with_sender_attributes` may add to a request before it is split. It inserts two attributes.
/// One whose key and value together have `n` bytes is inserted at most 2^20 / (n + 61) times, each time with at most 66
/// more bytes of JSON. `n` is at least 20 for `service.instance.id` and at least 2 for the other one, so together they
/// add less than 2^20 * (86 / 81 + 68 / 63), which is less than 2^20 * 35 / 16.
const NAMES: usize = 35 << 16;
/// A part is never longer than its request with these bytes.
const MOST: usize = crate::ingest::MOST + NAMES;
/// How many long parts are in memory at once, whichever instances send them; each instance keeps to its share (`peer`).
pub(super) const PARTS: usize = 64;
/// The deadline for a body, in addition to the time for its transfer.
const WITHIN: Duration = Duration::from_secs(5);

pub struct Internal<H> {
    cluster: Arc<Cluster>,
    here: Arc<H>,
    secret: Secret,
    parts: Semaphore,
    /// Answers operators' questions.
    pub(super) answers: Arc<dyn Answers>,
}

impl<H: Here> Internal<H> {
    pub fn new(
        cluster: Arc<Cluster>,
        here: Arc<H>,
        secret: Secret,
        answers: Arc<dyn Answers>,
    ) -> Arc<Internal<H>> {
        Arc::new(Internal { cluster, here, secret, parts: Semaphore::new(PARTS), answers })
    }

    /// The error is an answer given before any shard was asked.
    async fn take(&self, request: Request<Body>) -> Result<Response<Body>, Response<Body>> {
        let is_question = request.uri().path() == operators::PATH;
        if !(is_question || request.uri().path() == PATH) || request.method() != Method::POST {
            return Err(owner_answer::refused(404, "no such path"));
        }
        if !self.secret.is_in(request.headers()) {
            return Err(owner_answer::refused(
                401,
                "wrong secret: the caller is not an instance of this cluster",
            ));
        }
        if is_question {
            return self.answered(request.into_body()).await;
        }
        let head = Head::read(request.headers())
            .ok_or_else(|| owner_answer::refused(400, "a header is missing or malformed"))?;
        if self.cluster.whose(head.shard) != (ShardOwner::Here { term: head.term }) {
            return Err(owner_answer::not_mine());
        }
        if let Some(why) = self.cluster.unavailable() {
            return Err(owner_answer::answer(&why.into()));
        }
        let body = request.into_body();
        let is_long = body.size_hint().upper().is_none_or(|said| said > SHORT as u64);
        let _room = match is_long {
            true => self.parts.acquire().await.ok(), // never closed
            false => None,
        };
        let body = whole(body).await;
        let body = body.ok_or_else(|| owner_answer::refused(400, "the body is incomplete or too long"))?;
        let part = Original { encoding: head.encoding, body };
        // The shard checks itself whether it is still open here.
        let outcome = self.here.post(head.shard, head.term, &head.sender, part).await;
        Ok(outcome.map_or_else(owner_answer::not_mine, |outcome| owner_answer::answer(&outcome)))
    }
}

impl<H: Here> Handler for Internal<H> {
    async fn answer(self: Arc<Self>, request: Request<Body>) -> Response<Body> {
        self.take(request).await.unwrap_or_else(|refused| refused)
    }
}

impl<T: PostHandler> Here for Ingest<T> {
    /// A shard that is open here has the term that was checked before, or a later one of this instance.
    fn post<'a>(
        &'a self,
        shard: u16,
        _term: u64,
        sender: &'a str,
        part: Original,
    ) -> Doing<'a, Option<Outcome>> {
        Box::pin(self.forwarded(shard, sender, part))
    }
}

/// None if the body is too long or late.
pub(super) async fn whole(body: Body) -> Option<Bytes> {
    let most = body.size_hint().upper().map_or(MOST, |said| said.min(MOST as u64) as usize);
    timeout(WITHIN + on_the_way(most), owner_answer::whole(body, MOST)).await.ok()?.ok()
}
