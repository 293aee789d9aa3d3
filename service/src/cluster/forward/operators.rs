//! Questions of operators to one instance about another, on their way between instances. Only `admin` knows what the
//! bytes mean.

use super::internal::{whole, Internal};
use super::{owner_answer, Broken, Forward, Forwarded, Here, UnresponsivePeer};
use crate::cluster::terms::Doing;
use crate::work::locked;
use bytes::Bytes;
use hyper::{Body, Request, Response};
use std::sync::Arc;
use std::time::Duration;
use tokio::time::timeout;

/// The path for questions.
pub const PATH: &str = "/internal/operators";
/// The longest answer is the report of a shard's books, or its dead letters.
const MOST: usize = 64 << 20;

/// Answers questions.
pub trait Answers: Send + Sync + 'static {
    /// None if the question can't be read, because another version asks it.
    fn answer_question(self: Arc<Self>, question: Bytes) -> Doing<'static, Option<Vec<u8>>>;
}

/// Asks other instances.
pub trait Asks: Send + Sync + 'static {
    /// The answer of the instance at this address, or why there is none.
    fn put_question<'a>(
        &'a self,
        address: &'a str,
        question: Vec<u8>,
        within: Duration,
    ) -> Doing<'a, Result<Bytes, String>>;

    /// The outcomes of posts for other instances' shards.
    fn forwarded(&self) -> Forwarded;

    /// The instances that answer no posts.
    fn unanswering(&self) -> Vec<UnresponsivePeer>;
}

impl<H: Here> Asks for Forward<H> {
    fn put_question<'a>(
        &'a self,
        address: &'a str,
        question: Vec<u8>,
        within: Duration,
    ) -> Doing<'a, Result<Bytes, String>> {
        Box::pin(async move {
            let answer = timeout(within, self.answer_of(address, question)).await;
            answer.unwrap_or(Err(Broken::Late)).map_err(|why| why.to_string())
        })
    }

    fn forwarded(&self) -> Forwarded {
        *locked(&self.counts)
    }

    fn unanswering(&self) -> Vec<UnresponsivePeer> {
        self.peers.unanswering()
    }
}

impl<H: Here> Forward<H> {
    async fn answer_of(&self, address: &str, question: Vec<u8>) -> Result<Bytes, Broken> {
        let uri = format!("{}://{address}{PATH}", self.connections.scheme());
        let request = self.secret.put(Request::post(uri));
        let request = request.body(Body::from(question)).map_err(Broken::Address)?;
        let response = self.connections.asks().request(request).await.map_err(Broken::Wire)?;
        owner_answer::read_bytes(response, MOST).await
    }
}

impl<H: Here> Internal<H> {
    pub(super) async fn answered(&self, body: Body) -> Result<Response<Body>, Response<Body>> {
        let question = whole(body).await;
        let question =
            question.ok_or_else(|| owner_answer::refused(400, "the question is incomplete or too long"))?;
        let answer = self.answers.clone().answer_question(question).await;
        answer
            .map(owner_answer::bytes)
            .ok_or_else(|| owner_answer::refused(400, "the question is from an instance of another version"))
    }
}
