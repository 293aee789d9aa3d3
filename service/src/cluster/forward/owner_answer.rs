//! Codes an owner's answer to a post.

use super::Broken;
use crate::otlp::Outcome;
use crate::work::whole_body;
use bytes::Bytes;
use hyper::header::{HeaderValue, CONTENT_TYPE};
use hyper::{Body, Response, StatusCode};

/// The header of answers from an instance; proxies in between may answer by themselves, without it.
const SAYS: &str = "totxegun-says";
const ANSWER: &str = "answer";
const NOT_MINE: &str = "not mine";
/// The longest answer has the reasons for a request's rejected points.
const MOST: usize = 256 << 10;

pub(super) fn answer(outcome: &Outcome) -> Response<Body> {
    let body = serde_json::to_vec(outcome).unwrap_or_default(); // numbers, strings and string-keyed maps always serialise
    with(outcome.status(), ANSWER, body)
}

pub(super) fn not_mine() -> Response<Body> {
    with(409, NOT_MINE, b"{\"message\":\"not mine\"}".to_vec())
}

/// A refusal before any shard is asked; it is no shard's answer.
pub(super) fn refused(status: u16, why: &str) -> Response<Body> {
    let mut response = with(status, "", format!("{{\"message\":\"{why}\"}}").into_bytes());
    response.headers_mut().remove(SAYS);
    response
}

fn with(status: u16, says: &'static str, body: Vec<u8>) -> Response<Body> {
    let mut response = Response::new(Body::from(body));
    *response.status_mut() = StatusCode::from_u16(status).unwrap_or(StatusCode::INTERNAL_SERVER_ERROR);
    let heads = response.headers_mut();
    heads.insert(CONTENT_TYPE, HeaderValue::from_static("application/json"));
    heads.insert(SAYS, HeaderValue::from_static(says));
    response
}

/// The answer to an operator's question.
pub(super) fn bytes(answer: Vec<u8>) -> Response<Body> {
    with(200, ANSWER, answer)
}

fn head(response: &Response<Body>, name: &str) -> Option<String> {
    Some(response.headers().get(name)?.to_str().ok()?.to_string())
}

/// Whether an instance answered that owns the shard.
fn is_answer(response: &Response<Body>) -> Result<bool, Broken> {
    let status = response.status().as_u16();
    match head(response, SAYS).as_deref() {
        Some(NOT_MINE) => Ok(false),
        Some(ANSWER) => Ok(true),
        _ if status == 401 => Err(Broken::Secret),
        _ => Err(Broken::Strange(status)),
    }
}

/// The whole body, if it is not longer than `most`.
pub(super) async fn whole(body: Body, most: usize) -> Result<Bytes, Broken> {
    let whole = whole_body(body, most).await.map_err(Broken::Wire)?;
    whole.map(Bytes::from).ok_or(Broken::Long(most))
}

/// The whole answer to an operator's question.
pub(super) async fn read_bytes(response: Response<Body>, most: usize) -> Result<Bytes, Broken> {
    match is_answer(&response)? {
        true => whole(response.into_body(), most).await,
        false => Err(Broken::Strange(response.status().as_u16())),
    }
}

/// The whole answer; none if nothing was taken because another instance owns the shard.
pub(super) async fn read(response: Response<Body>) -> Result<Option<Outcome>, Broken> {
    if !is_answer(&response)? {
        return Ok(None);
    }
    let status = response.status().as_u16();
    let bytes = whole(response.into_body(), MOST).await?;
    serde_json::from_slice(&bytes).map(Some).map_err(|_| Broken::Strange(status))
}
