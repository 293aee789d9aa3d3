//! OTLP over gRPC: the one unary method `Export` over HTTP/2. `service` starts it at an address of its own.
//!
//! A message goes the same way as an HTTP body: the same reader, shard, journal and memory budget, and so the same
//! answers (`Ingest::put`). `message` takes it out of its frame, and `reply` encodes the answer. `connections` serves;
//! `guard` closes connections that flood, or send headers (`block`) that h2 must not decode. `health` answers
//! orchestrators.

mod block;
mod connections;
mod guard;
mod health;
mod message;
mod reply;
mod timeout;

pub use connections::Grpc;

use crate::identity::Who;
use crate::ingest::head::{named_packing, Head, Packing};
use crate::ingest::refusal::{Refusal, RejectedRequest};
use crate::ingest::sender::sender;
use crate::ingest::{Ingest, PostHandler};
use crate::otlp::{Encoding, Outcome, Reason, Refused};
use hyper::body::HttpBody;
use hyper::header::{HeaderMap, HeaderName, CONTENT_TYPE};
use hyper::http::request::Parts;
use hyper::{Body, Method, Request, Response, StatusCode};
use std::sync::Arc;
use std::time::Instant;

const METHOD: &str = "/opentelemetry.proto.collector.metrics.v1.MetricsService/Export";
static ENCODING: HeaderName = HeaderName::from_static("grpc-encoding");

/// Answers one call.
async fn answer<T: PostHandler>(ingest: Arc<Ingest<T>>, who: &Who, request: Request<Body>) -> Response<Body> {
    let began = Instant::now();
    let (parts, mut body) = request.into_parts();
    if health::is_asked(&parts) {
        return health::answer(&ingest, &parts, &mut body).await;
    }
    let is_grpc = is_grpc(&parts.headers);
    let (call, limit) = (call(&parts, who), timeout::of(&parts.headers));
    drop(parts); // headers may be long and are in no budget, and a call may take long
    if !is_grpc {
        message::throw_away(&mut body).await;
        let mut response = Response::new(Body::empty());
        *response.status_mut() = StatusCode::UNSUPPORTED_MEDIA_TYPE;
        return response;
    }
    let outcome = match call {
        Err(RejectedRequest { sender, refusal }) => ingest.refused(&sender, &refusal),
        Ok(head) => {
            let sender = head.sender.name.clone();
            let taking = take(&ingest, head, &mut body);
            match tokio::time::timeout(limit, taking).await {
                Ok(outcome) => outcome,
                // If the post was taken it stays so, and the sender's retry is a duplicate.
                Err(_) => ingest.refused(&sender, &Refusal::Deadline),
            }
        }
    };
    // An answer before the end of the body is followed by a reset, and some clients see only the reset.
    if outcome.reason() != Some(Reason::Deadline) && !body.is_end_stream() {
        message::throw_away(&mut body).await;
    }
    ingest.metrics.answered(&outcome, Encoding::Protobuf, began);
    reply::response(&outcome).await
}

/// Whether the content type is `application/grpc` or `application/grpc+proto`.
fn is_grpc(headers: &HeaderMap) -> bool {
    let kind = headers.get(CONTENT_TYPE).and_then(|kind| kind.to_str().ok());
    let kind = kind.and_then(|kind| kind.split(';').next()).unwrap_or_default();
    ["application/grpc", "application/grpc+proto"].contains(&kind.trim())
}

/// The head of a call. The frame of the message says whether it is compressed.
fn call(parts: &Parts, who: &Who) -> Result<Head, RejectedRequest> {
    let of = |name: &str| parts.headers.get_all(name).iter().map(|value| value.as_bytes());
    let authority = parts.uri.authority().map(|authority| authority.as_str().as_bytes());
    let looked = who.check_hosts(of("host").chain(authority));
    looked.map_err(|stranger| RejectedRequest { sender: who.unnamed(), refusal: stranger.into() })?;
    if parts.uri.path() != METHOD || parts.method != Method::POST {
        return Err(RejectedRequest { sender: who.unnamed(), refusal: Refusal::NoSuchMethod });
    }
    let sender = sender(who, of("authorization"), of("x-sender"))?;
    let packing = match parts.headers.get(&ENCODING).map(|value| value.as_bytes()) {
        None => Packing::Plain,
        Some(coding) => match named_packing(coding) {
            Some(packing) => packing,
            None => return Err(RejectedRequest { sender: sender.name, refusal: Refusal::ContentEncoding }),
        },
    };
    Ok(Head { sender, encoding: Encoding::Protobuf, packing })
}

async fn take<T: PostHandler>(ingest: &Arc<Ingest<T>>, mut head: Head, body: &mut Body) -> Outcome {
    let mut hold = ingest.budget.hold();
    match message::receive(body, &mut hold).await {
        Err(refusal) => ingest.refused(&head.sender.name, &refusal),
        Ok(message) if message.is_packed && head.packing == Packing::Plain => {
            let why = "the message is compressed but grpc-encoding is missing";
            ingest.refused(&head.sender.name, &Refused::Unreadable(why.into()).into())
        }
        Ok(message) => {
            if !message.is_packed {
                head.packing = Packing::Plain;
            }
            // The call may be cancelled at any time: then its post was taken whole or not at all.
            ingest.put(head, message.bytes, hold).await
        }
    }
}

#[cfg(test)]
mod tests;
