//! `grpc.health.v1`: answers orchestrators and balancers whether posts are taken, as `/readyz` does. Needs no sender's
//! name.

use super::{is_grpc, message, reply, timeout};
use crate::ingest::refusal::Refusal;
use crate::ingest::{Ingest, PostHandler};
use hyper::http::request::Parts;
use hyper::{Body, Response};
use prost::Message;

const CHECK: &str = "/grpc.health.v1.Health/Check";
/// The services that may be asked about: the whole server, or its one service.
const SERVICES: [&str; 2] = ["", "opentelemetry.proto.collector.metrics.v1.MetricsService"];

#[derive(Clone, PartialEq, Message)]
pub(super) struct HealthCheckRequest {
    #[prost(string, tag = "1")]
    pub service: String,
}

#[derive(Clone, PartialEq, Message)]
pub(super) struct HealthCheckResponse {
    #[prost(int32, tag = "1")]
    pub status: i32,
}

pub(super) const SERVING: i32 = 1;
pub(super) const NOT_SERVING: i32 = 2;
/// gRPC status codes.
const INVALID_ARGUMENT: i32 = 3;
const NOT_FOUND: i32 = 5;
const UNAVAILABLE: i32 = 14;

/// Whether a request calls `Check`. `Watch` is not implemented: clients that get UNIMPLEMENTED fall back to `Check`.
pub fn is_asked(parts: &Parts) -> bool {
    parts.uri.path() == CHECK && is_grpc(&parts.headers)
}

/// Answers a health check. An error says what to send instead.
pub async fn answer<T: PostHandler>(ingest: &Ingest<T>, parts: &Parts, body: &mut Body) -> Response<Body> {
    let mut hold = ingest.budget.hold();
    let received = tokio::time::timeout(timeout::of(&parts.headers), message::receive(body, &mut hold)).await;
    let message = match received {
        Ok(Ok(message)) if !message.is_packed => Some(message),
        Ok(Ok(_) | Err(Refusal::Malformed)) => None,
        _ => {
            return reply::failed(
                UNAVAILABLE,
                "the request did not arrive in time, or there is no room for it: retry",
            )
        }
    };
    let asked = message.and_then(|message| HealthCheckRequest::decode(message.bytes).ok());
    match asked {
        None => reply::failed(INVALID_ARGUMENT, "send one HealthCheckRequest, not compressed"),
        Some(asked) if !SERVICES.contains(&asked.service.as_str()) => {
            reply::failed(NOT_FOUND, "unknown service: ask for the empty name, or for the metrics service")
        }
        Some(_) => {
            let status = if ingest.is_available() { SERVING } else { NOT_SERVING };
            reply::message(&HealthCheckResponse { status }.encode_to_vec()).await
        }
    }
}
