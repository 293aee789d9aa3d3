//! Encodes the answer to a call: a message with a status in the trailers, or a status alone.

use crate::otlp::{Detail, Encoding, Outcome, Rejection, Status};
use bytes::Bytes;
use hyper::header::{HeaderMap, HeaderName, HeaderValue, CONTENT_TYPE};
use hyper::{Body, Response};
use percent_encoding::{utf8_percent_encode, AsciiSet, CONTROLS};
use prost::Message;

/// The characters that are percent-encoded in a status message.
const ESCAPED: &AsciiSet = &CONTROLS.add(b'%');

/// `google.rpc.RetryInfo`.
#[derive(Clone, PartialEq, Message)]
pub(super) struct RetryInfo {
    #[prost(message, optional, tag = "1")]
    pub retry_delay: Option<Duration>,
}

/// `google.protobuf.Duration`.
#[derive(Clone, PartialEq, Message)]
pub(super) struct Duration {
    #[prost(int64, tag = "1")]
    pub seconds: i64,
}

/// The response to a post with this outcome.
pub async fn response(outcome: &Outcome) -> Response<Body> {
    match outcome {
        Outcome::Taken { .. } => message(&outcome.body(Encoding::Protobuf)).await,
        Outcome::Refused(rejection) => {
            let mut response = empty();
            put_refusal(response.headers_mut(), rejection);
            response
        }
    }
}

/// A message, and the status in the trailers. The channel has room for both, since nothing else is sent through it.
pub async fn message(message: &[u8]) -> Response<Body> {
    let (mut sender, body) = Body::channel();
    let _ = sender.try_send_data(framed(message));
    let mut trailers = HeaderMap::new();
    put(&mut trailers, "grpc-status", "0");
    let _ = sender.send_trailers(trailers).await;
    let mut response = empty();
    *response.body_mut() = body;
    response
}

/// A status without a message.
pub fn failed(code: i32, why: &str) -> Response<Body> {
    let mut response = empty();
    put(response.headers_mut(), "grpc-status", &code.to_string());
    put(response.headers_mut(), "grpc-message", why);
    response
}

fn empty() -> Response<Body> {
    let mut response = Response::new(Body::empty());
    response.headers_mut().insert(CONTENT_TYPE, HeaderValue::from_static("application/grpc"));
    response
}

fn framed(message: &[u8]) -> Bytes {
    let mut frame = vec![0];
    frame.extend((message.len() as u32).to_be_bytes());
    frame.extend(message);
    frame.into()
}

fn put(headers: &mut HeaderMap, name: &'static str, value: &str) {
    if let Ok(value) = HeaderValue::from_str(value) {
        headers.insert(HeaderName::from_static(name), value);
    }
}

fn put_refusal(headers: &mut HeaderMap, rejection: &Rejection) {
    let (code, message) = (rejection.reason.grpc_status(), &rejection.message);
    put(headers, "grpc-status", &code.to_string());
    put(headers, "grpc-message", &utf8_percent_encode(message, ESCAPED).to_string());
    if rejection.reason.status() == 415 {
        put(headers, "grpc-accept-encoding", "identity,gzip,zstd");
    }
    if let Some(seconds) = rejection.again_in() {
        let seconds = i64::try_from(seconds).unwrap_or(i64::MAX);
        let retry_delay = Some(Duration { seconds });
        let details = vec![Detail {
            type_url: "type.googleapis.com/google.rpc.RetryInfo".into(),
            value: RetryInfo { retry_delay }.encode_to_vec(),
        }];
        let whole = Status { code, message: message.clone(), details }.encode_to_vec();
        let text = base64::encode_config(whole, base64::STANDARD_NO_PAD);
        put(headers, "grpc-status-details-bin", &text);
    }
}
