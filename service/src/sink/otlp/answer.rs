//! What a sink's answer means for the request.
//!
//! | answer | the request |
//! |---|---|
//! | 2xx | is taken, or taken in part if a partial success names rejected points |
//! | 408, 425, 429, 502, 503, 504 | is sent again, after `Retry-After` if the answer has it |
//! | 3xx, 401, 403, 404, 405, any other 5xx | is sent again so for a while, and then refused for good |
//! | any other | is refused for good |
//!
//! OTLP names 429, 502, 503 and 504 as those to repeat. 408 and 425 too say that nothing was taken. With any other 5xx
//! the sink failed, which may pass (`delivery`). 401 and 403 usually come from an expired token, and 3xx, 404 and 405
//! from a proxy whose receiver is being deployed: each request would be refused until somebody sees it.

use super::without_query;
use crate::log;
use crate::otlp::{partial_success, Encoding, ExportMetricsServiceResponse};
use crate::sink::DeliveryOutcome;
use hyper::body::HttpBody;
use hyper::header::{HeaderMap, CONTENT_TYPE, LOCATION, RETRY_AFTER};
use hyper::{Body, Response};
use prost::Message;
use std::time::{Duration, SystemTime};
use tokio::time::{timeout_at, Instant};

/// The most bytes of an answer that are read. After more, the connection is closed.
const LONGEST_ANSWER: usize = 64 << 10;
/// The most characters of a sink's message that are shown.
const LONGEST_MESSAGE: usize = 300;

/// `google.rpc.Status`.
#[derive(Clone, PartialEq, Message, serde::Deserialize)]
struct Status {
    #[prost(int32, tag = "1")]
    #[serde(default)]
    code: i32,
    #[prost(string, tag = "2")]
    message: String,
}

/// Reads an answer until the deadline, and says what it means.
pub(super) async fn fate(response: Response<Body>, sent: Encoding, deadline: Instant) -> DeliveryOutcome {
    let (head, body) = response.into_parts();
    let body = timeout_at(deadline, read(body)).await.ok().flatten();
    // No protobuf answer begins with a brace. White space before a brace is not skipped: a protobuf answer may begin
    // so.
    let is_object = body.as_ref().is_some_and(|bytes| bytes.starts_with(b"{"));
    let encoding = match encoding_of(&head.headers) {
        None if is_object => Encoding::Json,
        known => known.unwrap_or(sent),
    };
    let status = head.status.as_u16();
    let more = match status {
        200..=299 => return taken(body, encoding),
        300..=399 => {
            let location =
                head.headers.get(LOCATION).and_then(|value| value.to_str().ok()).unwrap_or("nowhere");
            format!("redirected to {}: give the sink's final address", shown(&without_query(location)))
        }
        _ => message(body, encoding),
    };
    let reason = match more.is_empty() {
        true => head.status.to_string(),
        false => format!("{}: {more}", head.status),
    };
    let after = head.headers.get(RETRY_AFTER).and_then(|value| after(value.to_str().ok()?));
    match status {
        408 | 425 | 429 | 502..=504 => DeliveryOutcome::Again { reason, after },
        401 | 403 => DeliveryOutcome::Denied { reason, after },
        300..=399 | 404 | 405 | 500..=599 => DeliveryOutcome::Failed { reason, after },
        _ => DeliveryOutcome::Refused { reason },
    }
}

fn encoding_of(headers: &HeaderMap) -> Option<Encoding> {
    let content = headers.get(CONTENT_TYPE)?.to_str().ok()?;
    match content.split(';').next()?.trim().to_ascii_lowercase().as_str() {
        "application/json" => Some(Encoding::Json),
        "application/x-protobuf" => Some(Encoding::Protobuf),
        _ => None,
    }
}

/// The body of an answer. None if it is cut off or too long.
async fn read(mut body: Body) -> Option<Vec<u8>> {
    let mut bytes = Vec::new();
    while let Some(part) = body.data().await {
        let part = part.ok()?;
        if bytes.len() + part.len() > LONGEST_ANSWER {
            return None;
        }
        bytes.extend_from_slice(&part);
    }
    Some(bytes)
}

/// The status alone says that the request is taken. If it were sent again because its body is wrong, a sink that does
/// not know keys would count it twice.
fn taken(body: Option<Vec<u8>>, encoding: Encoding) -> DeliveryOutcome {
    let Some(bytes) = body else {
        tracing::warn!(
            longest_bytes = LONGEST_ANSWER,
            "the sink took a request, but its answer was cut or is too long: whether it rejected points is unknown"
        );
        return DeliveryOutcome::Taken;
    };
    let partial = match encoding {
        Encoding::Protobuf => ExportMetricsServiceResponse::decode(bytes.as_slice())
            .ok()
            .and_then(|taken| taken.partial_success),
        Encoding::Json => partial_success(&bytes),
    };
    match partial {
        Some(partial) if partial.rejected_data_points > 0 => DeliveryOutcome::TakenPartly {
            rejected: partial.rejected_data_points.unsigned_abs(),
            reason: shown(&partial.error_message),
            left: None,
        },
        Some(partial) if !partial.error_message.is_empty() => {
            tracing::debug!(said = shown(&partial.error_message), "the sink took a request with a message");
            DeliveryOutcome::Taken
        }
        _ => DeliveryOutcome::Taken,
    }
}

/// The sink's own message.
fn message(body: Option<Vec<u8>>, encoding: Encoding) -> String {
    let Some(bytes) = body else {
        return String::new();
    };
    let told = match encoding {
        Encoding::Protobuf => Status::decode(bytes.as_slice()).ok().map(|status| status.message),
        Encoding::Json => serde_json::from_slice(&bytes).ok().map(|status: Status| status.message),
    };
    shown(&told.unwrap_or_else(|| String::from_utf8_lossy(&bytes).into_owned()))
}

fn shown(text: &str) -> String {
    log::shown(text, LONGEST_MESSAGE)
}

/// `Retry-After`, in seconds or as a date. A date that has passed means now.
fn after(value: &str) -> Option<Duration> {
    let value = value.trim();
    if !value.is_empty() && value.bytes().all(|byte| byte.is_ascii_digit()) {
        return Some(Duration::from_secs(value.parse().unwrap_or(u64::MAX)));
    }
    let date = httpdate::parse_http_date(value).ok()?;
    Some(date.duration_since(SystemTime::now()).unwrap_or(Duration::ZERO))
}

#[cfg(test)]
mod tests {
    use super::*;

    #[test]
    fn retry_after_is_seconds_or_a_date() {
        assert_eq!(after("7"), Some(Duration::from_secs(7)));
        assert_eq!(after(" 0 "), Some(Duration::ZERO));
        assert_eq!(after("99999999999999999999999"), Some(Duration::from_secs(u64::MAX)));
        let soon = httpdate::fmt_http_date(SystemTime::now() + Duration::from_secs(100));
        let wait = after(&soon).expect("a date");
        assert!(wait > Duration::from_secs(95) && wait <= Duration::from_secs(100), "{wait:?}");
        assert_eq!(after("Thu, 01 Jan 1970 00:00:10 GMT"), Some(Duration::ZERO));
        for bad in ["", "-1", "soon", "1.5"] {
            assert_eq!(after(bad), None, "{bad}");
        }
    }
}
