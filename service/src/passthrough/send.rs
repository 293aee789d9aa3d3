//! Sends one request to the receiver, over a kept connection, and reads the answer.

use super::Passed;
use crate::log::shown;
use crate::otlp::{partial_success, Encoding, ExportMetricsServiceResponse, Outside};
use crate::sink::{Access, Address, Client};
use crate::work::blocking;
use hyper::body::HttpBody;
use hyper::header::{CONTENT_TYPE, USER_AGENT};
use hyper::{Body, Request, Response, Uri};
use prost::Message;
use std::time::Duration;
use tokio::time::timeout;

/// How long connecting and the answer may take together.
const PATIENCE: Duration = Duration::from_secs(10);
/// How much of an answer is read, and how much of its text is shown.
const LONGEST_ANSWER: usize = 64 << 10;
const SHOWN: usize = 300;

/// The address of the receiver can't be used.
#[derive(Debug, thiserror::Error)]
#[error("--forward-unsupported takes http://HOST:PORT or https://HOST: {0}")]
pub struct BadReceiver(String);

/// The receiver of forwarded points.
pub(super) struct Receiver {
    pub url: Uri,
    client: Client,
    access: Access,
}

/// How many points were refused, what became of the others, and why.
type Said = (u64, Passed, String);

impl Receiver {
    pub fn at(address: &str, access: Access) -> Result<Receiver, BadReceiver> {
        let bad = |why: &dyn std::fmt::Display| BadReceiver(why.to_string());
        let url: Uri = match address.parse() {
            Ok(Address::Otlp { url, .. }) => url.parse().map_err(|error| bad(&error))?,
            Err(error) if address.starts_with("http") => return Err(bad(&error)),
            _ => return Err(bad(&"this is the address of another kind of sink")),
        };
        let client = access.client(&url).map_err(|error| bad(&error))?;
        Ok(Receiver { url, client, access })
    }

    pub async fn send(&self, outside: Outside) -> Said {
        let encoding = outside.encoding;
        let access = self.access.clone();
        let headers = match blocking(move || access.read_headers()).await {
            Ok(headers) => headers,
            Err(error) => return (0, Passed::Lost, error.to_string()),
        };
        let mut post = match self.post(outside) {
            Ok(post) => post,
            Err(error) => return (0, Passed::Lost, error.to_string()),
        };
        post.headers_mut().extend(headers);
        let answered = async {
            let response = self.client.request(post).await?;
            said(response, encoding).await
        };
        match timeout(PATIENCE, answered).await {
            Err(_) => (0, Passed::Lost, format!("no answer within {PATIENCE:?}")),
            Ok(Err(error)) => (0, Passed::Lost, format!("no answer: {error}")),
            Ok(Ok(said)) => said,
        }
    }

    fn post(&self, outside: Outside) -> Result<Request<Body>, hyper::http::Error> {
        Request::post(self.url.clone())
            .header(CONTENT_TYPE, outside.encoding.media_type())
            .header(USER_AGENT, concat!("totxegun/", env!("CARGO_PKG_VERSION")))
            .body(Body::from(outside.body))
    }
}

/// Interprets an answer. The body is read first, so that its connection can be used again.
async fn said(response: Response<Body>, encoding: Encoding) -> Result<Said, hyper::Error> {
    let (head, mut body) = response.into_parts();
    let mut text = Vec::new();
    while let Some(part) = body.data().await {
        let part = part?;
        if text.len() + part.len() > LONGEST_ANSWER {
            text.clear();
            break;
        }
        text.extend_from_slice(&part);
    }
    if !head.status.is_success() {
        let more = shown(&String::from_utf8_lossy(&text), SHOWN);
        return Ok((u64::MAX, Passed::Refused, format!("{} {more}", head.status)));
    }
    let partial = match encoding {
        Encoding::Json => partial_success(&text),
        Encoding::Protobuf => {
            ExportMetricsServiceResponse::decode(&text[..]).ok().and_then(|taken| taken.partial_success)
        }
    };
    Ok(match partial {
        Some(partial) if partial.rejected_data_points > 0 => {
            let why = shown(&partial.error_message, SHOWN);
            (partial.rejected_data_points.unsigned_abs(), Passed::Taken, why)
        }
        _ => (0, Passed::Taken, String::new()),
    })
}
