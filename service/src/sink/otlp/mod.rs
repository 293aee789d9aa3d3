//! A sink that speaks OTLP/HTTP: one POST for each request, over kept connections.
//!
//! A repeat has the same bytes and the same key, so that a receiver can recognise it.

mod access;
mod answer;
mod connect;
#[cfg(test)]
mod script;
#[cfg(test)]
mod tests;
#[cfg(test)]
mod tls_tests;

pub use access::Access;
pub(crate) use connect::Client;

use super::{is_instruction, Answer, DeliveryOutcome, Forwarded, Keys, Sink};
use crate::otlp::{protobuf_of_forwarded, Encoding};
use crate::storage::Tenure;
use crate::work::blocking;
use bytes::Bytes;
use hyper::header::{HeaderMap, HeaderName, HeaderValue, CONTENT_ENCODING, CONTENT_TYPE, USER_AGENT};
use hyper::{Body, Request, Uri};
use std::io::Write;
use std::path::PathBuf;
use std::time::Duration;
use tokio::time::{timeout_at, Instant};

/// How long a sink may take to answer, with the time for connecting.
const PATIENCE: Duration = Duration::from_secs(30);
/// The header by which the sink recognises repeats.
const KEY: &str = "idempotency-key";
/// Headers that an operator can't set, since they say what is sent and how it is answered. A packed answer is not read.
const OWN: [&str; 8] = [
    KEY,
    "accept-encoding",
    "connection",
    "content-encoding",
    "content-length",
    "content-type",
    "host",
    "transfer-encoding",
];

#[derive(Debug, thiserror::Error)]
pub enum BadOtlp {
    #[error("the sink's address is not a URL: {0}")]
    Url(String),
    /// The text is not shown: if the name was forgotten, it is a part of the value.
    #[error("the text before the colon is not a header's name")]
    HeaderName,
    #[error("the value of header `{0}` has bytes that a header can't have")]
    HeaderValue(String),
    #[error("the service sets header `{0}` itself: leave it out")]
    OwnHeader(String),
    #[error("{} can't be read as headers: {why}", .file.display())]
    HeaderFile { file: PathBuf, why: String },
    #[error("files of TLS need https://: leave them out, or write the address with https://")]
    NoTls,
    #[error(transparent)]
    Roots(#[from] crate::sink::roots::NoRoots),
}

pub struct OtlpSink {
    url: Uri,
    encoding: Encoding,
    gzip: bool,
    headers: HeaderMap,
    access: Access,
    client: Client,
    patience: Duration,
    keys: Keys,
}

impl OtlpSink {
    pub fn open(
        url: &str,
        protobuf: bool,
        gzip: bool,
        headers: &[(String, String)],
        access: Access,
    ) -> Result<OtlpSink, BadOtlp> {
        let encoding = if protobuf { Encoding::Protobuf } else { Encoding::Json };
        let headers = headers.iter().map(|(name, value)| header_of(name, value));
        let headers = headers.collect::<Result<HeaderMap, _>>()?;
        let url: Uri = url.parse().map_err(|error| BadOtlp::Url(format!("{error}")))?;
        let client = access.client(&url)?;
        let (patience, keys) = (PATIENCE, Keys::default());
        Ok(OtlpSink { url, encoding, gzip, headers, access, client, patience, keys })
    }

    async fn send(&self, request: &Forwarded) -> DeliveryOutcome {
        if is_instruction(&request.body) {
            return DeliveryOutcome::Taken; // a receiver knows no ends of series, and no senders
        }
        let access = self.access.clone();
        let more = match blocking(move || access.read_headers()).await {
            Ok(more) => more,
            Err(error) => return DeliveryOutcome::again(error.to_string()),
        };
        let post = match self.post(request, more).await {
            Ok(post) => post,
            Err(reason) => return DeliveryOutcome::refused(reason),
        };
        let deadline = Instant::now() + self.patience;
        match timeout_at(deadline, self.client.request(post)).await {
            Err(_) => DeliveryOutcome::again(format!("no answer within {} s", self.patience.as_secs_f64())),
            Ok(Err(error)) if error.is_connect() => {
                DeliveryOutcome::away(format!("no answer: {}", chain(&error)))
            }
            Ok(Err(error)) => DeliveryOutcome::again(format!("no answer: {}", chain(&error))),
            Ok(Ok(response)) => answer::fate(response, self.encoding, deadline).await,
        }
    }

    /// Builds the POST. A request always gives the same bytes.
    async fn post(&self, request: &Forwarded, more: HeaderMap) -> Result<Request<Body>, String> {
        let body = self.encode(&request.body).await?;
        let content = match self.encoding {
            Encoding::Json => "application/json",
            Encoding::Protobuf => "application/x-protobuf",
        };
        let mut post = Request::new(Body::from(body));
        *post.method_mut() = hyper::Method::POST;
        *post.uri_mut() = self.url.clone();
        let headers = post.headers_mut();
        headers.insert(USER_AGENT, HeaderValue::from_static(concat!("totxegun/", env!("CARGO_PKG_VERSION"))));
        headers.extend(self.headers.clone());
        headers.extend(more);
        headers.insert(CONTENT_TYPE, HeaderValue::from_static(content));
        if self.gzip {
            headers.insert(CONTENT_ENCODING, HeaderValue::from_static("gzip"));
        }
        let key = HeaderValue::from_str(&request.key())
            .map_err(|_| "its key is not a valid header value".to_string())?;
        headers.insert(HeaderName::from_static(KEY), key);
        Ok(post)
    }

    async fn encode(&self, body: &[u8]) -> Result<Bytes, String> {
        let (body, encoding, gzip) = (body.to_vec(), self.encoding, self.gzip);
        if encoding == Encoding::Json && !gzip {
            return Ok(body.into());
        }
        // Milliseconds of work, which would hold up the runtime.
        blocking(move || {
            let plain = match encoding {
                Encoding::Json => body,
                Encoding::Protobuf => protobuf_of_forwarded(&body).map_err(|error| error.to_string())?,
            };
            match gzip {
                true => packed(&plain).map(Bytes::from).map_err(|error| error.to_string()),
                false => Ok(plain.into()),
            }
        })
        .await
    }
}

impl Sink for OtlpSink {
    fn deliver_of<'a>(
        &'a self,
        request: &'a Forwarded,
        _tenure: Option<&'a Tenure>,
    ) -> Answer<'a, DeliveryOutcome> {
        Box::pin(self.send(request))
    }

    fn name(&self) -> String {
        format!("otlp {}", without_query(&self.url.to_string()))
    }

    fn keys(&self) -> &Keys {
        &self.keys
    }
}

fn packed(body: &[u8]) -> std::io::Result<Vec<u8>> {
    // The gzip header has no time, so the bytes are the same each time.
    let mut encoder = flate2::write::GzEncoder::new(Vec::new(), flate2::Compression::fast());
    encoder.write_all(body)?;
    encoder.finish()
}

/// A header that an operator gives, if it may be given.
pub fn header_of(name: &str, value: &str) -> Result<(HeaderName, HeaderValue), BadOtlp> {
    if OWN.iter().any(|own| own.eq_ignore_ascii_case(name)) {
        return Err(BadOtlp::OwnHeader(name.into()));
    }
    let key = HeaderName::from_bytes(name.as_bytes()).map_err(|_| BadOtlp::HeaderName)?;
    let mut value = HeaderValue::from_str(value).map_err(|_| BadOtlp::HeaderValue(name.into()))?;
    value.set_sensitive(true);
    Ok((key, value))
}

/// The URL as it is shown, without its query, which may have a key.
fn without_query(url: &str) -> String {
    match url.split_once('?') {
        Some((place, _)) => format!("{place}?.."),
        None => url.into(),
    }
}

/// An error with its causes.
fn chain(error: &dyn std::error::Error) -> String {
    let mut text = error.to_string();
    let mut cause = error.source();
    while let Some(error) = cause {
        let more = error.to_string();
        if !text.contains(&more) {
            text = format!("{text}: {more}");
        }
        cause = error.source();
    }
    text
}
