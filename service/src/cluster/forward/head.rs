//! The headers of a forwarded post.

use crate::otlp::Encoding;
use hyper::header::{HeaderMap, HeaderValue, CONTENT_TYPE};
use hyper::http::request::Builder;
use std::fmt;
use subtle::ConstantTimeEq;

const SHARD: &str = "totxegun-shard";
const TERM: &str = "totxegun-term";
const SENDER: &str = "totxegun-sender";
const SECRET: &str = "totxegun-secret";
const JSON: &str = "application/json";
const PROTOBUF: &str = "application/x-protobuf";

/// The secret that all instances of a cluster share.
#[derive(Clone)]
pub struct Secret(HeaderValue);

impl Secret {
    /// None if it is empty or has characters that no header may have.
    pub fn new(text: &str) -> Option<Secret> {
        let mut value = HeaderValue::from_str(text).ok()?;
        value.set_sensitive(true);
        (!text.is_empty()).then_some(Secret(value))
    }

    pub(super) fn put(&self, request: Builder) -> Builder {
        request.header(SECRET, &self.0)
    }

    /// Compares in constant time.
    pub fn is_in(&self, heads: &HeaderMap) -> bool {
        let said = heads.get(SECRET).map_or(&[][..], HeaderValue::as_bytes);
        self.0.as_bytes().ct_eq(said).into()
    }
}

impl fmt::Debug for Secret {
    fn fmt(&self, formatter: &mut fmt::Formatter<'_>) -> fmt::Result {
        formatter.write_str("Secret(..)")
    }
}

#[derive(Clone, Debug, PartialEq, Eq)]
pub(super) struct Head {
    pub shard: u16,
    pub term: u64,
    pub sender: String,
    pub encoding: Encoding,
}

impl Head {
    pub fn put(&self, request: Builder, secret: &Secret) -> Builder {
        let content_type = match self.encoding {
            Encoding::Json => JSON,
            Encoding::Protobuf => PROTOBUF,
        };
        secret
            .put(request)
            .header(SHARD, self.shard)
            .header(TERM, self.term)
            .header(SENDER, self.sender.as_str())
            .header(CONTENT_TYPE, content_type)
    }

    /// None if a header is missing or can't be read.
    pub fn read(heads: &HeaderMap) -> Option<Head> {
        let text = |name: &str| heads.get(name)?.to_str().ok();
        let encoding = match text(CONTENT_TYPE.as_str())? {
            JSON => Encoding::Json,
            PROTOBUF => Encoding::Protobuf,
            _ => return None,
        };
        Some(Head {
            shard: text(SHARD)?.parse().ok()?,
            term: text(TERM)?.parse().ok()?,
            sender: text(SENDER)?.into(),
            encoding,
        })
    }
}

#[cfg(test)]
mod tests {
    use super::*;
    use hyper::{Body, Request};

    #[test]
    fn a_head_is_read_as_it_was_put_and_a_wrong_secret_is_none() {
        let secret = Secret::new("a secret").unwrap();
        let head = Head {
            shard: 65535,
            term: u64::MAX,
            sender: "web-1.example".into(),
            encoding: Encoding::Protobuf,
        };
        let request = head.put(Request::post("/"), &secret).body(Body::empty()).unwrap();
        assert_eq!(Head::read(request.headers()), Some(head));
        assert!(secret.is_in(request.headers()));
        for other in ["a secre", "a secret2", "b secret"] {
            assert!(!Secret::new(other).unwrap().is_in(request.headers()));
        }
        assert!(!secret.is_in(&HeaderMap::new()));
        assert!(Secret::new("").is_none() && Secret::new("two\nlines").is_none());
        assert_eq!(format!("{secret:?}"), "Secret(..)");
        for name in [SHARD, TERM, SENDER, "content-type"] {
            let mut heads = request.headers().clone();
            heads.remove(name);
            assert_eq!(Head::read(&heads), None, "{name}");
        }
    }
}
