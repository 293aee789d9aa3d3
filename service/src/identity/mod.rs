//! Identifies senders: by the certificate that they show, otherwise by their token, otherwise by their own word.
//! `ingest` and `grpc` ask it for each request. A sender posts under its own name, or under those that the file of
//! tokens allows.
//!
//! - `door`: the checks of an address; `who`: the identity of a connection and its requests.
//! - `tokens`: the file of tokens; `allowed_hosts`: keeps web pages out if no proof is needed.

mod allowed_hosts;
mod door;
mod tokens;
mod who;

pub use allowed_hosts::AllowedHosts;
pub use door::{operators, Door};
pub use tokens::{line, Sender, Tokens};
pub use who::{by_token, Who};

use crate::otlp::Reason;

/// Why a request is refused for its sender. The text never contains any part of a token.
#[derive(Debug, PartialEq, Eq, thiserror::Error)]
pub enum SenderRefusal {
    #[error("no token: send one header `Authorization: Bearer TOKEN`")]
    NoToken,
    #[error(
        "the token is not known: the file of tokens has no line for it; `totxegun token NAME` prints one"
    )]
    WrongToken,
    #[error(
        "the certificate has expired or is no longer trusted: renew it, or put its root into --client-ca"
    )]
    NotBelieved,
    #[error("the certificate has no name: it needs a DNS name or a URI in its subjectAltName, or a CN")]
    Nameless,
    #[error(
        "{name} {MAY_NOT} {other}: leave x-sender out, or allow it by a line in --tokens: `{name}/{other} sha256:HEX` or \
         `{name}/{other} certificate`"
    )]
    OtherName { name: String, other: String },
    #[error(
        "another host: `{host}` is not an allowed host: post to an IP address, localhost or the host of --listen, or allow \
         the name by --allowed-hosts"
    )]
    OtherHost { host: String },
    /// The name that was asked for is somebody's token, which is never shown.
    #[error("{name} {MAY_NOT} a token: leave x-sender out")]
    TokenAsName { name: String },
}

/// The text between the sender's name and the name that it asks for.
const MAY_NOT: &str = "may not post as";

impl SenderRefusal {
    pub fn reason(&self) -> Reason {
        match self {
            SenderRefusal::NoToken => Reason::NoToken,
            SenderRefusal::WrongToken => Reason::UnknownToken,
            SenderRefusal::NotBelieved => Reason::CertificateNotBelieved,
            SenderRefusal::Nameless => Reason::CertificateWithoutName,
            SenderRefusal::OtherHost { .. } => Reason::OtherHost,
            SenderRefusal::OtherName { .. } | SenderRefusal::TokenAsName { .. } => Reason::OtherName,
        }
    }
}
