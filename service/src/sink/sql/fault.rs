//! Why a request was not taken.

use crate::otlp::series::NotForwarded;

#[derive(Debug)]
pub(in crate::sink) enum NotTaken<Fault> {
    /// It never will be taken.
    Refused(String),
    /// A limit was exceeded, and nobody says whether by the request, or by the server, which may pass.
    Failed(Fault),
    Fault(Fault),
}

/// What is wrong with the content of a request.
#[derive(Debug, thiserror::Error)]
#[error("{0}")]
pub(in crate::sink) struct BadContent(pub(super) String);

impl From<NotForwarded> for BadContent {
    fn from(error: NotForwarded) -> BadContent {
        BadContent(error.to_string())
    }
}

impl<Fault> From<BadContent> for NotTaken<Fault> {
    fn from(error: BadContent) -> NotTaken<Fault> {
        NotTaken::Refused(error.0)
    }
}

impl<Fault> From<NotForwarded> for NotTaken<Fault> {
    fn from(error: NotForwarded) -> NotTaken<Fault> {
        NotTaken::Refused(error.to_string())
    }
}
