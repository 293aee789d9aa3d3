//! The refusals that the ingest task itself answers, before a book is asked. The text of each is the message of the answer.

pub use super::weight::Full;
use super::wire::{HEADERS, READ_AHEAD};
use super::{MAX_MEMBERS, MOST};
use crate::book;
use crate::identity::SenderRefusal;
use crate::otlp::{Outcome, Reason, Refused};

/// Why a request is refused; the text is the message of the answer.
#[derive(Debug, thiserror::Error)]
pub enum Refusal {
    #[error("no such path: POST metrics to /v1/metrics (no trailing slash)")]
    NoSuchPath,
    /// gRPC only.
    #[error("no such method: call MetricsService/Export")]
    NoSuchMethod,
    #[error("wrong method: use POST")]
    WrongMethod,
    #[error("bad sender: send one x-sender of 1 to 64 characters of A-Z a-z 0-9 . _ -")]
    BadSender,
    #[error("{0}")]
    SenderRefusal(#[from] SenderRefusal),
    #[error("unsupported Content-Type: use application/json or application/x-protobuf")]
    ContentType,
    #[error("unsupported Content-Encoding: use gzip, zstd or identity")]
    ContentEncoding,
    /// No header says how long the body is.
    #[error("no length of the body: send Content-Length, or the body in chunks")]
    NoLength,
    /// The body did not arrive within its time. Nothing was taken, so the sender should retry: senders of OTLP retry
    /// 503 and drop what was answered 408.
    #[error("the request did not arrive in time: retry")]
    Late,
    /// gRPC only: the call is over, and its post may have been taken.
    #[error("the deadline has passed: the post may have been taken; a repeat is answered as the first time")]
    Deadline,
    /// The head or the framing of the body is malformed.
    #[error("malformed request")]
    Malformed,
    /// The connection ended or the sender cancelled before the request had arrived. Nothing was taken, so a sender that
    /// still reads should retry.
    #[error("the sender has gone away before the body was complete: retry")]
    Gone,
    /// The head is too long or has too many fields.
    #[error("head too long: over {READ_AHEAD} bytes or {HEADERS} fields: send fewer headers")]
    HeadTooLong,
    #[error("bad compression: the body is not valid gzip")]
    BadGzip,
    #[error("bad compression: the body is not valid zstd")]
    BadZstd,
    #[error("bad compression: over {MAX_MEMBERS} gzip members: compress the body as one")]
    TooManyMembers,
    #[error("body too long: over {MOST} bytes, compressed or not: post fewer points at a time")]
    TooLong,
    /// The memory budget of all posts has no room to parse it.
    #[error(transparent)]
    Full(#[from] Full),
    /// The book would refuse the series by the same reason.
    #[error("{}", book::Refused::LongSeries)]
    LongSeries,
    /// Retryable: while memory was short, this body arrived too slowly.
    #[error("too many bytes in flight: this body arrived too slowly: retry, or post fewer points at a time")]
    Slow,
    /// Retryable: there is no memory to name the series of the post.
    #[error("no memory")]
    NoMemory,
    /// This instance takes no posts now.
    #[error("{}", .0.text())]
    Unavailable(Reason),
    #[error(transparent)]
    Unreadable(#[from] Refused),
}

/// A refusal with the name of the sender, as far as that is known.
#[derive(Debug)]
pub struct RejectedRequest {
    pub sender: String,
    pub refusal: Refusal,
}

impl Refusal {
    pub fn reason(&self) -> Reason {
        match self {
            Refusal::NoSuchPath => Reason::NoSuchPath,
            Refusal::NoSuchMethod => Reason::NoSuchMethod,
            Refusal::WrongMethod => Reason::WrongMethod,
            Refusal::BadSender => Reason::BadSender,
            Refusal::SenderRefusal(stranger) => stranger.reason(),
            Refusal::ContentType => Reason::ContentType,
            Refusal::ContentEncoding => Reason::ContentEncoding,
            Refusal::NoLength => Reason::NoLength,
            Refusal::Late => Reason::TooSlow,
            Refusal::Deadline => Reason::Deadline,
            Refusal::Malformed => Reason::MalformedRequest,
            Refusal::HeadTooLong => Reason::HeadTooLong,
            Refusal::Gone => Reason::GoneAway,
            Refusal::BadGzip | Refusal::TooManyMembers | Refusal::BadZstd => Reason::BadCompression,
            Refusal::TooLong | Refusal::Full(Full::Ever) => Reason::BodyTooLong,
            Refusal::Full(Full::Now) | Refusal::Slow => Reason::TooManyBytes,
            Refusal::LongSeries => Reason::TooLongSeries,
            Refusal::NoMemory => Reason::NoMemory,
            Refusal::Unavailable(reason) => *reason,
            Refusal::Unreadable(why) => why.reason(),
        }
    }

    /// Whether more of the body may come. It is then read and discarded, so that the sender can read its answer.
    pub fn leaves_a_body(&self) -> bool {
        !matches!(
            self,
            Refusal::Late | Refusal::Deadline | Refusal::Malformed | Refusal::Gone | Refusal::HeadTooLong
        )
    }
}

impl From<&Refusal> for Outcome {
    fn from(refusal: &Refusal) -> Outcome {
        Outcome::refused(refusal.reason(), refusal.to_string())
    }
}
