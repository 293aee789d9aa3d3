//! Tracks the phase of a connection that hyper serves, so that slow and idle connections are found without a timer for
//! each request. `connections` asks it about once a second.

use super::connections::Limits;
use crate::work::locked;
use std::io::Result;
use std::pin::Pin;
use std::sync::{Arc, Mutex};
use std::task::{ready, Context, Poll};
use std::time::{Duration, Instant};
use tokio::io::{AsyncRead, AsyncWrite, ReadBuf};

/// How long a connection may be idle while another client waits for a permit.
const SHORT: Duration = Duration::from_secs(1);

/// What the connection is waiting for.
#[derive(Clone, Copy, Debug, PartialEq, Eq)]
enum Phase {
    /// No byte has come yet.
    New,
    /// No byte of the next request has come yet.
    Idle,
    /// The rest of an answer can't be sent: the client does not read.
    Unread,
    /// A part of a head has come.
    Head,
    /// A request is in flight; its handler bounds its time.
    Request,
}

/// What has taken too long.
#[derive(Clone, Copy, Debug, PartialEq, Eq)]
pub enum Overdue {
    Idle,
    Head,
}

/// Shared by a connection and its requests: the phase and when it began.
pub struct Pace(Mutex<(Phase, Instant)>);

impl Pace {
    pub fn new() -> Arc<Pace> {
        Arc::new(Pace(Mutex::new((Phase::New, Instant::now()))))
    }

    pub fn request_begins(&self) {
        self.change(|_| Some(Phase::Request));
    }

    pub fn request_ends(&self) {
        self.change(|_| Some(Phase::Idle));
    }

    /// Whether no byte has come yet, so that no answer is owed.
    pub fn is_new(&self) -> bool {
        locked(&self.0).0 == Phase::New
    }

    /// What is overdue, if anything. The limits for idle connections and for clients that don't read are shorter while
    /// another client waits for a permit.
    pub fn overdue(&self, limits: &Limits, is_full: bool) -> Option<Overdue> {
        let (idle, unread) = match is_full {
            true => (limits.idle.min(SHORT), limits.idle.min(limits.head / 4)),
            false => (limits.idle, limits.idle),
        };
        let (phase, since) = *locked(&self.0);
        let (most, overdue) = match phase {
            Phase::New | Phase::Idle => (idle, Overdue::Idle),
            Phase::Unread => (unread, Overdue::Idle),
            Phase::Head => (limits.head, Overdue::Head),
            Phase::Request => return None,
        };
        (since.elapsed() >= most).then_some(overdue)
    }

    /// Records whether the last write was accepted by the socket.
    fn sent(&self, all: bool) {
        self.change(|phase| match (phase, all) {
            (Phase::Idle, false) => Some(Phase::Unread),
            (Phase::Idle | Phase::Unread, true) => Some(Phase::Idle),
            _ => None,
        });
    }

    fn bytes_came(&self) {
        self.change(|phase| matches!(phase, Phase::New | Phase::Idle | Phase::Unread).then_some(Phase::Head));
    }

    /// Enters the next phase now, if there is one.
    fn change(&self, next: impl FnOnce(Phase) -> Option<Phase>) {
        let mut now = locked(&self.0);
        if let Some(next) = next(now.0) {
            *now = (next, Instant::now());
        }
    }
}

/// A connection whose reads and writes are reported to its `Pace`.
pub struct Watched<S> {
    stream: S,
    pace: Arc<Pace>,
}

impl<S> Watched<S> {
    pub fn new(stream: S, pace: Arc<Pace>) -> Watched<S> {
        Watched { stream, pace }
    }
}

impl<S: AsyncRead + Unpin> AsyncRead for Watched<S> {
    fn poll_read(
        mut self: Pin<&mut Self>,
        context: &mut Context<'_>,
        into: &mut ReadBuf<'_>,
    ) -> Poll<Result<()>> {
        let before = into.filled().len();
        ready!(Pin::new(&mut self.stream).poll_read(context, into))?;
        if into.filled().len() > before {
            self.pace.bytes_came();
        }
        Poll::Ready(Ok(()))
    }
}

impl<S: AsyncWrite + Unpin> AsyncWrite for Watched<S> {
    fn poll_write(mut self: Pin<&mut Self>, context: &mut Context<'_>, from: &[u8]) -> Poll<Result<usize>> {
        let written = Pin::new(&mut self.stream).poll_write(context, from);
        self.pace.sent(written.is_ready());
        written
    }

    fn poll_flush(mut self: Pin<&mut Self>, context: &mut Context<'_>) -> Poll<Result<()>> {
        Pin::new(&mut self.stream).poll_flush(context)
    }

    fn poll_shutdown(mut self: Pin<&mut Self>, context: &mut Context<'_>) -> Poll<Result<()>> {
        Pin::new(&mut self.stream).poll_shutdown(context)
    }
}

#[cfg(test)]
mod tests {
    use super::*;

    #[test]
    fn only_what_waits_for_the_sender_is_overdue() {
        let at_once = Limits { connections: 1, head: Duration::ZERO, idle: Duration::from_secs(60) };
        let pace = Pace::new();
        assert_eq!(pace.overdue(&at_once, false), None);
        assert!(pace.is_new());
        pace.bytes_came();
        assert!(!pace.is_new());
        assert_eq!(pace.overdue(&at_once, false), Some(Overdue::Head));
        pace.request_begins();
        pace.bytes_came();
        assert_eq!(pace.overdue(&at_once, false), None);
        pace.request_ends();
        assert_eq!(pace.overdue(&at_once, false), None);
        let idle = Duration::ZERO;
        assert_eq!(pace.overdue(&Limits { idle, ..at_once }, false), Some(Overdue::Idle));
    }

    #[test]
    fn who_does_not_read_idles() {
        let limits = Limits { connections: 1, head: Duration::ZERO, idle: Duration::from_secs(60) };
        let pace = Pace::new();
        let is_overdue = |is_full| pace.overdue(&limits, is_full).is_some();
        pace.request_begins();
        pace.sent(false);
        assert!(!is_overdue(true), "its request is under way");
        pace.request_ends();
        assert!(!is_overdue(true), "it may send a next one");
        pace.sent(false);
        assert!(is_overdue(true) && !is_overdue(false));
        pace.sent(true);
        assert!(!is_overdue(true), "it reads");
    }
}
