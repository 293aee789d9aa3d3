//! Serves one HTTP/1.1 connection of a sender: many requests, one after another, until the connection is slow, idle, or
//! evicted. It has HTTP/1.1 of its own (`wire`, `head`) because a post costs more processor time with hyper.

use super::connections::{Limits, Protocol, Shared, Transport};
use super::head::{self, Connection};
use super::permits::{ConnectionPermit, ConnectionPermits};
use super::refusal::Refusal;
use super::wire::Wire;
use super::{answer, Ingest, PostHandler};
use crate::identity::Who;
use crate::latch::Latch;
use crate::otlp::{Encoding, Outcome, NO_NAME};
use crate::tls;
use crate::work::within;
use bytes::Buf;
use std::future::{poll_fn, Future};
use std::pin::{pin, Pin};
use std::sync::Arc;
use std::task::{Context, Poll};
use std::time::Duration;
use tokio::sync::watch;
use tokio::time::{Instant, Sleep};

/// How many times the timer of a connection fires within the time of a head.
const LOOKS: u32 = 4;

/// OTLP/HTTP.
pub struct Http;

impl Protocol for Http {
    const OVER_TLS: tls::Protocol = tls::Protocol::Http;

    async fn connection<S: Transport, T: PostHandler>(
        stream: S,
        shared: Arc<Shared<T>>,
        who: Who,
        permit: Arc<ConnectionPermit>,
    ) {
        let mut waiting = Waiting::new(&shared.limits, shared.stop.clone(), permit, shared.permits.clone());
        let mut wire = Wire::new(stream);
        let ingest = &shared.ingest;
        while let Some(asked) = next(&mut wire, &mut waiting, &who).await {
            let goes_on = match asked {
                Ok(asked) => served(&mut wire, ingest, asked, &mut waiting).await,
                Err(refusal) => {
                    let outcome = ingest.refused(NO_NAME, &refusal);
                    ingest.metrics.answered(&outcome, Encoding::Json, std::time::Instant::now());
                    refused(&mut wire, &outcome, &mut waiting).await;
                    false
                }
            };
            if !goes_on {
                break;
            }
            waiting.looks = 0; // a next request may come
        }
        wire.end().await;
    }
}

/// Answers a request whose head can't be parsed. Its encoding is unknown, so the answer is JSON.
async fn refused<S: Transport>(wire: &mut Wire<S>, outcome: &Outcome, waiting: &mut Waiting) {
    let sent = wire.answer(|out| answer::write(out, outcome, Encoding::Json, Connection::Closed));
    waiting.is_sent(sent).await;
}

/// Serves a request. Returns whether another one may follow.
async fn served<S: Transport, T: PostHandler>(
    wire: &mut Wire<S>,
    ingest: &Ingest<T>,
    asked: head::Asked,
    waiting: &mut Waiting,
) -> bool {
    let began = std::time::Instant::now();
    wire.body_begins(asked.body, asked.waits);
    let outcome = ingest.outcome(asked.head, wire).await;
    ingest.metrics.answered(&outcome, asked.encoding, began);
    let connection = match wire.is_whole() && waiting.may_go_on() {
        true => asked.connection,
        false => Connection::Closed,
    };
    let write = match asked.wants_head {
        true => answer::write_head,
        false => answer::write,
    };
    let sent = wire.answer(|out| write(out, &outcome, asked.encoding, connection));
    waiting.is_sent(sent).await && connection != Connection::Closed
}

/// Reads the next head; none if the connection is over.
async fn next<S: Transport>(
    wire: &mut Wire<S>,
    waiting: &mut Waiting,
    who: &Who,
) -> Option<Result<head::Asked, Refusal>> {
    let mut seen = 0;
    loop {
        if may_be_whole(&wire.input, seen) {
            match head::read(&wire.input, who) {
                Ok(Some((end, asked))) => {
                    wire.input.advance(end);
                    return Some(Ok(asked));
                }
                Ok(None) => seen = wire.input.len(),
                Err(refusal) => return Some(Err(refusal)),
            }
        } else {
            seen = wire.input.len();
        }
        match waiting.for_bytes(wire).await {
            Came::Bytes => {}
            Came::Nothing => return None,
            Came::TooLate => return Some(Err(Refusal::Late)),
        }
    }
}

/// Whether `input`, whose first `seen` bytes had no end of a head, may now contain a whole one. So a head is parsed
/// once or twice, and not again for each byte that arrives.
fn may_be_whole(input: &[u8], seen: usize) -> bool {
    let new = &input[seen.saturating_sub(3).min(input.len())..];
    !input.is_empty()
        && (seen == 0
            || input.len() >= super::wire::READ_AHEAD
            || new.windows(2).any(|two| two == b"\n\n")
            || new.windows(3).any(|three| three == b"\n\r\n"))
}

/// The result of waiting for more of a head.
enum Came {
    Bytes,
    /// The sender has closed or was idle for too long, or the connection is to end and no answer is owed.
    Nothing,
    /// A head began and did not arrive whole in time.
    TooLate,
}

/// How long a connection has waited. One timer serves all its requests: instead of being reset for each, it fires once
/// in a `period` and counts.
struct Waiting {
    period: Duration,
    looks: u32,
    most_idle: u32,
    look: Pin<Box<Sleep>>,
    /// Resolves when the service ends or the connection is evicted.
    stop: Pin<Box<dyn Future<Output = ()> + Send>>,
    /// Whether the timer and `stop` have been polled. They are polled once, not for each request, because all
    /// connections wait for `stop` by one lock.
    are_waited_for: bool,
    stopped: watch::Receiver<bool>,
    ending: bool,
    permit: Arc<ConnectionPermit>,
    permits: Arc<ConnectionPermits>,
}

impl Waiting {
    fn new(
        limits: &Limits,
        stop: watch::Receiver<bool>,
        permit: Arc<ConnectionPermit>,
        permits: Arc<ConnectionPermits>,
    ) -> Waiting {
        let period = (limits.head / LOOKS).max(Duration::from_millis(1));
        let (mut stopped, of_permit) = (stop.clone(), permit.clone());
        Waiting {
            period,
            looks: 0,
            most_idle: (limits.idle.as_millis() / period.as_millis()) as u32,
            look: Box::pin(tokio::time::sleep(period)),
            stop: Box::pin(async move {
                tokio::select! {
                    () = stopped.wait_true() => {}
                    () = of_permit.evicted() => {}
                }
            }),
            are_waited_for: false,
            stopped: stop,
            ending: false,
            permit,
            permits,
        }
    }

    /// Whether the connection stays open after an answer.
    fn may_go_on(&self) -> bool {
        !self.has_stopped() && !self.permits.has_to_close()
    }

    /// Whether the connection is to end. `stopped` never marks a change as seen and `stop` changes only once, so any
    /// change is the end; so is a dropped sender.
    fn has_stopped(&self) -> bool {
        self.permit.is_evicted() || !matches!(self.stopped.has_changed(), Ok(false))
    }

    /// Whether `stop` has resolved. It is polled only if that may have changed, since polling takes a lock that all
    /// connections share.
    fn is_ending(&mut self, context: &mut Context<'_>) -> bool {
        if !self.ending && (!self.are_waited_for || self.has_stopped()) {
            self.ending = self.stop.as_mut().poll(context).is_ready();
        }
        self.ending
    }

    /// Waits until an answer is sent, and returns whether it was. A sender that does not read gets as long as an idle
    /// one, or two periods while another client waits for a permit.
    async fn is_sent(&mut self, sending: impl Future<Output = std::io::Result<()>>) -> bool {
        let mut sending = pin!(sending);
        let mut looks = 0;
        loop {
            match within(self.period, sending.as_mut()).await {
                Some(sent) => return sent.is_ok(),
                None if looks >= self.most_idle || looks > 0 && self.permits.has_waiter() => return false,
                None => looks += 1,
            }
        }
    }

    async fn for_bytes<S: Transport>(&mut self, wire: &mut Wire<S>) -> Came {
        let was_idle = is_blank(&wire.input);
        if was_idle {
            self.permit.mark_idle();
        }
        let came = self.filled(wire).await;
        if was_idle && !is_blank(&wire.input) {
            self.permit.mark_busy();
            self.looks = 0; // the time of the head begins here
        }
        came
    }

    async fn filled<S: Transport>(&mut self, wire: &mut Wire<S>) -> Came {
        let is_idle = is_blank(&wire.input);
        let mut filling = pin!(wire.fill());
        poll_fn(|context| {
            if let Poll::Ready(read) = filling.as_mut().poll(context) {
                return Poll::Ready(match read {
                    Ok(1..) => Came::Bytes,
                    _ => Came::Nothing,
                });
            }
            if self.is_ending(context) && is_idle {
                return Poll::Ready(Came::Nothing);
            }
            if !self.are_waited_for || self.look.is_elapsed() {
                while self.look.as_mut().poll(context).is_ready() {
                    self.look.as_mut().reset(Instant::now() + self.period);
                    self.looks += 1; // the timer may have expired long ago, so the first one says nothing
                    match is_idle {
                        true if self.looks > self.most_idle => return Poll::Ready(Came::Nothing),
                        false if self.looks > LOOKS => return Poll::Ready(Came::TooLate),
                        _ => {}
                    }
                }
            }
            self.are_waited_for = true;
            Poll::Pending
        })
        .await
    }
}

/// Whether no byte of a head has come. Empty lines before a head are ignored (RFC 9112, 2.2): some senders end a body
/// with one.
fn is_blank(input: &[u8]) -> bool {
    input.iter().all(|byte| b"\r\n".contains(byte))
}

#[cfg(test)]
mod tests {
    use super::*;
    use tokio::net::{TcpListener, TcpStream};

    #[test]
    fn a_head_is_read_again_only_where_it_may_be_whole() {
        let head = b"POST / HTTP/1.1\r\na: b\r\n\r\n";
        let reads = (1..=head.len()).filter(|end| may_be_whole(&head[..*end], end - 1));
        assert_eq!(reads.collect::<Vec<_>>(), [1, head.len()]);
        assert!(may_be_whole(b"GET / HTTP/1.1\n\n", 15));
        assert!(!may_be_whole(b"", 0));
    }

    /// Otherwise the connection would hold its permit for ever.
    #[tokio::test]
    async fn an_answer_to_a_bad_head_that_nobody_reads_ends() {
        let listener = TcpListener::bind("127.0.0.1:0").await.unwrap();
        let _sender = TcpStream::connect(listener.local_addr().unwrap()).await.unwrap();
        let (stream, _) = listener.accept().await.unwrap();
        let short = Duration::from_millis(50);
        while tokio::time::timeout(short, stream.writable()).await.is_ok() {
            let _ = stream.try_write(&[0; 64 << 10]); // until all buffers are full
        }
        let (_going, stop) = watch::channel(false);
        let limits = Limits { connections: 1, head: short, idle: short };
        let permits = ConnectionPermits::new(1);
        let permit = permits.acquire(&listener).await;
        let mut waiting = Waiting::new(&limits, stop, permit, permits);
        let mut wire = Wire::new(stream);
        let malformed = Outcome::from(&Refusal::Malformed);
        let refused = refused(&mut wire, &malformed, &mut waiting);
        assert!(tokio::time::timeout(400 * short, refused).await.is_ok());
    }
}
