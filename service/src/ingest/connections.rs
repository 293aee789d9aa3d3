//! Accepts the connections of an address, as many at a time as it has `permits`, and serves those of the admin
//! addresses and of other instances. Slow and idle connections are closed, and idle ones sooner while another client
//! waits for a permit. `front` and `grpc` serve the connections of senders.

use super::pace::{Overdue, Pace, Watched};
use super::permits::{ConnectionPermit, ConnectionPermits};
use super::user::User;
use super::wire::READ_AHEAD;
use super::{Ingest, Listener, PostHandler, Threads};
use crate::identity::{Door, Who};
use crate::latch::Latch;
use crate::log::RateLimit;
use crate::tls::{self, ClientChain, Tls};
use hyper::server::conn::Http;
use hyper::service::service_fn;
use hyper::{Body, Request, Response};
use std::convert::Infallible;
use std::future::{poll_fn, Future};
use std::net::IpAddr;
use std::pin::pin;
use std::sync::Arc;
use std::time::Duration;
use tokio::io::{AsyncRead, AsyncWrite, AsyncWriteExt};
use tokio::net::{TcpListener, TcpStream};
use tokio::sync::watch;
use tokio::task::JoinSet;

/// The pause after an accept has failed, for example for want of file descriptors.
const NO_CONNECTION: Duration = Duration::from_millis(100);
/// Limits the warning about it to one a second for all addresses together.
static TOLD: RateLimit = RateLimit::new();

/// How often a connection is checked for being overdue.
const LOOK: Duration = Duration::from_secs(1);

/// How long the shutdown waits for the last answers to operators and other instances.
const LAST_ANSWERS: Duration = Duration::from_secs(2);

/// The response to a head that did not arrive in time. The encoding of the request is unknown, so it is JSON.
const LATE: &[u8] =
    b"HTTP/1.1 408 Request Timeout\r\ncontent-type: application/json\r\ncontent-length: 48\r\n\
connection: close\r\n\r\n{\"message\":\"the request did not arrive in time\"}";

/// Answers requests.
pub trait Handler: Send + Sync + 'static {
    fn answer(self: Arc<Self>, request: Request<Body>) -> impl Future<Output = Response<Body>> + Send;
}

/// The limits of the connections of one address.
#[derive(Clone, Debug)]
pub struct Limits {
    /// How many there may be at a time; further ones wait in the system's queue.
    pub connections: usize,
    /// How long a head may take from its first byte.
    pub head: Duration,
    /// How long a connection may be idle between requests.
    pub idle: Duration,
}

/// Accepts the next connection, then waits for its permit. In this order the permits know whether a client waits for
/// one.
async fn accepted<L: Listener>(
    permits: &ConnectionPermits,
    listener: &L,
) -> (L::Stream, Arc<ConnectionPermit>) {
    loop {
        match listener.accepted().await {
            Ok(stream) => return (stream, permits.acquire(listener).await),
            Err(error) => {
                if TOLD.is_due() {
                    let reason = error.to_string();
                    tracing::warn!(reason, "no connection can be accepted");
                }
                tokio::time::sleep(NO_CONNECTION).await;
            }
        }
    }
}

/// Accepts connections until `stop` is true or its sender is dropped, and returns those that are still open. Several
/// callers may accept from one listener; each connection goes to one of them.
async fn accept<L: Listener>(
    listener: Arc<L>,
    permits: Arc<ConnectionPermits>,
    mut stop: watch::Receiver<bool>,
    begin: impl Fn(&mut JoinSet<()>, L::Stream, Arc<ConnectionPermit>),
) -> JoinSet<()> {
    let mut open = JoinSet::new();
    let mut next = pin!(accepted(&permits, &*listener));
    loop {
        tokio::select! {
            _ = stop.wait_true() => break,
            Some(_) = open.join_next(), if !open.is_empty() => {}
            (stream, permit) = &mut next => {
                begin(&mut open, stream, permit);
                next.set(accepted(&permits, &*listener));
            }
        }
    }
    open
}

/// Waits until each connection has ended.
async fn ended(open: &mut JoinSet<()>) {
    while open.join_next().await.is_some() {}
}

/// The same within `LAST_ANSWERS`; after that, the remaining connections are aborted.
async fn ended_in_time(mut open: JoinSet<()>) {
    if tokio::time::timeout(LAST_ANSWERS, ended(&mut open)).await.is_err() {
        open.shutdown().await;
    }
}

/// The stream of a connection of senders: TCP, or TLS over it. The type is static, so no byte costs a dynamic call.
pub trait Transport: AsyncRead + AsyncWrite + Unpin + Send + 'static {}

impl<S: AsyncRead + AsyncWrite + Unpin + Send + 'static> Transport for S {}

/// The protocol that senders speak at an address.
pub trait Protocol: 'static {
    const OVER_TLS: tls::Protocol;

    /// Serves a connection until it ends.
    fn connection<S: Transport, T: PostHandler>(
        stream: S,
        shared: Arc<Shared<T>>,
        who: Who,
        permit: Arc<ConnectionPermit>,
    ) -> impl Future<Output = ()> + Send;
}

/// State shared by the connections of one sender address.
pub struct Shared<T> {
    pub(crate) limits: Limits,
    pub(crate) door: Door,
    pub(crate) permits: Arc<ConnectionPermits>,
    pub(crate) ingest: Arc<Ingest<T>>,
    pub(crate) stop: watch::Receiver<bool>,
}

impl<T: PostHandler> Shared<T> {
    pub fn new(
        limits: Limits,
        door: Door,
        ingest: Arc<Ingest<T>>,
        stop: watch::Receiver<bool>,
    ) -> Arc<Shared<T>> {
        Arc::new(Shared { permits: ConnectionPermits::new(limits.connections), limits, door, ingest, stop })
    }
}

/// Serves senders, each connection on one of the threads, until `stop` is true or its sender is dropped. After that it
/// accepts nothing more, has the requests in flight answered, and returns after the last of them.
pub async fn spread<P: Protocol, T: PostHandler>(
    listener: Arc<impl Listener<Stream = TcpStream>>,
    shared: Arc<Shared<T>>,
    threads: Arc<Threads>,
) {
    let (permits, stop) = (shared.permits.clone(), shared.stop.clone());
    let begin = |open: &mut JoinSet<()>, stream: TcpStream, permit: Arc<ConnectionPermit>| {
        // The stream is registered with the runtime of its serving thread, not with this one.
        let peer = stream.peer_addr().ok().map(|peer| peer.ip());
        let Ok(stream) = stream.into_std() else { return };
        let (shared, threads) = (shared.clone(), threads.clone());
        match shared.door.tls.clone() {
            Some(tls) => {
                let runtime = tls.runtime();
                open.spawn_on(over_tls::<P, T>(stream, peer, shared, threads, tls, permit), &runtime);
            }
            None => {
                let (thread, turn) = threads.place();
                let serving = async move {
                    if let Ok(stream) = TcpStream::from_std(stream) {
                        let who = shared.door.who(None, peer);
                        P::connection(stream, shared, who, permit).await;
                    }
                    drop(turn);
                };
                open.spawn_on(serving, &thread);
            }
        }
    };
    ended(&mut accept(listener, permits, stop, begin).await).await;
}

/// Does the handshake of a connection before it is served. The handshake counts as a connection, and runs on none of
/// the threads that serve posts.
async fn over_tls<P: Protocol, T: PostHandler>(
    stream: std::net::TcpStream,
    peer: Option<IpAddr>,
    shared: Arc<Shared<T>>,
    threads: Arc<Threads>,
    tls: Arc<Tls>,
    permit: Arc<ConnectionPermit>,
) {
    let mut stop = shared.stop.clone();
    let shaken = tokio::select! {
        shaken = tls.handshake(stream, P::OVER_TLS, || shared.permits.has_waiter()) => shaken,
        _ = stop.wait_true() => None, // no request has come, so no answer is owed
    };
    let Some(shaken) = shaken else { return };
    let (thread, turn) = threads.place();
    let serving = thread.spawn(async move {
        let who = shared.door.who(Some(&shaken), peer);
        if let Ok(stream) = shaken.arrive() {
            P::connection(stream, shared, who, permit).await;
        }
        drop(turn);
    });
    let _ = serving.await; // it fails only if the connection panics
}

/// Serves operators or other instances on the calling runtime until `stop` is true. In contrast to `spread`, it waits
/// only `LAST_ANSWERS` for connections that are still open.
pub async fn serve<L: Listener, H: Handler>(
    listener: Arc<L>,
    limits: Limits,
    handler: Arc<H>,
    stop: watch::Receiver<bool>,
) {
    let permits = ConnectionPermits::new(limits.connections);
    let (stopped, of_address) = (stop.clone(), permits.clone());
    let begin = |open: &mut JoinSet<()>, stream: L::Stream, permit: Arc<ConnectionPermit>| {
        let user = L::user(&stream);
        let serving =
            connection(stream, user, of_address.clone(), limits.clone(), handler.clone(), stopped.clone());
        open.spawn(async move {
            serving.await;
            drop(permit);
        });
    };
    ended_in_time(accept(listener, permits, stop, begin).await).await;
}

/// Does the same over TLS with client certificates, if there is a `tls`. Each connection begins with a handshake, which
/// counts as a connection, and ends when the certificate of the client is no longer valid.
pub async fn serve_over<H: Handler>(
    listener: Arc<TcpListener>,
    tls: Option<Arc<Tls>>,
    limits: Limits,
    handler: Arc<H>,
    stop: watch::Receiver<bool>,
) {
    let Some(tls) = tls else {
        return serve(listener, limits, handler, stop).await;
    };
    let permits = ConnectionPermits::new(limits.connections);
    let of_address = permits.clone();
    let begin = |open: &mut JoinSet<()>, stream: TcpStream, permit: Arc<ConnectionPermit>| {
        let Ok(stream) = stream.into_std() else { return };
        let (tls, permits, limits) = (tls.clone(), of_address.clone(), limits.clone());
        let (handler, mut stop) = (handler.clone(), stop.clone());
        open.spawn(async move {
            let (shaking, full) = (tls.clone(), permits.clone());
            let shaking = async move {
                let is_full = || full.has_waiter();
                shaking.handshake(stream, tls::Protocol::Http, is_full).await
            };
            let shaken = tokio::select! {
                shaken = tls.runtime().spawn(shaking) => shaken.ok().flatten(),
                _ = stop.wait_true() => None, // no request has come, so no answer is owed
            };
            if let Some(shaken) = shaken {
                let chain = shaken.chain(&tls);
                let (end, ended) = watch::channel(false);
                let ends = async {
                    tokio::select! {
                        _ = stop.wait_true() => {}
                        () = is_over(chain) => {}
                    }
                    end.send_replace(true);
                    std::future::pending().await
                };
                if let Ok(stream) = shaken.arrive() {
                    tokio::select! {
                        () = ends => {}
                        () = connection(stream, None, permits, limits, handler, ended) => {}
                    }
                }
            }
            drop(permit);
        });
    };
    ended_in_time(accept(listener, permits, stop.clone(), begin).await).await;
}

/// Waits until the certificate that a client has shown expires, or is no longer trusted because the files have changed.
async fn is_over(chain: Option<ClientChain>) {
    while chain.as_ref().is_some_and(ClientChain::is_believed) {
        tokio::time::sleep(LOOK).await;
    }
}

async fn connection<S: Transport, H: Handler>(
    stream: S,
    user: Option<User>,
    permits: Arc<ConnectionPermits>,
    limits: Limits,
    handler: Arc<H>,
    mut stop: watch::Receiver<bool>,
) {
    let pace = Pace::new();
    let of_requests = pace.clone();
    let service = service_fn(move |mut request: Request<Body>| {
        let (handler, pace) = (handler.clone(), of_requests.clone());
        if let Some(user) = user {
            request.extensions_mut().insert(user);
        }
        // Boxed, so that the service is `Unpin` and the stream can be taken back after a late head.
        Box::pin(async move {
            pace.request_begins();
            let response = handler.answer(request).await;
            pace.request_ends();
            Ok::<_, Infallible>(response)
        })
    });
    let mut http = Http::new();
    http.http1_only(true).http1_half_close(true).http1_writev(false).max_buf_size(READ_AHEAD);
    let mut served = http.serve_connection(Watched::new(stream, pace.clone()), service);
    let mut closing = false;
    loop {
        tokio::select! {
            biased;
            _ = poll_fn(|context| served.poll_without_shutdown(context)) => break,
            _ = stop.wait_true(), if !closing => {
                if pace.is_new() {
                    break;
                }
                closing = true;
                std::pin::Pin::new(&mut served).graceful_shutdown();
            }
            _ = tokio::time::sleep(LOOK.min(limits.head / 4)) => match pace.overdue(&limits, permits.has_waiter()) {
                None => {}
                Some(Overdue::Idle) => break,
                Some(Overdue::Head) => {
                    let mut stream = served.into_parts().io;
                    let _ = stream.write_all(LATE).await; // a client that does not read it is gone
                    return;
                }
            },
        }
    }
    let mut stream = served.into_parts().io;
    let _ = stream.shutdown().await; // the client may be gone already
}

#[cfg(test)]
mod tests;
