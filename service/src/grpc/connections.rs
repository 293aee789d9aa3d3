//! Serves a gRPC connection by hyper: bounds the number of its calls, and closes it if it is silent, idle or evicted.

use super::answer;
use super::guard::Guarded;
use crate::identity::Who;
use crate::ingest::connections::{Protocol, Shared, Transport};
use crate::ingest::permits::ConnectionPermit;
use crate::ingest::PostHandler;
use crate::latch::Latch;
use crate::tls;
use crate::work::locked;
use hyper::server::conn::Http;
use hyper::service::service_fn;
use std::convert::Infallible;
use std::sync::{Arc, Mutex};
use std::time::{Duration, Instant};

/// How many calls a connection may have at a time.
const CALLS: u32 = 100;
/// What a client may send ahead for a call, and for its connection; no budget counts these bytes yet.
const AHEAD: u32 = 128 << 10;
const AHEAD_ALL: u32 = 256 << 10;
/// The longest header list of a call.
const HEADERS: u32 = 16 << 10;
/// After this silence the client is pinged, and has this long to answer.
const SILENT: Duration = Duration::from_secs(30);
const TO_ANSWER: Duration = Duration::from_secs(20);
/// How long a client has to end the connection after GOAWAY.
const TO_END: Duration = Duration::from_secs(5);

/// How many calls are in flight and when the last one ended, with the permit of the connection, which is idle between
/// calls.
struct Calls {
    state: Mutex<(usize, Instant)>,
    permit: Arc<ConnectionPermit>,
}

impl Calls {
    fn new(permit: Arc<ConnectionPermit>) -> Arc<Calls> {
        permit.mark_idle();
        Arc::new(Calls { state: Mutex::new((0, Instant::now())), permit })
    }

    fn with<T>(&self, change: impl FnOnce(&mut (usize, Instant)) -> T) -> T {
        change(&mut locked(&self.state))
    }

    fn idle(&self) -> Duration {
        self.with(|(calls, last)| if *calls == 0 { last.elapsed() } else { Duration::ZERO })
    }
}

/// One call, until it is answered or cancelled.
struct Call(Arc<Calls>);

impl Call {
    fn begin(calls: &Arc<Calls>) -> Call {
        calls.with(|all| {
            all.0 += 1;
            calls.permit.mark_busy();
        });
        Call(calls.clone())
    }
}

impl Drop for Call {
    fn drop(&mut self) {
        self.0.with(|all| {
            *all = (all.0 - 1, Instant::now());
            if all.0 == 0 {
                self.0.permit.mark_idle();
            }
        });
    }
}

/// HTTP/2 with these bounds.
fn bounded() -> Http {
    let mut http = Http::new();
    http.http2_only(true)
        .http2_max_concurrent_streams(CALLS)
        .http2_initial_stream_window_size(AHEAD)
        .http2_initial_connection_window_size(AHEAD_ALL)
        .http2_max_header_list_size(HEADERS)
        .http2_keep_alive_interval(SILENT)
        .http2_keep_alive_timeout(TO_ANSWER);
    http
}

/// OTLP/gRPC.
pub struct Grpc;

impl Protocol for Grpc {
    const OVER_TLS: tls::Protocol = tls::Protocol::Grpc;

    async fn connection<S: Transport, T: PostHandler>(
        stream: S,
        shared: Arc<Shared<T>>,
        who: Who,
        permit: Arc<ConnectionPermit>,
    ) {
        let Shared { limits, permits, .. } = &*shared;
        let (ingest, mut stop, who) = (shared.ingest.clone(), shared.stop.clone(), Arc::new(who));
        let calls = Calls::new(permit.clone());
        let of_calls = calls.clone();
        let service = service_fn(move |request| {
            let (ingest, who, call) = (ingest.clone(), who.clone(), Call::begin(&of_calls));
            async move {
                let response = answer(ingest, &who, request).await;
                drop(call);
                Ok::<_, Infallible>(response)
            }
        });
        let mut served = bounded().serve_connection(Guarded::new(stream), service);
        let mut ending: Option<Instant> = None;
        let look = limits.head / 4;
        loop {
            tokio::select! {
                biased;
                _ = &mut served => return,
                _ = stop.wait_true(), if ending.is_none() => {
                    ending = Some(Instant::now());
                    std::pin::Pin::new(&mut served).graceful_shutdown();
                }
                () = permit.evicted(), if ending.is_none() => {
                    ending = Some(Instant::now());
                    std::pin::Pin::new(&mut served).graceful_shutdown();
                }
                _ = tokio::time::sleep(look) => match ending {
                    Some(since) if since.elapsed() >= TO_END && calls.idle() >= TO_END => return,
                    None if calls.idle() >= limits.idle || permits.has_to_close() => {
                        ending = Some(Instant::now());
                        std::pin::Pin::new(&mut served).graceful_shutdown();
                    }
                    _ => {}
                },
            }
        }
    }
}
