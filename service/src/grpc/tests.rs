//! Answers to gRPC clients, and when their connections end.

use super::reply::RetryInfo;
use super::*;
use crate::identity::{AllowedHosts, Door};
use crate::ingest::connections::{spread, Limits, Shared};
use crate::ingest::{Budget, ResponseObserver, Threads};
use crate::metrics::Metrics;
use crate::otlp::Status;
use crate::otlp::{a_request_of_test, Original, Reading, Rejection};
use crate::shard::{Request as Posted, Shards};
use bytes::Bytes;
use flate2::{write::GzEncoder, Compression};
use hyper::body::HttpBody;
use prost::Message;
use std::future::Future;
use std::io::Write;
use std::sync::atomic::{AtomicBool, Ordering::Relaxed};
use std::sync::Mutex;
use std::time::Duration;
use tokio::io::AsyncReadExt;
use tokio::net::{TcpListener, TcpStream};
use tokio::sync::watch;

mod frames;
mod health;
mod slow;

/// Records the posts it gets and returns `outcome`; never answers if there is none.
struct Kept {
    posts: Mutex<Vec<(String, Bytes)>>,
    /// The senders of calls that were refused without asking it.
    turned: Mutex<Vec<String>>,
    outcome: Option<Outcome>,
}

impl PostHandler for Kept {
    fn post(
        self: &Arc<Self>,
        sender: &str,
        request: Posted,
        _: Option<Original>,
    ) -> impl Future<Output = Outcome> + Send {
        let body = request.source().text().unwrap();
        self.posts.lock().unwrap().push((sender.into(), body));
        let outcome = self.outcome.clone();
        async move {
            match outcome {
                Some(outcome) => outcome,
                None => std::future::pending().await,
            }
        }
    }
}

impl ResponseObserver for Kept {
    fn answered(&self, sender: &str, outcome: &Outcome) {
        if outcome.refusal().is_some() {
            self.turned.lock().unwrap().push(sender.into());
        }
    }
}

struct Served {
    address: std::net::SocketAddr,
    kept: Arc<Kept>,
    budget: Arc<Budget>,
    is_available: Arc<AtomicBool>,
    stop: watch::Sender<bool>,
    task: tokio::task::JoinHandle<()>,
}

impl Served {
    async fn with(outcome: Option<Outcome>, max_bytes: usize) -> Served {
        Served::behind(Door::default(), outcome, max_bytes).await
    }

    async fn behind(door: Door, outcome: Option<Outcome>, max_bytes: usize) -> Served {
        let kept = Arc::new(Kept { posts: Mutex::new(Vec::new()), turned: Mutex::new(Vec::new()), outcome });
        let budget = Budget::new(max_bytes);
        let metrics = Arc::new(Metrics::new().unwrap());
        let ingest = Ingest::of(
            Shards::one(Some(kept.clone())),
            kept.clone(),
            Arc::new(Reading::default()),
            budget.clone(),
            metrics,
        );
        let is_available = Arc::new(AtomicBool::new(true));
        let available = is_available.clone();
        ingest.set_available(move || available.load(Relaxed));
        let listener = TcpListener::bind("127.0.0.1:0").await.unwrap();
        let address = listener.local_addr().unwrap();
        let limits =
            Limits { connections: 4, head: Duration::from_millis(200), idle: Duration::from_millis(800) };
        let (stop, stopped) = watch::channel(false);
        let threads = Arc::new(Threads::new(2).unwrap());
        let shared = Shared::new(limits, door, Arc::new(ingest), stopped);
        let task = tokio::spawn(spread::<Grpc, _>(Arc::new(listener), shared, threads));
        Served { address, kept, budget, is_available, stop, task }
    }

    async fn start() -> Served {
        Served::with(Some(Outcome::taken(0)), 64 << 20).await
    }

    /// Makes one call on a connection of its own.
    async fn call(&self, path: &str, headers: &[(&str, &str)], body: Vec<u8>) -> Answer {
        let stream = TcpStream::connect(self.address).await.unwrap();
        let (mut calls, connection) =
            hyper::client::conn::Builder::new().http2_only(true).handshake(stream).await.unwrap();
        tokio::spawn(connection);
        let mut request = Request::post(format!("http://h{path}")).header("te", "trailers");
        for (name, value) in headers {
            request = request.header(*name, *value);
        }
        let response = calls.send_request(request.body(Body::from(body)).unwrap()).await.unwrap();
        let (parts, mut body) = response.into_parts();
        let mut data = Vec::new();
        while let Some(part) = body.data().await {
            data.extend_from_slice(&part.unwrap());
        }
        let trailers = body.trailers().await.unwrap().unwrap_or(parts.headers);
        Answer { status: parts.status.as_u16(), trailers, data }
    }

    async fn export(&self, more: &[(&str, &str)], body: Vec<u8>) -> Answer {
        let headers = [&[("content-type", "application/grpc")], more].concat();
        self.call(METHOD, &headers, body).await
    }

    /// Waits until everything that was in flight has been cancelled.
    async fn nothing_is_held(&self) {
        for _ in 0..500 {
            if self.budget.used() == 0 {
                return;
            }
            tokio::time::sleep(Duration::from_millis(10)).await;
        }
        panic!("{} bytes are held", self.budget.used());
    }
}

struct Answer {
    status: u16,
    trailers: HeaderMap,
    data: Vec<u8>,
}

impl Answer {
    fn text(&self, name: &str) -> &str {
        self.trailers.get(name).map_or("", |value| value.to_str().unwrap())
    }

    fn code(&self) -> i32 {
        self.text("grpc-status").parse().unwrap_or(-1)
    }
}

fn frame(flag: u8, message: &[u8]) -> Vec<u8> {
    [&[flag][..], &(message.len() as u32).to_be_bytes(), message].concat()
}

fn gzip(plain: &[u8]) -> Vec<u8> {
    let mut packer = GzEncoder::new(Vec::new(), Compression::best());
    packer.write_all(plain).unwrap();
    packer.finish().unwrap()
}

#[tokio::test]
async fn a_call_goes_the_way_of_a_post() {
    let served = Served::start().await;
    let request = a_request_of_test();
    for (more, body) in [
        (&[("x-sender", "shop-1")][..], frame(0, &request)),
        (&[("grpc-encoding", "identity")], frame(0, &request)),
        (&[("grpc-encoding", "gzip")], frame(1, &gzip(&request))),
        (&[("grpc-encoding", "zstd")], frame(1, &crate::ingest::zstd_packed(&request))),
        (&[("grpc-encoding", "gzip")], frame(0, &request)),
    ] {
        let answer = served.export(more, body).await;
        assert_eq!((answer.status, answer.code(), answer.data), (200, 0, frame(0, b"")));
    }
    let posts = served.kept.posts.lock().unwrap().clone();
    let wanted = crate::otlp::prepare(Encoding::Protobuf, request.into(), &Reading::default());
    let wanted = wanted.unwrap().body;
    assert!(posts.len() == 5 && posts.iter().all(|post| post.1 == wanted));
    assert_eq!((posts[0].0.as_str(), posts[1].0.as_str()), ("shop-1", "-"));
    served.nothing_is_held().await;
}

#[tokio::test]
async fn what_a_shard_says_is_said_as_grpc_does() {
    let partial = Served::with(Some(Outcome::taken(7)), 1 << 20).await;
    let answer = partial.export(&[], frame(0, b"")).await;
    assert_eq!(answer.data, frame(0, &Outcome::taken(7).body(Encoding::Protobuf)));
    let text = "50% \u{fc}ber";
    let later = Rejection { seconds: Some(7), ..Rejection::new(Reason::OverQuota, text) }.into();
    let refused = |reason| Outcome::refused(reason, text);
    let refused = [Reason::OutOfOrder, Reason::Quarantined, Reason::Full].map(refused);
    for (outcome, wanted) in refused.into_iter().chain([later]).zip([3, 7, 14, 8]) {
        let again = outcome.again_in();
        let served = Served::with(Some(outcome), 1 << 20).await;
        let answer = served.export(&[], frame(0, b"")).await;
        assert_eq!((answer.status, answer.code(), answer.data.len()), (200, wanted, 0));
        assert_eq!(answer.text("grpc-message"), "50%25 %C3%BCber");
        let details = answer.text("grpc-status-details-bin");
        assert_eq!(details.is_empty(), again.is_none());
        if let Some(seconds) = again {
            let bytes = base64::decode_config(details, base64::STANDARD_NO_PAD).unwrap();
            let status = Status::decode(&bytes[..]).unwrap();
            assert_eq!((status.code, status.message.as_str()), (wanted, "50% \u{fc}ber"));
            assert_eq!(status.details[0].type_url, "type.googleapis.com/google.rpc.RetryInfo");
            let retry = RetryInfo::decode(&status.details[0].value[..]).unwrap();
            assert_eq!(retry.retry_delay.unwrap().seconds as u64, seconds);
        }
    }
    assert_eq!([Reason::BodyTooLong, Reason::Deadline].map(Reason::grpc_status), [8, 4]);
}

#[tokio::test]
async fn what_is_no_call_of_the_method_is_refused() {
    let served = Served::start().await;
    let kind = ("content-type", "application/grpc+proto");
    let answer = served.call("/a.B/Export", &[kind], frame(0, b"")).await;
    assert_eq!(
        (answer.code(), answer.text("grpc-message")),
        (12, "no such method: call MetricsService/Export")
    );
    for kind in ["application/json", "application/grpc+json", "application/grpc-web"] {
        let answer = served.call(METHOD, &[("content-type", kind)], frame(0, b"")).await;
        assert_eq!((answer.status, answer.code()), (415, -1), "{kind}");
    }
    let answer = served.export(&[("grpc-encoding", "snappy")], frame(1, b"x")).await;
    assert_eq!((answer.code(), answer.text("grpc-accept-encoding")), (12, "identity,gzip,zstd"));
    for (more, body, wanted) in [
        (&[][..], frame(1, &gzip(b"")), 3),
        (&[("grpc-encoding", "gzip")], frame(1, b"no gzip"), 3),
        (&[("grpc-encoding", "zstd")], frame(1, b"no zstd"), 3),
        (&[("grpc-encoding", "gzip")], frame(1, &gzip(&vec![0; 100 << 20])), 8),
        (&[("x-sender", "a b")], frame(0, b""), 3),
        (&[], vec![], 3),
        (&[], frame(0, b"\xff"), 3),
        (&[], [frame(0, b""), frame(0, b"")].concat(), 3),
        (&[], frame(0, &vec![0; (4 << 20) + 1]), 8),
    ] {
        let answer = served.export(more, body).await;
        assert_eq!((answer.status, answer.code()), (200, wanted), "{more:?}");
        assert!(!answer.text("grpc-message").is_empty());
    }
    assert!(served.kept.posts.lock().unwrap().is_empty());
    served.nothing_is_held().await;
    let narrow = Served::with(Some(Outcome::taken(0)), 1000).await;
    let long = narrow.export(&[], frame(0, &[0; 900])).await;
    assert_eq!(long.code(), 8, "there is never so much");
    let mut others = narrow.budget.hold();
    others.set(990).unwrap();
    assert_eq!(narrow.export(&[], frame(0, &[0; 20])).await.code(), 14);
}

#[tokio::test]
async fn a_stranger_is_told_so() {
    let at = tempfile::tempdir().unwrap();
    let (path, metrics) = (at.path().join("tokens"), Arc::new(Metrics::new().unwrap()));
    std::fs::write(&path, crate::identity::line("shop-1/shop-*", "t0ken")).unwrap();
    let door = Door::open(None, Some(path), &metrics).unwrap();
    let served = Served::behind(door, Some(Outcome::taken(0)), 1 << 20).await;
    let token = ("authorization", "Bearer t0ken");
    for (more, code, message) in [
        (&[token][..], 0, ""),
        (&[token, ("x-sender", "shop-2")], 0, ""),
        (&[token, ("x-sender", "other")], 7, "shop-1 may not post as other"),
        (&[token, ("x-sender", "a b")], 3, "bad sender"),
        (&[("authorization", "Bearer t0ken2")], 16, "the token is not known"),
        (&[token, token], 16, "no token"),
        (&[("x-sender", "shop-1")], 16, "no token"),
    ] {
        let answer = served.export(more, frame(0, b"")).await;
        assert_eq!((answer.status, answer.code()), (200, code), "{more:?}");
        assert!(answer.text("grpc-message").starts_with(message), "{more:?}");
    }
    let posts = served.kept.posts.lock().unwrap().clone();
    let senders: Vec<&str> = posts.iter().map(|post| post.0.as_str()).collect();
    assert_eq!(senders, ["shop-1", "shop-2"]);
    let stranger = "address 127.0.0.1";
    let turned = served.kept.turned.lock().unwrap().clone();
    assert_eq!(turned, ["shop-1", "shop-1", stranger, stranger, stranger]);
}

/// As over HTTP. The authority of each call here is `h`.
#[tokio::test]
async fn a_call_to_a_name_that_is_none_of_ours_is_refused() {
    for (ours, code) in [("h:4317", 0), ("box-1:4317", 7)] {
        let door = Door::default().with_allowed_hosts(AllowedHosts::new([ours.to_string()]));
        let served = Served::behind(door, Some(Outcome::taken(0)), 1 << 20).await;
        let answer = served.export(&[], frame(0, b"")).await;
        assert_eq!(answer.code(), code, "{ours}");
        assert_eq!(answer.text("grpc-message").starts_with("another host: `h`"), code == 7);
    }
}

#[tokio::test]
async fn a_deadline_ends_the_call_and_not_the_post() {
    let served = Served::with(None, 1 << 20).await;
    let answer = served.export(&[("grpc-timeout", "50m")], frame(0, b"")).await;
    assert_eq!(answer.code(), 4);
    assert!(answer.text("grpc-message").starts_with("the deadline has passed: "));
    assert_eq!(served.kept.posts.lock().unwrap().len(), 1);
    assert_eq!(*served.kept.turned.lock().unwrap(), ["-"], "no operator would see it");
}

/// Headers may be long, and no budget counts them.
#[tokio::test]
async fn headers_are_dropped_while_a_message_comes() {
    let (kept, metrics) = (Served::start().await.kept, Arc::new(Metrics::new().unwrap()));
    let (shards, reading) = (Shards::one(Some(kept)), Arc::new(Reading::default()));
    let ingest = Ingest::of(shards, Arc::new(()), reading, Budget::new(1 << 20), metrics);
    let (with_headers, (_sender, body)) = (Arc::new(()), Body::channel());
    let are_there = Arc::downgrade(&with_headers);
    let request = Request::post(METHOD).header("content-type", "application/grpc");
    let request = request.extension(with_headers).body(body).unwrap();
    let who = Door::default().who(None, None);
    let answering = tokio::spawn(async move { answer(Arc::new(ingest), &who, request).await });
    for _ in 0..500 {
        if are_there.upgrade().is_none() {
            break;
        }
        tokio::time::sleep(Duration::from_millis(10)).await;
    }
    assert!(are_there.upgrade().is_none() && !answering.is_finished());
}

#[tokio::test]
async fn silent_and_stopped_connections_end() {
    let served = Served::with(None, 1 << 20).await;
    let mut silent = TcpStream::connect(served.address).await.unwrap();
    let mut nothing = Vec::new();
    let read = tokio::time::timeout(Duration::from_secs(8), silent.read_to_end(&mut nothing)).await;
    assert!(read.is_ok(), "a connection without a preface goes on");
    let address = served.address;
    let under_way = async { served.export(&[("grpc-timeout", "500m")], frame(0, b"")).await.code() };
    let stopping = async {
        while served.kept.posts.lock().unwrap().is_empty() {
            tokio::time::sleep(Duration::from_millis(5)).await;
        }
        served.stop.send_replace(true);
    };
    let (code, ()) = tokio::join!(under_way, stopping);
    assert_eq!(code, 4, "a call that is under way is answered");
    tokio::time::timeout(Duration::from_secs(10), served.task).await.unwrap().unwrap();
    assert!(TcpStream::connect(address).await.is_err());
}
