//! An ingest address on a port of its own, and a client that writes bytes.

use bytes::Bytes;
use flate2::{write::GzEncoder, Compression};
use std::future::Future;
use std::io::Write;
use std::sync::{Arc, Mutex};
use std::time::Duration;
use tokio::io::{AsyncRead, AsyncReadExt, AsyncWrite, AsyncWriteExt};
use tokio::net::{TcpListener, TcpStream};
use tokio::sync::watch;
use totxegun::identity::Door;
use totxegun::ingest::connections::{spread, Shared};
use totxegun::ingest::front::Http;
use totxegun::ingest::{Budget, Ingest, Limits, PostHandler, ResponseObserver, Threads};
use totxegun::metrics::Metrics;
use totxegun::otlp::{Original, Outcome, Reading};
use totxegun::shard::{Request, Shards};

pub const BODY: &str = r#"{"resourceMetrics":[]}"#;
/// Time limits: `LATE` for tests of slow senders; all others have time enough even on a busy machine.
pub const LATE: Duration = Duration::from_millis(400);
pub const PATIENCE: Duration = Duration::from_secs(30);

/// Keeps the posts that it gets, and gives the answer that it was told to give.
pub struct Kept {
    pub posts: Mutex<Vec<(String, Bytes)>>,
    /// The senders of requests that were answered without asking, with the answers.
    pub turned: Mutex<Vec<(String, u16, String)>>,
    pub outcome: Outcome,
}

impl PostHandler for Kept {
    fn post(
        self: &Arc<Self>,
        sender: &str,
        request: Request,
        _: Option<Original>,
    ) -> impl Future<Output = Outcome> + Send {
        let body = request.source().text().unwrap();
        self.posts.lock().unwrap().push((sender.into(), body));
        std::future::ready(self.outcome.clone())
    }
}

impl ResponseObserver for Kept {
    fn answered(&self, sender: &str, outcome: &Outcome) {
        if let Some(text) = outcome.refusal() {
            let of_it = (sender.into(), outcome.status(), text.to_string());
            self.turned.lock().unwrap().push(of_it);
        }
    }
}

/// An ingest address on a port of its own.
pub struct Served {
    pub address: std::net::SocketAddr,
    pub kept: Arc<Kept>,
    pub budget: Arc<Budget>,
    pub metrics: Arc<Metrics>,
    pub stop: watch::Sender<bool>,
    pub task: tokio::task::JoinHandle<()>,
}

impl Served {
    pub async fn start() -> Served {
        Served::with(Outcome::taken(0), 64 << 20, 8).await
    }

    pub async fn with(outcome: Outcome, max_bytes: usize, connections: usize) -> Served {
        Served::within(PATIENCE, outcome, max_bytes, connections).await
    }

    /// An ingest that does not wait for senders slower than `LATE`.
    pub async fn impatient() -> Served {
        Served::within(LATE, Outcome::taken(0), 64 << 20, 8).await
    }

    pub async fn within(
        patience: Duration,
        outcome: Outcome,
        max_bytes: usize,
        connections: usize,
    ) -> Served {
        let limits = Limits { connections, head: patience, idle: 3 * patience };
        Served::limited(limits, patience, outcome, max_bytes).await
    }

    pub async fn limited(limits: Limits, patience: Duration, outcome: Outcome, max_bytes: usize) -> Served {
        Served::all(Door::default(), limits, patience, outcome, max_bytes).await
    }

    /// With TLS and names.
    pub async fn behind(door: Door) -> Served {
        let limits = Limits { connections: 8, head: PATIENCE, idle: 3 * PATIENCE };
        Served::behind_with(door, limits).await
    }

    pub async fn behind_with(door: Door, limits: Limits) -> Served {
        Served::all(door, limits, PATIENCE, Outcome::taken(0), 64 << 20).await
    }

    pub async fn all(
        door: Door,
        limits: Limits,
        patience: Duration,
        outcome: Outcome,
        max_bytes: usize,
    ) -> Served {
        let kept = Arc::new(Kept { posts: Mutex::new(Vec::new()), turned: Mutex::new(Vec::new()), outcome });
        let metrics = Arc::new(Metrics::new().unwrap());
        let budget = Budget::new(max_bytes);
        let shards = Shards::one(Some(kept.clone()));
        let reading = Arc::new(Reading::default());
        let ingest = Ingest::of(shards, kept.clone(), reading, budget.clone(), metrics.clone())
            .with_patience(patience);
        let listener = TcpListener::bind("127.0.0.1:0").await.unwrap();
        let address = listener.local_addr().unwrap();
        let (stop, stopped) = watch::channel(false);
        let threads = Arc::new(Threads::new(2).unwrap());
        let shared = Shared::new(limits, door, Arc::new(ingest), stopped);
        let task = tokio::spawn(spread::<Http, _>(Arc::new(listener), shared, threads));
        Served { address, kept, budget, metrics, stop, task }
    }

    pub async fn client(&self) -> Client {
        Client { stream: TcpStream::connect(self.address).await.unwrap(), read: Vec::new() }
    }

    /// Sends one request on a connection of its own.
    pub async fn ask(&self, request: &[u8]) -> Answer {
        let mut client = self.client().await;
        client.write(request).await;
        client.answer().await
    }

    pub fn bodies(&self) -> Vec<Bytes> {
        self.kept.posts.lock().unwrap().iter().map(|(_, body)| body.clone()).collect()
    }
}

pub struct Client<S = TcpStream> {
    pub stream: S,
    pub read: Vec<u8>,
}

#[derive(Debug)]
pub struct Answer {
    pub status: u16,
    pub head: String,
    pub body: Vec<u8>,
}

impl Answer {
    pub fn message(&self) -> String {
        let read: serde_json::Value = serde_json::from_slice(&self.body).expect("JSON");
        read["message"].as_str().unwrap_or_default().to_string()
    }

    pub fn has(&self, header: &str) -> bool {
        self.head.to_ascii_lowercase().lines().any(|line| line == header)
    }

    pub fn is_taken_and_last(&self) -> bool {
        self.status == 200 && self.has("connection: close")
    }
}

impl<S: AsyncRead + AsyncWrite + Unpin> Client<S> {
    pub async fn write(&mut self, bytes: &[u8]) {
        self.stream.write_all(bytes).await.unwrap();
    }

    /// Reads until `until` is found in what was read. False if the connection ends before.
    pub async fn more(&mut self) -> bool {
        let mut part = [0; 4096];
        let reading = tokio::time::timeout(Duration::from_secs(20), self.stream.read(&mut part));
        match reading.await.expect("an answer in time") {
            Ok(0) | Err(_) => false,
            Ok(length) => {
                self.read.extend_from_slice(&part[..length]);
                true
            }
        }
    }

    pub async fn answer(&mut self) -> Answer {
        let end = loop {
            if let Some(end) = self.read.windows(4).position(|four| four == b"\r\n\r\n") {
                break end + 4;
            }
            assert!(self.more().await, "the connection ended: {:?}", String::from_utf8_lossy(&self.read));
        };
        let head = String::from_utf8(self.read.drain(..end).collect()).unwrap();
        let status = head[9..12].parse().unwrap();
        let length = head
            .to_ascii_lowercase()
            .lines()
            .find_map(|line| line.strip_prefix("content-length: ")?.parse().ok());
        let length = length.unwrap_or(0);
        while self.read.len() < length {
            assert!(self.more().await, "the connection ended within a body");
        }
        Answer { status, head, body: self.read.drain(..length).collect() }
    }

    /// Whether a request is answered 200. The connection may end before.
    pub async fn takes(&mut self, request: &[u8]) -> bool {
        if self.stream.write_all(request).await.is_err() {
            return false;
        }
        while !self.read.starts_with(b"HTTP/1.1 200") {
            if !self.more().await {
                return false;
            }
        }
        true
    }

    /// Whether the connection ends without another byte.
    pub async fn ends(&mut self) -> bool {
        self.read.is_empty() && !self.more().await
    }
}

pub fn post(headers: &str, body: &[u8]) -> Vec<u8> {
    let head =
        format!("POST /v1/metrics HTTP/1.1\r\nHost: a\r\n{headers}Content-Length: {}\r\n\r\n", body.len());
    [head.as_bytes(), body].concat()
}

pub fn json(body: &[u8]) -> Vec<u8> {
    post("Content-Type: application/json\r\n", body)
}

pub fn gzip(plain: &[u8]) -> Vec<u8> {
    let mut packer = GzEncoder::new(Vec::new(), Compression::best());
    packer.write_all(plain).unwrap();
    packer.finish().unwrap()
}
