//! Owners that answer, stall or break off, each at its own address.

use super::*;
use crate::ingest::connections::Handler;
use hyper::server::conn::Http;
use hyper::service::service_fn;
use std::collections::VecDeque;
use std::convert::Infallible;
use std::sync::atomic::AtomicUsize;
use std::sync::Mutex;
use tokio::io::{AsyncReadExt, AsyncWriteExt};
use tokio::net::TcpStream;

/// Shard, term, sender, encoding and body.
pub type Came = (u16, u64, String, Encoding, Bytes);

/// The shards of an instance: what arrived, and how it is answered.
#[derive(Default)]
pub struct Shards {
    pub came: Mutex<Vec<Came>>,
    pub says: Mutex<VecDeque<Option<Outcome>>>,
    pub takes: Duration,
    pub at_once: AtomicUsize,
    pub most_at_once: AtomicUsize,
}

impl Here for Shards {
    fn post<'a>(
        &'a self,
        shard: u16,
        term: u64,
        sender: &'a str,
        part: Original,
    ) -> Doing<'a, Option<Outcome>> {
        Box::pin(async move {
            let came = (shard, term, sender.to_string(), part.encoding, part.body);
            self.came.lock().unwrap().push(came);
            let now = self.at_once.fetch_add(1, SeqCst) + 1;
            self.most_at_once.fetch_max(now, SeqCst);
            sleep(self.takes).await;
            self.at_once.fetch_sub(1, SeqCst);
            self.says.lock().unwrap().pop_front().unwrap_or(Some(Outcome::taken(0)))
        })
    }
}

impl Shards {
    /// Shards that take this long for each post.
    pub fn slow(takes: Duration) -> Shards {
        Shards { takes, ..Shards::default() }
    }

    pub fn count(&self) -> usize {
        self.came.lock().unwrap().len()
    }
}

/// Answers questions of operators with their own words.
pub struct Echoes;

impl Answers for Echoes {
    fn answer_question(self: Arc<Self>, question: Bytes) -> Doing<'static, Option<Vec<u8>>> {
        Box::pin(async move { (question != "another version").then(|| [b"said ", &question[..]].concat()) })
    }
}

/// An instance with its own address.
pub struct Peer {
    pub cluster: Arc<Cluster>,
    pub shards: Arc<Shards>,
    pub address: String,
    pub connections: Arc<AtomicUsize>,
}

pub fn secret(text: &str) -> Secret {
    Secret::new(text).unwrap()
}

/// An instance that owns shard 3, or not.
pub fn internal(shards: Shards, whose: ShardOwner) -> (Arc<Cluster>, Arc<Shards>, Arc<Internal<Shards>>) {
    let (cluster, shards) = (Cluster::new("peer", None), Arc::new(shards));
    cluster.knows(&[(3, whose)]);
    let internal = Internal::new(cluster.clone(), shards.clone(), secret("of all"), Arc::new(Echoes));
    (cluster, shards, internal)
}

impl Peer {
    pub async fn with(shards: Shards, whose: ShardOwner) -> Peer {
        let listener = TcpListener::bind("127.0.0.1:0").await.unwrap();
        let address = listener.local_addr().unwrap().to_string();
        let (cluster, shards, internal) = internal(shards, whose);
        let connections = Arc::new(AtomicUsize::new(0));
        let counted = connections.clone();
        tokio::spawn(async move {
            while let Ok((stream, _)) = listener.accept().await {
                counted.fetch_add(1, SeqCst);
                let internal = internal.clone();
                let service = service_fn(move |request| {
                    let internal = internal.clone();
                    async move { Ok::<_, Infallible>(internal.answer(request).await) }
                });
                tokio::spawn(Http::new().serve_connection(stream, service));
            }
        });
        Peer { cluster, shards, address, connections }
    }

    pub async fn here() -> Peer {
        Peer::with(Shards::default(), ShardOwner::Here { term: 5 }).await
    }

    pub fn whose(&self) -> ShardOwner {
        there(&self.address)
    }
}

pub fn there(address: &str) -> ShardOwner {
    ShardOwner::There { name: "peer".into(), address: address.into(), term: 5 }
}

/// The instance that senders post to.
pub fn receiver(whose: ShardOwner, secret: Secret) -> Arc<Forward<Shards>> {
    let cluster = Cluster::new("receiver", None);
    cluster.knows(&[(3, whose)]);
    Arc::new(Forward::new(cluster, secret, None))
}

pub async fn posted(forward: &Forward<Shards>, text: &str) -> Outcome {
    let body = Bytes::copy_from_slice(text.as_bytes());
    let encoding = Encoding::Json;
    forward.post(3, "web-1", Original { encoding, body }).await
}

/// A server that treats each request as told, and the number of its connections that had one.
pub async fn strange(says: &'static [u8], stays: bool) -> (String, Arc<AtomicUsize>) {
    let listener = TcpListener::bind("127.0.0.1:0").await.unwrap();
    let address = listener.local_addr().unwrap().to_string();
    let count = Arc::new(AtomicUsize::new(0));
    let counted = count.clone();
    tokio::spawn(async move {
        while let Ok((mut stream, _)) = listener.accept().await {
            let counted = counted.clone();
            tokio::spawn(async move {
                let (mut bytes, mut new) = ([0; 4096], 1);
                while !matches!(stream.read(&mut bytes).await, Ok(0) | Err(_)) {
                    counted.fetch_add(std::mem::take(&mut new), SeqCst);
                    let _ = stream.write_all(says).await;
                    if !stays {
                        break;
                    }
                }
            });
        }
    });
    (address, count)
}

/// A proxy that passes on this many bytes in a tenth of a second.
pub async fn slow_way(to: String, bytes: usize) -> String {
    let listener = TcpListener::bind("127.0.0.1:0").await.unwrap();
    let address = listener.local_addr().unwrap().to_string();
    tokio::spawn(async move {
        while let Ok((from, _)) = listener.accept().await {
            let (mut from, mut back) = from.into_split();
            let (mut answers, mut there) = TcpStream::connect(&to).await.unwrap().into_split();
            tokio::spawn(async move { tokio::io::copy(&mut answers, &mut back).await });
            tokio::spawn(async move {
                let mut some = vec![0; bytes];
                while let Ok(read @ 1..) = from.read(&mut some).await {
                    there.write_all(&some[..read]).await.unwrap();
                    sleep(Duration::from_millis(100)).await;
                }
            });
        }
    });
    address
}

/// Answers the first post of each connection and closes it: at once, or after another post has arrived.
pub async fn ends_after_one(at_once: bool) -> (String, Arc<AtomicUsize>) {
    let taken = serde_json::to_string(&Outcome::taken(0)).unwrap();
    let head = format!("HTTP/1.1 200 OK\r\ntotxegun-says: answer\r\ncontent-length: {}\r\n\r\n", taken.len());
    let answer = head + &taken;
    let listener = TcpListener::bind("127.0.0.1:0").await.unwrap();
    let address = listener.local_addr().unwrap().to_string();
    let count = Arc::new(AtomicUsize::new(0));
    let counted = count.clone();
    tokio::spawn(async move {
        while let Ok((mut stream, _)) = listener.accept().await {
            let mut bytes = [0; 4096];
            let _ = stream.read(&mut bytes).await;
            counted.fetch_add(1, SeqCst);
            let _ = stream.write_all(answer.as_bytes()).await;
            if !at_once {
                let _ = stream.read(&mut bytes).await;
                counted.fetch_add(1, SeqCst);
            }
        }
    });
    (address, count)
}
