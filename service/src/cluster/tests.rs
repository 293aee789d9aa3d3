//! Instances with real sockets over a store in memory. Posts go to any of them while some stand still, end, come and
//! go. Every answered post must be there, once.

use super::heartbeats::tests::{Of, Store, SHARDS};
use super::heartbeats::NameTaken;
use super::terms::{Doing, OpenFailure, ShardHost};
use super::*;
use crate::ingest::connections::serve;
use crate::ingest::Limits;
use crate::otlp::{Encoding, Original, Outcome, Reason};
use bytes::Bytes;
use std::collections::{BTreeMap, BTreeSet, HashMap};
use std::sync::atomic::{AtomicBool, AtomicU64, AtomicUsize, Ordering::SeqCst};
use std::sync::{Arc, Mutex};
use std::time::Duration;
use tokio::net::TcpListener;
use tokio::sync::watch;
use tokio::task::JoinHandle;
use tokio::time::{sleep, timeout};

const BEAT: Duration = Duration::from_millis(50);
const SENDERS: usize = 24;

/// The written posts of all shards; the writer's term was current for each.
struct Ledger {
    store: Arc<Store>,
    posts: Mutex<Vec<(u16, String, u64)>>,
}

impl Ledger {
    /// False if the shard has another term. The check and the write are one step.
    fn commit(&self, shard: u16, term: u64, posts: Vec<(String, u64)>) -> bool {
        let rows = self.store.rows.lock().unwrap();
        let is_mine = rows.1[usize::from(shard)].term == term;
        if is_mine {
            let posts = posts.into_iter().map(|(sender, number)| (shard, sender, number));
            self.posts.lock().unwrap().extend(posts);
        }
        is_mine
    }

    /// The last post of each sender.
    fn ends(&self, shard: u16) -> HashMap<String, u64> {
        let posts = self.posts.lock().unwrap();
        let of_shard = posts.iter().filter(|(of, _, _)| *of == shard);
        of_shard.map(|(_, sender, number)| (sender.clone(), *number)).collect()
    }
}

/// An open shard: the last post of each sender, and the posts that are not written yet.
struct Book {
    term: u64,
    ends: HashMap<String, u64>,
    pending: Vec<(String, u64)>,
}

/// The shards of an instance.
struct Shards {
    cluster: Arc<Cluster>,
    ledger: Arc<Ledger>,
    open: Mutex<HashMap<u16, Book>>,
}

impl Shards {
    fn close(&self, shard: u16, term: u64) {
        let mut open = self.open.lock().unwrap();
        if open.get(&shard).is_some_and(|book| book.term == term) {
            open.remove(&shard);
        }
    }

    /// Whether a post is new to the book; none if the shard is not open here.
    fn admit(&self, shard: u16, term: u64, sender: &str, number: u64) -> Option<bool> {
        let mut open = self.open.lock().unwrap();
        let book = open.get_mut(&shard).filter(|book| book.term == term)?;
        let end = book.ends.entry(sender.into()).or_default();
        let is_new = number > *end;
        if is_new {
            *end = number;
            book.pending.push((sender.into(), number));
        }
        Some(is_new)
    }

    /// Writes all posts taken so far. False if another instance owns the shard.
    fn sync(&self, shard: u16, term: u64) -> bool {
        let mut open = self.open.lock().unwrap();
        let Some(book) = open.get_mut(&shard).filter(|book| book.term == term) else {
            return false;
        };
        let is_mine = self.ledger.commit(shard, term, std::mem::take(&mut book.pending));
        if !is_mine {
            open.remove(&shard);
            self.cluster.lost(shard, term);
        }
        is_mine
    }
}

impl ShardHost for Shards {
    fn open(&self, shard: u16, term: u64) -> Doing<'_, Result<(), OpenFailure>> {
        Box::pin(async move {
            let ends = self.ledger.ends(shard);
            sleep(Duration::from_millis(5)).await;
            let pending = Vec::new();
            self.open.lock().unwrap().insert(shard, Book { term, ends, pending });
            Ok(())
        })
    }

    fn hand_over(&self, shard: u16, term: u64) -> Doing<'_, ()> {
        Box::pin(async move { self.close(shard, term) })
    }

    fn drop_lost(&self, shard: u16, term: u64) -> Doing<'_, ()> {
        Box::pin(async move { self.close(shard, term) })
    }

    fn filling(&self) -> BTreeSet<u16> {
        BTreeSet::new()
    }
}

/// The same shards, as the target of posts.
struct Open(Arc<Shards>);

impl Here for Open {
    fn post<'a>(
        &'a self,
        shard: u16,
        term: u64,
        sender: &'a str,
        part: Original,
    ) -> Doing<'a, Option<Outcome>> {
        let (shards, sender) = (self.0.clone(), sender.to_string());
        let number: u64 = std::str::from_utf8(&part.body).unwrap().parse().unwrap();
        Box::pin(async move {
            let is_new = shards.admit(shard, term, &sender, number)?;
            // A post that the book has taken is written even if no caller waits for it.
            let writing = tokio::spawn(async move {
                sleep(Duration::from_millis(number % 7)).await;
                shards.sync(shard, term)
            });
            let refused = |reason| Outcome::refused(reason, "said");
            Some(match (writing.await.unwrap(), is_new) {
                (false, _) => refused(Reason::Full),
                (true, true) => Outcome::taken(0),
                (true, false) => refused(Reason::OutOfOrder),
            })
        })
    }
}

/// No operator asks here.
impl Answers for Open {
    fn answer_question(self: Arc<Self>, _question: Bytes) -> Doing<'static, Option<Vec<u8>>> {
        Box::pin(async { None })
    }
}

struct Node {
    forward: Arc<Forward<Open>>,
    cluster: Arc<Cluster>,
    beats: JoinHandle<Result<(), NameTaken>>,
    stop: watch::Sender<bool>,
    /// Its address is served until this is dropped.
    _serves: watch::Sender<bool>,
}

async fn start(ledger: &Arc<Ledger>, name: &'static str) -> Node {
    let listener = TcpListener::bind("127.0.0.1:0").await.unwrap();
    let address = listener.local_addr().unwrap().to_string();
    let (cluster, secret) = (Cluster::new(name, None), Secret::new("of these").unwrap());
    let shards =
        Arc::new(Shards { cluster: cluster.clone(), ledger: ledger.clone(), open: Mutex::default() });
    let here = Arc::new(Open(shards.clone()));
    let forward = Arc::new(Forward::new(cluster.clone(), secret.clone(), None));
    forward.serve(here.clone());
    let limits = Limits { connections: 200, head: Duration::from_secs(5), idle: Duration::from_secs(60) };
    let (serves, served) = watch::channel(false);
    let internal = Internal::new(cluster.clone(), here.clone(), secret, here);
    tokio::spawn(serve(Arc::new(listener), limits, internal, served));
    let terms = Of(ledger.store.clone(), name, address, AtomicU64::new(0));
    let beats = Heartbeats::new(cluster.clone(), Arc::new(terms), shards).each(BEAT);
    let (stop, stopped) = watch::channel(false);
    Node { forward, cluster, beats: tokio::spawn(beats.run(stopped)), stop, _serves: serves }
}

/// The instances to which senders may post.
type Doors = Arc<Mutex<Vec<Arc<Forward<Open>>>>>;

/// Sends posts one after another, each until it is answered; returns how many.
async fn load(sender: usize, doors: Doors, ends: Arc<AtomicBool>, forwarded: Arc<AtomicUsize>) -> u64 {
    let (name, shard) = (format!("s{sender}"), sender as u16 % SHARDS);
    let (mut number, mut tries) = (1, sender);
    while !ends.load(SeqCst) {
        let door = {
            let doors = doors.lock().unwrap();
            doors[tries % doors.len()].clone()
        };
        tries += 1;
        let part = Original { encoding: Encoding::Json, body: Bytes::from(number.to_string()) };
        // A sender may go away before it is answered.
        let patience = Duration::from_millis(if tries.is_multiple_of(20) { 3 } else { 4000 });
        match timeout(patience, door.post(shard, &name, part)).await.map(|outcome| outcome.status()) {
            Ok(200 | 400) => number += 1,
            Ok(503) | Err(_) => sleep(Duration::from_millis(20)).await,
            Ok(other) => panic!("status {other}"),
        }
        forwarded.fetch_add(1, SeqCst);
    }
    number - 1
}

#[tokio::test(flavor = "multi_thread", worker_threads = 2)]
async fn what_was_answered_is_there_once_while_instances_come_stop_and_stand_still() {
    let ledger = Arc::new(Ledger { store: Store::new(), posts: Mutex::default() });
    let (doors, ends, tries) = (Doors::default(), Arc::new(AtomicBool::new(false)), Arc::default());
    let mut nodes = BTreeMap::new();
    for name in ["a", "b", "c"] {
        let node = start(&ledger, name).await;
        doors.lock().unwrap().push(node.forward.clone());
        nodes.insert(name, node);
    }
    let load = |sender| tokio::spawn(load(sender, doors.clone(), ends.clone(), Arc::clone(&tries)));
    let loads: Vec<_> = (0..SENDERS).map(load).collect();
    let pause = || sleep(BEAT * 30);
    pause().await;
    for round in 0..2 {
        // It sends no heartbeats and goes on with its shards, as if it were cut off from the store.
        nodes["b"].beats.abort();
        pause().await;
        // Its process ends and starts again under its name, at another address.
        doors.lock().unwrap().remove(1);
        let again = start(&ledger, "b").await;
        doors.lock().unwrap().insert(1, again.forward.clone());
        nodes.insert("b", again);
        pause().await;
        // One instance joins and hands over its shards again.
        let node = start(&ledger, ["d", "e"][round]).await;
        doors.lock().unwrap().push(node.forward.clone());
        pause().await;
        node.stop.send_replace(true);
        timeout(Duration::from_secs(60), node.beats).await.unwrap().unwrap().unwrap();
        doors.lock().unwrap().pop();
        pause().await;
    }
    ends.store(true, SeqCst);
    let mut answered = Vec::new();
    for load in loads {
        answered.push(timeout(Duration::from_secs(60), load).await.unwrap().unwrap());
    }
    let posts = ledger.posts.lock().unwrap().clone();
    for (sender, answered) in answered.into_iter().enumerate() {
        let of_sender = posts.iter().filter(|(_, name, _)| *name == format!("s{sender}"));
        let numbers: Vec<u64> = of_sender.map(|(_, _, number)| *number).collect();
        assert!(numbers.len() as u64 >= answered && answered > 10, "{answered} answered, {}", numbers.len());
        assert!(numbers.iter().copied().eq(1..=numbers.len() as u64), "{numbers:?}");
    }
    let forwarded: u64 = nodes.values().map(|node| node.forward.forwarded().answered).sum();
    let status = nodes["a"].cluster.status();
    println!("{} posts, {tries:?} tries, {forwarded} forwarded, {status:?}", posts.len());
    assert!(forwarded > 0 && status.counted.takeovers > 0);
}
