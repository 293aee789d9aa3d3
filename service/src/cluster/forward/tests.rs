//! Posts over real sockets, to owners that answer, stall, break off, or don't own the shard.

mod peers;
mod reach;
mod room;
mod tls;

use super::*;
use crate::book::Refused;
use crate::otlp::{with_sender_attributes, Attributed, SenderNames};
use crate::otlp::{Causes, Encoding, Off, OffClock, Reading, Rejection, Resources};
use bytes::Bytes;
use peers::{ends_after_one, posted, receiver, secret, slow_way, strange, there, Peer, Shards};
use std::sync::atomic::Ordering::SeqCst;
use tokio::net::TcpListener;
use tokio::time::sleep;

#[tokio::test]
async fn an_owners_answer_comes_back_as_it_said_it() {
    let mut off = OffClock::default();
    off.count(Off::Ahead(Duration::from_secs(7)));
    let unfit = Some("zw\u{f6}lf \"points\"\n".to_string());
    let causes: Causes = [(Reason::Gauge, 2), (Reason::WentDown, 1)].into_iter().collect();
    let parts = vec![(3, Rejection::from(Reason::Quarantined))];
    let over_quota = Rejection { seconds: Some(17), ..Rejection::new(Reason::OverQuota, "its share") };
    let says = [
        Outcome::taken(0),
        Outcome::taken(7),
        Outcome::Taken { rejected: 9, off, causes, unfit, parts },
        Refused::OutOfOrder { point: 3, frontier: 5 }.into(),
        Outcome::refused(Reason::OtherWriter, "other writer: point 3: `m` {} is another sender's"),
        Reason::Quarantined.into(),
        Reason::Recovering.into(),
        over_quota.into(),
    ];
    let peer = Peer::here().await;
    let forward = receiver(peer.whose(), secret("of all"));
    for outcome in &says {
        peer.shards.says.lock().unwrap().push_back(Some(outcome.clone()));
        assert_eq!(posted(&forward, "{}").await, *outcome);
    }
    let body = Bytes::from([0, 159, 255, 10].repeat(1 << 18));
    let part = Original { encoding: Encoding::Protobuf, body: body.clone() };
    assert_eq!(forward.post(3, "web-2", part).await, Outcome::taken(0));
    let came = peer.shards.came.lock().unwrap().clone();
    assert_eq!(came[0], (3, 5, "web-1".into(), Encoding::Json, Bytes::from_static(b"{}")));
    assert_eq!(came[says.len()], (3, 5, "web-2".into(), Encoding::Protobuf, body));
    assert_eq!(came.len(), says.len() + 1);
    assert_eq!(peer.connections.load(SeqCst), 1, "the connection is kept");
    assert_eq!(forward.forwarded().answered, came.len() as u64);
}

/// Otherwise it would get 503 forever.
#[tokio::test]
async fn the_longest_post_with_the_names_of_its_instances_is_brought() {
    let peer = Peer::here().await;
    let forward = receiver(peer.whose(), secret("of all"));
    let sender_attribute = Some("o".to_string());
    let reading = Reading { instance_from_sender: true, sender_attribute, ..Reading::default() };
    let mut longest = 0;
    for name in ["x".into(), "web-1".into(), "y".repeat(64)] {
        let with_names = |resources: usize| {
            let (body, names) = (longest_json(resources), SenderNames { name: &name, proved: Some(&name) });
            with_sender_attributes(names, Encoding::Json, body, &reading).ok()
        };
        let most = (1 << 20) / (name.len() + 80);
        assert!(with_names(most + 1).is_none(), "more of them may be named");
        let Attributed { body, proved, instances } = with_names(most).unwrap();
        assert_eq!((proved, instances), (most, most));
        longest = longest.max(body.len());
        let part = Original { encoding: Encoding::Json, body };
        assert_eq!(forward.post(3, &name, part).await, Outcome::taken(0), "{name}");
    }
    assert!(longest > 5 << 20, "{longest}");
}

/// Otherwise it would get 503 at each retry.
#[tokio::test]
async fn a_long_part_is_waited_for_as_long_as_a_slow_way_takes() {
    let peer = Peer::here().await;
    let forward = receiver(there(&slow_way(peer.address.clone(), 9 << 10).await), secret("of all"));
    let body = Bytes::from(vec![b' '; 1 << 20]);
    let (began, part) = (Instant::now(), Original { encoding: Encoding::Json, body: body.clone() });
    assert_eq!(forward.post(3, "web-1", part).await, Outcome::taken(0));
    assert!(began.elapsed() > WITHIN, "{:?}", began.elapsed());
    let came = peer.shards.came.lock().unwrap().clone();
    assert!(came.len() == 1 && came[0].4 == body);
}

/// The longest request, with many resources without a name: each of them gets the longest one.
fn longest_json(resources: usize) -> Bytes {
    let all = vec![r#"{"a":0}"#; resources].join(",");
    let around = r#"{"resourceMetrics":[],"b":""}"#.len();
    let rest = "x".repeat(crate::ingest::MOST - around - all.len());
    format!(r#"{{"resourceMetrics":[{all}],"b":"{rest}"}}"#).into()
}

#[tokio::test]
async fn not_mine_is_asked_again_of_who_has_it_then() {
    let (old, new) = (Peer::here().await, Peer::here().await);
    old.cluster.knows(&[(3, ShardOwner::Here { term: 6 })]); // another term
    let forward = receiver(old.whose(), secret("of all"));
    let moves = async {
        sleep(Duration::from_millis(250)).await;
        forward.cluster.knows(&[(3, new.whose())]);
    };
    let (outcome, ()) = tokio::join!(posted(&forward, "{}"), moves);
    assert_eq!(outcome, Outcome::taken(0));
    assert_eq!((old.shards.count(), new.shards.count()), (0, 1));
    assert!(forward.forwarded().not_mine > 0);
    // The shard was lost after the instance had checked its owner.
    new.shards.says.lock().unwrap().push_back(None);
    assert_eq!(posted(&forward, "{}").await, Outcome::taken(0));
    // The shard moves here.
    let here = Arc::new(Shards::default());
    forward.serve(here.clone());
    forward.cluster.knows(&[(3, ShardOwner::Here { term: 8 })]);
    assert_eq!(posted(&forward, "{}").await, Outcome::taken(0));
    assert_eq!(here.came.lock().unwrap()[0].1, 8);
}

#[tokio::test]
async fn a_shard_without_an_owner_is_waited_for_three_seconds() {
    let old = Peer::with(Shards::default(), ShardOwner::Nobody).await;
    for whose in [ShardOwner::Nobody, old.whose()] {
        let (forward, began) = (receiver(whose, secret("of all")), Instant::now());
        assert_eq!(posted(&forward, "{}").await, Reason::OwnerChanges.into());
        assert!((LOOKED_FOR..LOOKED_FOR * 3).contains(&began.elapsed()));
    }
    assert_eq!(old.shards.count(), 0);
}

#[tokio::test]
async fn who_has_another_secret_or_none_is_asked_nothing() {
    let peer = Peer::here().await;
    let forward = receiver(peer.whose(), secret("another"));
    assert_eq!(posted(&forward, "{}").await, Reason::OwnerSilent.into());
    let client = hyper::Client::new();
    let ask = |request: hyper::http::request::Builder, body: &'static str| {
        let asking = client.request(request.body(Body::from(body)).unwrap());
        async { asking.await.unwrap().status().as_u16() }
    };
    let uri = format!("http://{}{PATH}", peer.address);
    let head = Head { shard: 3, term: 5, sender: "web-1".into(), encoding: Encoding::Json };
    assert_eq!(ask(Request::post(&uri), "").await, 401);
    assert_eq!(ask(head.put(Request::get(&uri), &secret("of all")), "").await, 404);
    assert_eq!(ask(head.put(Request::post(format!("{uri}s")), &secret("of all")), "").await, 404);
    let without = Request::post(&uri).header("totxegun-secret", "of all");
    assert_eq!(ask(without, "").await, 400);
    assert_eq!(peer.shards.count(), 0);
}

#[tokio::test]
async fn what_breaks_off_or_is_no_instance_is_503_and_is_asked_once() {
    let broken: [&[u8]; 6] = [
        b"",
        b"HTTP/1.1 200 OK\r\ntotxegun-says: ans",
        b"HTTP/1.1 200 OK\r\ntotxegun-says: answer\r\ncontent-length: 20\r\n\r\n{\"rejected\"",
        b"HTTP/1.1 200 OK\r\ntotxegun-says: answer\r\ncontent-length: 2\r\n\r\n[]",
        b"HTTP/1.1 200 OK\r\ncontent-length: 2\r\n\r\n{}",
        b"HTTP/1.1 502 Bad Gateway\r\ncontent-length: 0\r\n\r\n",
    ];
    for says in broken {
        let (address, count) = strange(says, false).await;
        let forward = receiver(there(&address), secret("of all"));
        assert_eq!(posted(&forward, "{}").await, Reason::OwnerSilent.into());
        assert_eq!(count.load(SeqCst), 1, "{}", String::from_utf8_lossy(says));
        assert_eq!(forward.forwarded().broken, 1);
        assert!(forward.unanswering().is_empty(), "not for ten seconds");
    }
    // Nobody listens there.
    let listener = TcpListener::bind("127.0.0.1:0").await.unwrap();
    let address = listener.local_addr().unwrap().to_string();
    drop(listener);
    let forward = receiver(there(&address), secret("of all"));
    assert_eq!(posted(&forward, "{}").await, Reason::OwnerSilent.into());
}

#[tokio::test]
async fn a_kept_connection_that_ends_is_made_anew_but_not_under_a_post() {
    let (address, count) = ends_after_one(false).await;
    let forward = receiver(there(&address), secret("of all"));
    assert_eq!(posted(&forward, "{}").await, Outcome::taken(0));
    assert_eq!(posted(&forward, "{}").await, Reason::OwnerSilent.into());
    assert_eq!(count.load(SeqCst), 2, "it may have been taken, so it is not sent again");
    let (address, count) = ends_after_one(true).await;
    let forward = receiver(there(&address), secret("of all"));
    for _ in 0..3 {
        assert_eq!(posted(&forward, "{}").await, Outcome::taken(0));
        sleep(Duration::from_millis(50)).await;
    }
    assert_eq!(count.load(SeqCst), 3);
}

#[tokio::test]
async fn who_stalls_is_left_after_ten_seconds_and_said_and_holds_up_no_other() {
    let ((stalls, count), peer) = (strange(b"", true).await, Peer::here().await);
    let forward = receiver(there(&stalls), secret("of all"));
    forward.cluster.knows(&[(3, there(&stalls)), (4, peer.whose())]);
    peer.cluster.knows(&[(4, ShardOwner::Here { term: 5 })]);
    let began = Instant::now();
    let many: Vec<_> = (0..2 * peer::POSTS)
        .map(|_| {
            let forward = forward.clone();
            tokio::spawn(async move { posted(&forward, "{}").await })
        })
        .collect();
    while count.load(SeqCst) < peer::POSTS && began.elapsed() < WITHIN / 2 {
        sleep(Duration::from_millis(20)).await;
    }
    let part = Original { encoding: Encoding::Json, body: Bytes::new() };
    assert_eq!(forward.post(4, "web-1", part).await, Outcome::taken(0));
    assert!(began.elapsed() < WITHIN);
    assert_eq!(forward.unanswering(), []);
    assert_eq!(count.load(SeqCst), peer::POSTS, "on their way at once");
    for one in many {
        assert_eq!(one.await.unwrap(), Reason::OwnerSilent.into());
    }
    assert!((WITHIN..WITHIN * 2).contains(&began.elapsed()));
    let [unanswering] = &forward.unanswering()[..] else { panic!() };
    assert_eq!((&unanswering.address, &*unanswering.why), (&stalls, "no answer in time"));
    assert!((WITHIN..WITHIN * 2).contains(&unanswering.time));
}

#[tokio::test]
async fn who_stalls_is_left_once_another_has_the_shard_but_not_before_it_may_have_handed_over() {
    let ((stalls, count), peer) = (strange(b"", true).await, Peer::here().await);
    let forward = receiver(there(&stalls), secret("of all"));
    let moves = |places: ShardOwner| {
        let cluster = forward.cluster.clone();
        async move {
            sleep(Duration::from_millis(100)).await;
            cluster.knows(&[(3, places)]);
        }
    };
    let began = Instant::now();
    let (outcome, ()) = tokio::join!(posted(&forward, "{}"), moves(peer.whose()));
    assert_eq!(outcome, Reason::OwnerSilent.into());
    assert!((AFTER_MOVE..WITHIN / 2).contains(&began.elapsed()));
    assert_eq!((count.load(SeqCst), peer.shards.count()), (1, 0), "it may have been taken");
    assert_eq!(posted(&forward, "{}").await, Outcome::taken(0));
    // The owner hands over, and answers what is in flight.
    let shards = Shards::slow(AFTER_MOVE / 2);
    let slow = Peer::with(shards, ShardOwner::Here { term: 5 }).await;
    forward.cluster.knows(&[(3, slow.whose())]);
    let (outcome, ()) = tokio::join!(posted(&forward, "{}"), moves(peer.whose()));
    assert_eq!(outcome, Outcome::taken(0));
    assert_eq!((slow.shards.count(), peer.shards.count()), (1, 1));
}

#[tokio::test]
async fn so_many_posts_are_on_their_way_to_one_and_each_comes_once() {
    let shards = Shards::slow(Duration::from_millis(20));
    let peer = Peer::with(shards, ShardOwner::Here { term: 5 }).await;
    let forward = receiver(peer.whose(), secret("of all"));
    let many: Vec<_> = (0..300)
        .map(|number| {
            let forward = forward.clone();
            tokio::spawn(async move { posted(&forward, &number.to_string()).await })
        })
        .collect();
    for one in many {
        assert_eq!(one.await.unwrap(), Outcome::taken(0));
    }
    let mut came: Vec<Bytes> = peer.shards.came.lock().unwrap().iter().map(|came| came.4.clone()).collect();
    came.sort();
    came.dedup();
    assert_eq!((came.len(), peer.shards.count()), (300, 300));
    assert!(peer.shards.most_at_once.load(SeqCst) <= peer::POSTS);
    assert!(peer.connections.load(SeqCst) <= peer::POSTS);
}

/// An instance that answers `not mine` is asked only a few times, even while other shards move.
#[tokio::test(flavor = "multi_thread", worker_threads = 2)]
async fn not_mine_is_asked_again_a_bounded_number_of_times() {
    let old = Peer::with(Shards::default(), ShardOwner::Nobody).await;
    let forward = receiver(old.whose(), secret("of all"));
    let (cluster, whose) = (forward.cluster.clone(), old.whose());
    let moves = tokio::spawn(async move {
        for term in 0.. {
            cluster.knows(&[(3, whose.clone()), (4, ShardOwner::Here { term })]);
            sleep(Duration::from_millis(2)).await;
        }
    });
    assert_eq!(posted(&forward, "{}").await, Reason::OwnerChanges.into());
    let asked = forward.forwarded().not_mine;
    assert!((5..=u64::from(MOST_ASKED)).contains(&asked), "{asked}");
    moves.abort();
    // A new owner is asked at once.
    let (forward, new) = (receiver(old.whose(), secret("of all")), Peer::here().await);
    let cluster = forward.cluster.clone();
    let moves = async {
        sleep(Duration::from_millis(1500)).await;
        cluster.knows(&[(3, new.whose())]);
        Instant::now()
    };
    let (outcome, moved) = tokio::join!(posted(&forward, "{}"), moves);
    assert_eq!(outcome, Outcome::taken(0));
    assert!(moved.elapsed() < LONGEST / 2, "{:?}", moved.elapsed());
    // Owners that come and go are not asked forever either.
    let (forward, whose) = (receiver(old.whose(), secret("of all")), old.whose());
    let cluster = forward.cluster.clone();
    let moves = tokio::spawn(async move {
        for term in 6.. {
            if let ShardOwner::There { name, address, .. } = whose.clone() {
                cluster.knows(&[(3, ShardOwner::There { name, address, term })]);
            }
            sleep(Duration::from_millis(2)).await;
        }
    });
    assert_eq!(posted(&forward, "{}").await, Reason::OwnerChanges.into());
    assert_eq!(forward.forwarded().not_mine, u64::from(MOST_ASKED));
    moves.abort();
}

/// Otherwise each post would look for an owner for three seconds.
#[tokio::test]
async fn without_beats_a_post_is_turned_away_at_the_door() {
    let forward = Forward::<Shards>::new(Cluster::new("receiver", None), secret("of all"), None);
    let shards = |forward: Arc<Forward<Shards>>| {
        let resources = Resources::new(8, Arc::default());
        crate::shard::Shards::<crate::shard::Shard>::several(resources, Some(forward))
    };
    let forward = Arc::new(forward);
    let metrics = Arc::new(crate::metrics::Metrics::new().unwrap());
    let budget = crate::ingest::Budget::new(8 << 20);
    let shards = shards(forward.clone());
    let ingest = crate::ingest::Ingest::of(shards, Arc::new(()), Arc::default(), budget, metrics);
    let post = || {
        let head = crate::ingest::head::Head {
            sender: "web-1".into(),
            encoding: Encoding::Json,
            packing: crate::ingest::head::Packing::Plain,
        };
        ingest.put(head, Bytes::from_static(b"{\"resourceMetrics\":[]}"), ingest.budget.hold())
    };
    let began = Instant::now();
    assert_eq!(post().await, Reason::StoreSilent.into());
    assert!(began.elapsed() < LOOKED_FOR / 3);
    forward.cluster.knows(&[]);
    assert_eq!(post().await, Reason::OwnerChanges.into(), "it is looked for");
}

/// Otherwise it would look for an owner for three seconds, or wait for one that waits.
#[tokio::test]
async fn while_the_store_is_silent_a_post_is_turned_away_at_once() {
    let peer = Peer::here().await;
    for whose in [ShardOwner::Nobody, ShardOwner::Here { term: 5 }, peer.whose()] {
        let forward = receiver(whose, secret("of all"));
        forward.cluster.is_silent_for(Duration::from_secs(10));
        let began = Instant::now();
        assert_eq!(posted(&forward, "{}").await, Reason::StoreSilent.into());
        assert!(began.elapsed() < LOOKED_FOR / 3);
    }
    assert_eq!(peer.shards.count(), 0);
    // A post from another instance is refused too.
    peer.cluster.is_silent_for(Duration::from_secs(10));
    let forward = receiver(peer.whose(), secret("of all"));
    assert_eq!(posted(&forward, "{}").await, Reason::StoreSilent.into());
    assert_eq!(peer.shards.count(), 0);
}

#[tokio::test]
async fn a_question_of_operators_goes_to_who_has_the_secret_and_its_answer_comes_back() {
    let peer = Peer::here().await;
    let ask = |of: &str, question: &str| {
        let forward = receiver(peer.whose(), secret(of));
        let (question, address) = (question.as_bytes().to_vec(), peer.address.clone());
        async move { forward.put_question(&address, question, WITHIN).await }
    };
    let long = "x".repeat(1 << 20);
    assert_eq!(ask("of all", &long).await.unwrap(), format!("said {long}"));
    let refused = ask("of others", "x").await.unwrap_err();
    assert!(refused.contains("secret"), "{refused}");
    let strange = ask("of all", "another version").await.unwrap_err();
    assert!(strange.contains("is not from an instance"), "{strange}");
    let (address, _) = strange_to_all().await;
    let forward = receiver(peer.whose(), secret("of all"));
    let late = forward.put_question(&address, Vec::new(), Duration::from_millis(200)).await;
    assert!(late.unwrap_err().contains("in time"));
}

/// A peer that never answers.
async fn strange_to_all() -> (String, Arc<std::sync::atomic::AtomicUsize>) {
    strange(b"", true).await
}
