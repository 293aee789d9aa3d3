//! How many posts are in flight at once, and which of them wait for which.

use super::*;
use crate::cluster::terms::{Instance, Seen};
use tokio::task::JoinHandle;

type Receiver = Arc<Forward<Shards>>;

fn all_post(forward: &Receiver, count: usize, body: &Bytes) -> Vec<JoinHandle<Outcome>> {
    let post = |_| {
        let (forward, part) = (forward.clone(), Original { encoding: Encoding::Json, body: body.clone() });
        tokio::spawn(async move { forward.post(3, "web-1", part).await })
    };
    (0..count).map(post).collect()
}

/// The instance that senders post to, which knows this many others.
fn among(others: usize, whose: ShardOwner) -> Receiver {
    let forward = receiver(whose, secret("of all"));
    let instance = |number: usize| Instance {
        name: format!("other-{number}"),
        address: "there".into(),
        operate: String::new(),
        version: String::new(),
        beat: 1,
        life: 1,
        lives: [].into(),
        told: Default::default(),
    };
    forward.cluster.has_seen(Seen { instances: (0..others).map(instance).collect(), ..Seen::default() });
    forward
}

/// Otherwise further posts would wait until others' connections are idle.
#[tokio::test]
async fn all_others_have_no_more_connections_than_there_are() {
    for others in [5, 9] {
        let peer = Peer::with(Shards::slow(Duration::from_millis(300)), ShardOwner::Here { term: 5 }).await;
        let receivers: Vec<_> = (0..others).map(|_| among(others, peer.whose())).collect();
        let (each, body) = (2 * CONNECTIONS / others, Bytes::from_static(b"{}"));
        let posts: Vec<_> = receivers.iter().flat_map(|forward| all_post(forward, each, &body)).collect();
        for post in posts {
            assert_eq!(post.await.unwrap(), Outcome::taken(0));
        }
        let connections = peer.connections.load(SeqCst);
        assert!(connections <= CONNECTIONS, "{connections}");
    }
}

/// Otherwise posts of a few bytes would wait minutes for an instance that receives megabytes over a slow line.
#[tokio::test]
async fn long_parts_that_come_slowly_hold_up_no_others() {
    let peer = Peer::here().await;
    let slow = receiver(there(&slow_way(peer.address.clone(), 2 << 10).await), secret("of all"));
    let (long, short) = (Bytes::from(vec![b' '; 200 << 10]), Bytes::from_static(b"{}"));
    let behind = all_post(&slow, 100, &long);
    while peer.connections.load(SeqCst) < 32 {
        sleep(Duration::from_millis(20)).await;
    }
    let fast = receiver(peer.whose(), secret("of all"));
    for (forward, body) in [(&slow, &short), (&fast, &short), (&fast, &long)] {
        let part = Original { encoding: Encoding::Json, body: body.clone() };
        assert_eq!(forward.post(3, "web-1", part).await, Outcome::taken(0));
    }
    assert!(behind.iter().all(|post| !post.is_finished()), "long ones are still on their way");
    behind.iter().for_each(JoinHandle::abort);
}
