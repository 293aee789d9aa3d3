//! Posts for instances that can't be reached.

use super::*;
use crate::cluster::terms::{Instance, InstanceReport, Seen};

fn other(name: &str, address: &str) -> Instance {
    Instance {
        name: name.into(),
        address: address.into(),
        operate: String::new(),
        version: String::new(),
        beat: 1,
        life: 1,
        lives: [].into(),
        told: InstanceReport::default(),
    }
}

/// Otherwise each post would find out by itself, for ten seconds.
#[tokio::test]
async fn who_is_not_reached_is_left_after_two_looks_and_then_asked_nothing_until_it_is() {
    let ((stalls, count), peer) = (strange(b"", true).await, Peer::here().await);
    let forward = receiver(there(&stalls), secret("of all"));
    let instances = vec![other("stalls", &stalls), other("peer", &peer.address)];
    forward.cluster.has_seen(Seen { instances, ..Seen::default() });
    tokio::spawn(forward.clone().look_at_others(peer.address.clone()));
    let began = Instant::now();
    assert_eq!(posted(&forward, "{}").await, Reason::OwnerSilent.into());
    assert!((Duration::from_millis(1800)..LOOKED_FOR).contains(&began.elapsed()), "{:?}", began.elapsed());
    let (before, began) = (count.load(SeqCst), Instant::now());
    for _ in 0..20 {
        assert_eq!(posted(&forward, "{}").await, Reason::OwnerSilent.into());
    }
    assert!(
        began.elapsed() < Duration::from_millis(500) && count.load(SeqCst) <= before + 2,
        "no post asks it"
    );
    forward.cluster.knows(&[(3, peer.whose())]);
    assert_eq!(posted(&forward, "{}").await, Outcome::taken(0), "another is reached");
    let (_, told) = forward.cluster.owners().told();
    let both = ["peer".to_string(), "stalls".to_string()];
    assert_eq!(told.reached, Some(both.into()), "shards don't move so soon");
}

/// Otherwise, of two instances too busy to answer each other, the one with the first name would get all shards.
#[tokio::test]
async fn who_is_too_busy_to_answer_itself_says_nothing_of_the_others() {
    let ((stalls, _), peer) = (strange(b"", true).await, Peer::here().await);
    for (own, says) in [(&stalls, None), (&peer.address, Some(["peer".to_string()].into()))] {
        let forward = receiver(there(&peer.address), secret("of all"));
        let instances = vec![other("peer", &peer.address)];
        forward.cluster.has_seen(Seen { instances, ..Seen::default() });
        let looking = tokio::spawn(forward.clone().look_at_others(own.clone()));
        sleep(Duration::from_millis(2500)).await;
        assert_eq!(forward.cluster.owners().told().1.reached, says);
        looking.abort();
    }
}
