//! Whether an instance among others is ready.

use super::*;

/// Otherwise a load balancer would take it out for as long as its journals take to read.
#[tokio::test]
async fn an_instance_is_ready_while_it_takes_posts_of_any_shard() {
    let both = Both::new().await;
    let ready = || both.a.ask("GET", "/readyz");
    assert_eq!(ready().await, (200, "ready\n".into()));
    for shard in [0, 2] {
        both.a.admin.open_shards.get(shard).unwrap().shard.stop();
    }
    assert_eq!(ready().await.0, 200, "it brings those of shard 1 to their instance");
    let (here, of_a) = (ShardOwner::Here { term: 1 }, &both.clusters[0]);
    of_a.knows(&[(0, here.clone()), (1, ShardOwner::Nobody), (2, here.clone())]);
    let (status, why) = ready().await;
    assert!(status == 503 && why.contains("stopping"), "{status} {why}");
    assert_eq!(both.a.ask("GET", "/startupz").await, (200, "started\n".into()), "an end is no start");
    let taken_over = open_shard(&folder(), 1, async { Ok(()) });
    both.a.admin.open_shards.put(taken_over.local.clone());
    assert_eq!(both.a.ask("GET", "/startupz").await.0, 200, "nor is a takeover");
    both.a.admin.open_shards.remove(1);
    both.b.open_shards.hand_over(1).await.unwrap();
    both.a.open(1).await;
    of_a.knows(&[(0, here.clone()), (1, here.clone()), (2, here)]);
    assert_eq!(ready().await.0, 200, "those of one of its own");
    of_a.leave();
    let (status, why) = ready().await;
    assert!(status == 503 && why.contains("stopping"), "{status} {why}");
    let (new, of_new) = instance("c", &folder(), &both.net);
    let (status, why) = new.ask("GET", "/readyz").await;
    assert!(
        status == 503 && why.contains(Reason::StoreSilent.text()),
        "before its first beat: {status} {why}"
    );
    of_new.knows(&[(0, ShardOwner::Nobody), (1, ShardOwner::Nobody)]);
    let (status, why) = new.ask("GET", "/readyz").await;
    assert!(status == 503 && why.contains(Reason::NoOwner.text()), "before its first shard: {status} {why}");
    new.open(0).await;
    of_new.knows(&[(0, ShardOwner::Here { term: 1 }), (1, ShardOwner::Nobody)]);
    assert_eq!(new.ask("GET", "/readyz").await.0, 200);
}
