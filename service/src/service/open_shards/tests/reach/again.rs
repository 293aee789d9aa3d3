//! Dead letters, and commands that are repeated.

use super::*;

#[tokio::test]
async fn dead_letters_are_shown_and_settled_by_the_instance_that_has_them() {
    let both = Both::new().await;
    let dead = |service: &Service, shard: u16| service.admin.open_shards.get(shard).unwrap().dead.clone();
    dead(&both.b, 1).keep("1-abc-7", "no", b"{\"of\":1}").unwrap();
    dead(&both.a, 2).keep("2-abc-8", "no", b"{\"of\":2}").unwrap();
    for (service, key) in [(&both.a, "2-abc-8"), (&both.b, "1-abc-7")] {
        let (status, letters) = json(service, "GET", "/dead-letters").await;
        let keys = letters.as_array().unwrap().iter();
        let keys: Vec<_> = keys.map(|letter| letter["key"].as_str().unwrap()).collect();
        assert_eq!((status, &keys[..]), (200, &[key][..]));
        assert_eq!(json(service, "GET", "/status").await.1["dead_letters"], 2);
    }
    assert_eq!(both.b.ask("GET", "/dead-letters/1-abc-7").await, (200, "{\"of\":1}".into()));
    for path in ["/dead-letters/0-abc-7", "/dead-letters/9-abc-7", "/dead-letters/x", "/dead-letters/2-abc-9"]
    {
        assert_eq!(both.a.ask("GET", path).await.0, 404, "{path}");
    }
    for (method, path) in [
        ("GET", "/dead-letters/1-abc-7"),
        ("POST", "/dead-letters/1-abc-7/resend"),
        ("POST", "/dead-letters/1-abc-7/drop?x=y"),
    ] {
        let (status, location, why) = redirected(&both.a, method, path).await;
        assert_eq!((status, location), (307, format!("http://b.example:4319{path}")));
        assert_eq!(why, "shard 1 is at instance b: ask there, at b.example:4319");
    }
    assert_eq!(dead(&both.b, 1).count(), 1, "nothing was done");
    assert_eq!(
        acts(&both.a)[1].2.as_deref(),
        Some("307: shard 1 is at instance b: ask there, at b.example:4319")
    );
    let (status, resent) = json(&both.b, "POST", "/dead-letters/1-abc-7/resend").await;
    assert_eq!((status, &resent["taken"]), (200, &Json::Bool(true)), "{resent}");
    assert_eq!(both.b.sink.came.lock().unwrap()[0].key(), "1-abc-7");
    // No other machine can reach its admin address; and the shard has no owner.
    let mut seen = seen();
    seen.instances[1].operate.clear();
    both.clusters[0].has_seen(seen);
    let (status, location, why) = redirected(&both.a, "GET", "/dead-letters/1-abc-7").await;
    assert_eq!((status, &location[..]), (307, ""));
    assert!(why.starts_with("shard 1 is at instance b: ask on its machine (b)"), "{why}");
    both.clusters[0].knows(&[(1, ShardOwner::Nobody)]);
    let (status, _, why) = redirected(&both.a, "GET", "/dead-letters/1-abc-7").await;
    assert!(status == 503 && why.starts_with("shard 1: no instance has it"), "{status} {why}");
}

/// As when the instance is fenced before it answers, and another one takes its shard.
#[tokio::test]
async fn an_order_that_is_given_again_since_its_answer_was_lost_is_answered_as_it_was_carried_out() {
    let both = Both::new().await;
    both.b.open_shards.hand_over(1).await.unwrap();
    let store = Arc::<Store>::default();
    let of_store = || shard_store::open(store.take(), "abc").unwrap();
    both.b.begin(1, of_store()).await;
    let dead = both.b.admin.open_shards.get(1).unwrap().dead.clone();
    for key in ["1-abc-7", "1-abc-8"] {
        dead.keep(key, "no", b"{}").unwrap();
    }
    for path in ["/dead-letters/1-abc-7/drop", "/dead-letters/1-abc-8/resend"] {
        assert_eq!(both.b.ask("POST", path).await.0, 200);
    }
    both.b.open_shards.hand_over(1).await.unwrap();
    both.a.begin(1, of_store()).await;
    assert_eq!(both.a.ask("POST", "/dead-letters/1-abc-7/drop").await, (200, "{}".into()));
    let (status, resent) = json(&both.a, "POST", "/dead-letters/1-abc-8/resend").await;
    assert_eq!((status, &resent["taken"]), (200, &Json::Bool(true)), "{resent}");
    assert_eq!(both.b.sink.came.lock().unwrap().len(), 1);
    assert_eq!(both.a.sink.came.lock().unwrap().len(), 0, "it is not sent again");
    for (path, why) in [
        ("/dead-letters/1-abc-8/drop", "the sink has it"),
        ("/dead-letters/1-abc-7/resend", "it was thrown away"),
        ("/dead-letters/1-abc-9/drop", "it was never put aside, or is gone"),
    ] {
        let (status, said) = both.a.ask("POST", path).await;
        assert!(status == 404 && said.contains(why), "{path}: {status} {said}");
    }
}
