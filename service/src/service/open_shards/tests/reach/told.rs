//! What an instance among others reports to operators.

use super::*;

async fn quarantined(service: &Service) -> Option<u64> {
    let (_, metrics) = service.ask("GET", "/metrics").await;
    let count = metrics.lines().find_map(|line| line.strip_prefix("totxegun_quarantined_senders "));
    count.and_then(|count| count.parse().ok())
}

/// A sum over all instances gives the right number, even while the first shard has no owner.
#[tokio::test]
async fn a_quarantined_sender_is_counted_once_whoever_has_which_shard() {
    let both = Both::new().await;
    assert_eq!(both.a.ask("POST", "/quarantine/A").await.0, 200);
    let counted = || async { [quarantined(&both.a).await, quarantined(&both.b).await] };
    let mut seen = seen();
    let mut is_nobodys = |shard: usize| {
        seen.shards[shard].owner.clear();
        both.clusters.iter().for_each(|cluster| cluster.has_seen(seen.clone()));
    };
    assert_eq!(counted().await, [Some(1), Some(0)]);
    both.a.open_shards.hand_over(0).await.unwrap();
    is_nobodys(0);
    assert_eq!(counted().await, [Some(0), Some(1)]);
    both.b.open_shards.hand_over(1).await.unwrap();
    is_nobodys(1);
    assert_eq!(counted().await, [Some(1), Some(0)]);
}

/// Operators look at the page, which reloads itself, just when an instance stalls.
#[tokio::test]
async fn the_page_waits_for_no_instance_that_stands_still() {
    let both = Both::new().await;
    both.a.admin.open_shards.get(0).unwrap().dead.keep("0-abc-7", "no", b"{}").unwrap();
    let dead = "1 request that the sink refused for good: `totxegun dead-letters list` has the reasons";
    assert!(both.a.ask("GET", "/").await.1.contains(dead));
    both.net.mood("b", Mood::StandsStill);
    let page = tokio::time::timeout(Duration::from_secs(20), both.a.ask("GET", "/")).await;
    let (status, page) = page.expect("it waits");
    assert!(status == 200 && page.contains(dead), "{page}");
}
