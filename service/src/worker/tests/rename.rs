//! A sender gets another name: over flushes, quarantines and kills.

use super::amend::{begin, refusal, Kills};
use super::*;

impl Run {
    async fn rename(&self, from: &str, to: &str) -> Done {
        let rename = SenderRename { from: from.into(), to: to.into() };
        self.orders.send(Order::RenameSender(rename)).await.unwrap()
    }

    async fn post_by(&self, sender: &str, number: u64) -> Outcome {
        self.shard.post(sender.into(), point("a", number).into()).await
    }
}

#[tokio::test(flavor = "multi_thread")]
async fn a_sender_goes_on_under_its_new_name_and_no_more_under_its_old_one() {
    let place = tempfile::tempdir().unwrap();
    let path = place.path().join("data");
    let run = begin(&path).await;
    assert_eq!(run.post(5).await, Outcome::taken(0));
    run.flush().await;
    assert_eq!(run.post(7).await, Outcome::taken(0), "it is in no group yet");
    assert_eq!(refusal(run.post_by("B", 9).await), "other writer: point 0");
    assert_eq!(run.rename("A", "B").await, Done::Renamed { series: 1 });
    assert_eq!(run.post_by("B", 7).await, Outcome::taken(0), "a repeat of what it posted under its old name");
    assert_eq!(refusal(run.post(9).await), "other writer: point 0");
    assert_eq!(run.post_by("B", 9).await, Outcome::taken(0));
    assert_eq!(run.rename("A", "B").await, Done::Renamed { series: 0 }, "it is renamed already");
    assert_eq!(refusal(run.post_by("B", 6).await), "duplicate or late: point 0, frontier 10");
    run.end().await;
    let run = begin(&path).await;
    assert_eq!(refusal(run.post(11).await), "other writer: point 0");
    assert_eq!(run.post_by("B", 11).await, Outcome::taken(0));
    // A new series of the old name is its own.
    assert_eq!(run.shard.post("A".into(), point("b", 5).into()).await, Outcome::taken(0));
    run.flush().await;
    assert_eq!(run.shard.outbox.series_by_owner(), [("A".into(), 1), ("B".into(), 1)].into());
    assert_eq!(run.forwarded().await["a"], (4, 0));
    run.end().await;
}

/// What is kept back of it is under its name, in the journal and in files of its own.
#[tokio::test(flavor = "multi_thread")]
async fn a_quarantined_sender_is_renamed_once_it_is_released() {
    let place = tempfile::tempdir().unwrap();
    let path = place.path().join("data");
    let run = begin(&path).await;
    assert_eq!(run.post(5).await, Outcome::taken(0));
    run.flush().await;
    assert_eq!(run.post(7).await, Outcome::taken(0));
    for quarantined in ["A", "B"] {
        run.orders.send(Order::Quarantine(quarantined.into())).await;
        assert_eq!(run.rename("A", "B").await, Done::NotRenamed { quarantined: quarantined.into() });
        run.orders.send(Order::Lift(quarantined.into())).await;
    }
    assert_eq!(run.rename("A", "B").await, Done::Renamed { series: 1 });
    run.orders.send(Order::Quarantine("B".into())).await;
    assert_eq!(run.post_by("B", 9).await.status(), 403);
    run.end().await;
    let run = begin(&path).await;
    run.orders.send(Order::Lift("B".into())).await;
    assert_eq!(run.post_by("B", 9).await, Outcome::taken(0));
    run.flush().await;
    assert_eq!(run.forwarded().await["a"], (3, 0));
    run.end().await;
}

#[tokio::test(flavor = "multi_thread")]
async fn what_is_no_name_is_refused() {
    let place = tempfile::tempdir().unwrap();
    let run = begin(&place.path().join("data")).await;
    for (from, to) in [("A", ""), ("a/b", "A")] {
        assert_eq!(run.rename(from, to).await, Done::Answered(Refused::BadSender.into()));
    }
    run.end().await;
}

/// Either name has the series, and not both: once it is answered the new one, whatever was killed.
#[tokio::test(flavor = "multi_thread")]
async fn a_sender_is_renamed_or_not_over_kills_and_no_point_is_lost() {
    let place = tempfile::tempdir().unwrap();
    let (data, kills) = (place.path().join("data"), Arc::new(Kills::default()));
    let (making, of) = (kills.clone(), data.clone());
    let disk = Disk::failing(move |_, _| {
        making.make(&of);
        Ok(())
    });
    let run = Run::begin_in(Folder::open_on(disk, &data, Durability::Process).unwrap(), settings()).await;
    assert_eq!(run.post(5).await, Outcome::taken(0));
    run.flush().await;
    assert_eq!(run.post(7).await, Outcome::taken(0));
    kills.are_made.store(true, SeqCst);
    assert_eq!(run.rename("A", "B").await, Done::Renamed { series: 1 });
    kills.is_answered.store(true, SeqCst);
    for number in [20, 21] {
        assert_eq!(run.post_by("B", number).await, Outcome::taken(0));
        kills.posts.fetch_add(1, SeqCst);
        run.flush().await;
    }
    kills.are_made.store(false, SeqCst);
    run.end().await;
    let kills = kills.at.lock().unwrap().clone();
    assert!(kills.len() > 10, "{kills:?}");
    for (number, (posts, is_answered)) in kills.into_iter().enumerate() {
        let run = begin(&place.path().join(format!("kill{number}"))).await;
        let owners = run.shard.outbox.series_by_owner();
        let owner = owners.keys().next().unwrap().to_string();
        assert!(owners.len() == 1 && (owner == "B" || !is_answered), "kill {number}: {owners:?}");
        let other = if owner == "A" { "B" } else { "A" };
        assert_eq!(refusal(run.post_by(other, 100).await), "other writer: point 0", "kill {number}");
        assert_eq!(run.post_by(&owner, 100).await, Outcome::taken(0), "kill {number}");
        assert_eq!(run.rename("A", "B").await, Done::Renamed { series: u64::from(owner == "A") });
        assert_eq!(run.post_by("B", 102).await, Outcome::taken(0), "kill {number}");
        run.flush().await;
        let (sum, _) = run.forwarded().await["a"];
        let least = 2 + posts as i128 + 2;
        assert!(sum == least || sum == least + 1, "kill {number}: {sum} of {least}");
        let faults = run.shard.metrics.faults.with_label_values(&["replay"]).get();
        assert_eq!(faults, 0, "kill {number}");
        run.end().await;
    }
}
