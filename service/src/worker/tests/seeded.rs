//! Seeding a book from the outbox alone: each commit names the owners of its series.

use super::*;
use crate::otlp::series::only;

/// Even for a post that the journal has as text, and for one that was parked for a while: otherwise the first sender
/// after a start would own the series, and a database would not know its owner.
#[tokio::test(flavor = "multi_thread")]
async fn a_commit_says_whose_its_series_are() {
    let place = tempfile::tempdir().unwrap();
    let folder = Folder::open(&place.path().join("data"), Durability::Process).unwrap();
    {
        let (journal, _outbox) = folder.shard().unwrap();
        let read = SharedBook::new(1).unwrap().read("A".into(), point("text", 10).into()).unwrap();
        journal.write(journal.append(&read.post, read.names())).unwrap();
    }
    let run = Run::begin_in(folder, settings()).await;
    let owners = || {
        let owner = |name| run.shard.outbox.owner(&only(point(name, 1).as_bytes()).unwrap().digest());
        ["text", "b", "held"].map(owner)
    };
    let some = |name: &str| Some(name.to_string());
    let order = |order| run.orders.send(order);
    for (sender, name) in [("B", "b"), ("Q", "held")] {
        assert_eq!(run.shard.post(sender.into(), point(name, 10).into()).await, Outcome::taken(0));
    }
    assert_eq!(order(Order::Quarantine("Q".into())).await, Some(Done::Answered(Outcome::taken(0))));
    for _ in 0..2 {
        run.flush().await;
        assert_eq!(owners(), [some("A"), some("B"), None]);
    }
    assert_eq!(order(Order::Lift("Q".into())).await, Some(Done::Answered(Outcome::taken(0))));
    run.flush().await;
    assert_eq!(owners(), [some("A"), some("B"), some("Q")]);
    assert_eq!(run.shard.metrics.faults.with_label_values(&["owner"]).get(), 0);
    run.end().await;
    let run = Run::begin(place.path(), Disk::default()).await;
    let noted = run.shard.shared_book.lock().changed_recents().by_series(run.shard.outbox.numbering());
    assert_eq!(noted.digests().count(), 0, "the outbox has what a book was seeded by");
    let other = run.shard.post("B".into(), point("held", 20).into()).await;
    assert_eq!(other, Refused::OtherWriter { point: 0 }.into());
    run.end().await;
}

/// Seeding takes long if there are many series, and after a stop nobody needs it.
#[tokio::test(flavor = "multi_thread")]
#[allow(clippy::await_holding_lock)] // a thread waits for this lock, and no task
async fn who_is_told_to_stop_while_it_is_primed_ends_soon() {
    let place = tempfile::tempdir().unwrap();
    let folder = Folder::open(&place.path().join("data"), Durability::Process).unwrap();
    let (journal, outbox) = folder.shard().unwrap();
    let (shared_book, outbox) = (SharedBook::new(1).unwrap(), Arc::new(outbox));
    let held = shared_book.lock();
    let seeding = Seeding::begin(&shared_book, &outbox, false);
    let metrics = Arc::new(Metrics::new().unwrap());
    let shard = Shard::new(0, journal, outbox, metrics, shared_book.clone());
    let (worker, _orders) = ShardWorker::new(shard.clone(), settings());
    let (stop, stopped) = watch::channel(false);
    let running = tokio::spawn(worker.behind(seeding).run(stopped));
    tokio::time::sleep(Duration::from_millis(50)).await;
    stop.send(true).unwrap();
    tokio::time::sleep(Duration::from_millis(50)).await;
    assert!(!running.is_finished(), "its thread has the book still");
    drop(held);
    running.await.unwrap().unwrap();
    assert!(!shard.is_ready(), "it was told to stop before");
}
