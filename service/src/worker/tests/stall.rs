//! A disk that stalls: later posts are refused at once, and everything goes on afterwards.

use super::*;
use crate::ingest::Threads;
use crate::otlp::Reason;
use tokio::runtime::Handle;

/// Makes the disk answer again, even if an assertion fails: the end of a test waits for it.
struct Thaw(Arc<AtomicBool>);

impl Drop for Thaw {
    fn drop(&mut self) {
        self.0.store(false, SeqCst);
    }
}

/// Posts on a disk that stalls one kind of call in one folder: posts in flight wait, later ones are refused.
async fn stall(stalled: Call, folder: &'static str) {
    let place = tempfile::tempdir().unwrap();
    let stalls = Arc::new(AtomicBool::new(false));
    let stalling = stalls.clone();
    let disk = Disk::failing(move |call, path| {
        while call == stalled && is_in(folder, path) && stalling.load(SeqCst) {
            std::thread::sleep(Duration::from_millis(1));
        }
        Ok(())
    });
    let data = Folder::open_on(disk, &place.path().join("data"), Durability::Disk).unwrap();
    let run = Run::begin_in(data, settings()).await;
    assert_eq!(run.post(1).await, Outcome::taken(0));
    let thaw = Thaw(stalls.clone());
    stalls.store(true, SeqCst);
    let began = Instant::now();
    let (shard, orders) = (run.shard.clone(), run.orders.clone());
    let first = tokio::spawn(async move {
        match folder {
            "outbox" => drop(orders.send(Order::Checkpoint).await),
            _ => assert_eq!(shard.post("A".into(), point("a", 2).into()).await, Outcome::taken(0)),
        }
    });
    while run.shard.unavailable().is_none() {
        assert!(began.elapsed() < Duration::from_secs(3), "nobody is told");
        tokio::time::sleep(Duration::from_millis(5)).await;
    }
    let (turned_away, asks) = (run.shard.clone(), Instant::now());
    for number in 0..20 {
        let outcome = turned_away.post(format!("S{number}"), point("s", 1).into()).await;
        assert_eq!(outcome, Reason::DiskSilent.into());
    }
    // What an operator sees.
    let shown = (run.shard.unavailable(), run.shard.journal.held().posts, run.shard.outbox.stuck());
    assert_eq!(shown, (Some(Reason::DiskSilent), 0, None));
    assert!(run.shard.journal.size().0 > 0 && run.shard.outbox.waiting().0 == 0);
    let call = run.shard.disk_call();
    let took = asks.elapsed();
    let waits = !first.is_finished();
    drop(thaw);
    assert!(waits && call >= Duration::from_secs(2), "{call:?}");
    assert!(took < Duration::from_secs(1), "{took:?}");
    first.await.unwrap();
    while run.shard.unavailable().is_some() {
        tokio::time::sleep(Duration::from_millis(5)).await;
    }
    let last = if folder == "outbox" { 2 } else { 3 };
    assert_eq!(run.post(last).await, Outcome::taken(0));
    run.flush().await;
    assert_eq!(sum_of_all(&run.shard).await, last as i64);
    run.end().await;
}

#[tokio::test(flavor = "multi_thread", worker_threads = 4)]
async fn posts_are_turned_away_while_a_write_stalls() {
    stall(Call::Write, "journal").await;
}

#[tokio::test(flavor = "multi_thread", worker_threads = 4)]
async fn posts_are_turned_away_while_a_sync_stalls() {
    stall(Call::Sync, "journal").await;
}

#[tokio::test(flavor = "multi_thread", worker_threads = 4)]
async fn posts_are_turned_away_while_the_disk_of_a_group_stalls() {
    stall(Call::Sync, "outbox").await;
}

/// A run whose writes to the journal stall while the flag is set, for at most four seconds.
async fn run_with_stalling_writes(place: &Path) -> (Run, Thaw) {
    let stalls = Arc::new(AtomicBool::new(false));
    let stalling = stalls.clone();
    let disk = Disk::failing(move |call, path| {
        while call == Call::Write && is_in("journal", path) && stalling.load(SeqCst) {
            std::thread::sleep(Duration::from_millis(1));
        }
        Ok(())
    });
    let data = Folder::open_on(disk, &place.join("data"), Durability::Process).unwrap();
    let run = Run::begin_in(data, settings()).await;
    assert_eq!(run.post(1).await, Outcome::taken(0));
    stalls.store(true, SeqCst);
    let ends = stalls.clone();
    std::thread::spawn(move || {
        std::thread::sleep(Duration::from_secs(4));
        ends.store(false, SeqCst);
    });
    (run, Thaw(stalls))
}

/// A thread that waited would serve nobody until the disk goes on, not even posts that are refused.
async fn waits_for_no_write(thread: &Handle) {
    let place = tempfile::tempdir().unwrap();
    let (run, thaw) = run_with_stalling_writes(place.path()).await;
    let (shard, began) = (run.shard.clone(), Instant::now());
    let first = thread.spawn(async move { post_of(&shard, 2).await });
    while run.shard.unavailable().is_none() {
        assert!(began.elapsed() < Duration::from_secs(3), "nobody is told");
        tokio::time::sleep(Duration::from_millis(5)).await;
    }
    let shard = run.shard.clone();
    let late = thread.spawn(async move { shard.post("S".into(), point("s", 1).into()).await });
    let late = late.await.unwrap();
    assert_eq!(
        (late.status(), late.refusal(), first.is_finished()),
        (503, Some(Reason::DiskSilent.text()), false)
    );
    drop(thaw);
    assert_eq!(first.await.unwrap(), Outcome::taken(0));
    run.end().await;
}

#[tokio::test]
async fn a_thread_that_serves_waits_for_no_write() {
    let threads = Threads::new(1).unwrap();
    waits_for_no_write(&threads.place().0).await;
}

/// Posts from other instances come on such threads.
#[tokio::test]
async fn another_thread_waits_for_no_write() {
    waits_for_no_write(&Handle::current()).await;
}

/// Posts would wait for that lock, on the threads that serve senders.
#[tokio::test(flavor = "multi_thread", worker_threads = 4)]
async fn a_checkpoint_waits_for_a_write_without_the_lock_of_the_book() {
    let place = tempfile::tempdir().unwrap();
    let (run, thaw) = run_with_stalling_writes(place.path()).await;
    let (shard, orders) = (run.shard.clone(), run.orders.clone());
    let post = tokio::spawn(async move { post_of(&shard, 2).await });
    while run.shard.disk_call().is_zero() {
        tokio::time::sleep(Duration::from_millis(1)).await;
    }
    let checkpoint = tokio::spawn(async move { orders.send(Order::Checkpoint).await });
    tokio::time::sleep(Duration::from_millis(100)).await;
    let (shard, (tell, told)) = (run.shard.clone(), std::sync::mpsc::channel());
    std::thread::spawn(move || tell.send(shard.shared_book.lock().series()));
    let is_free = told.recv_timeout(Duration::from_secs(1)).is_ok();
    let waits = !checkpoint.is_finished();
    drop(thaw);
    assert!(is_free && waits, "the lock is free: {is_free}");
    assert_eq!(post.await.unwrap(), Outcome::taken(0));
    assert_eq!(checkpoint.await.unwrap(), Some(Done::Flushed { requests: 1 }));
    run.end().await;
}
