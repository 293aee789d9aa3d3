//! The worker over files: the order of its writes, slow disks, restarts, and forgetting series.

mod amend;
mod cumulative;
mod forget;
mod moved;
mod processes;
mod rename;
mod runs;
mod seeded;
mod shares;
mod stall;

use super::*;
use crate::book::{tests::without_blocks, SharedBook};
use crate::journal::Journal;
use crate::metrics::Metrics;
use crate::otlp::series::{forwarded, Value};
use crate::otlp::Reason;
use crate::outbox::Outbox;
use crate::storage::{Call, Disk, Durability, Folder};
use std::path::{Path, PathBuf};
use std::sync::atomic::{AtomicBool, Ordering::SeqCst};
use std::sync::{Mutex, OnceLock};
use std::time::Instant;
use tokio::runtime::{Builder, Handle};
use tokio::sync::watch;
use tokio::task::JoinHandle;

struct Run {
    shard: Arc<Shard>,
    orders: Orders,
    stop: watch::Sender<bool>,
    running: JoinHandle<Result<(), WorkerError>>,
}

impl Run {
    /// A shard that takes posts, in a folder of its own.
    async fn begin(place: &Path, disk: Disk) -> Run {
        let folder = Folder::open_on(disk, &place.join("data"), Durability::Process).unwrap();
        Run::begin_in(folder, settings()).await
    }

    async fn begin_in(folder: Folder, settings: Settings) -> Run {
        let (journal, outbox) = folder.shard().unwrap();
        let run = Run::over(journal, outbox, settings);
        while !run.shard.is_ready() {
            tokio::time::sleep(Duration::from_millis(5)).await;
        }
        run
    }

    fn over(journal: Journal, outbox: Outbox, settings: Settings) -> Run {
        let metrics = Arc::new(Metrics::new().unwrap());
        let shared_book = SharedBook::new(1).unwrap();
        let outbox = Arc::new(outbox);
        let seeding = Seeding::begin(&shared_book, &outbox, journal.size().1.is_some());
        let shard = Shard::new(0, journal, outbox, metrics, shared_book);
        let (worker, orders) = ShardWorker::new(shard.clone(), settings);
        let (stop, stopped) = watch::channel(false);
        let running = tokio::spawn(worker.behind(seeding).run(stopped));
        Run { shard, orders, stop, running }
    }

    /// Posts the next point of a series.
    async fn post(&self, number: u64) -> Outcome {
        post_of(&self.shard, number).await
    }

    /// Posts for many senders, each on a thread of its own. The lock of the book is held until all but `waiting` of
    /// them are answered, or a while has passed; so before that none is in the journal.
    fn post_at_once(&self, bodies: Vec<String>, waiting: usize) -> Vec<Outcome> {
        let (book, begun) = (self.shard.shared_book.lock(), Instant::now());
        let answered = bodies.len() - waiting;
        let post = |(number, body): (usize, String)| {
            let (shard, runtime) = (self.shard.clone(), Handle::current());
            std::thread::spawn(move || runtime.block_on(shard.post(format!("S{number}"), body.into())))
        };
        let posts: Vec<_> = bodies.into_iter().enumerate().map(post).collect();
        let ended = || posts.iter().filter(|post| post.is_finished()).count();
        while ended() < answered && begun.elapsed() < Duration::from_secs(10) {
            std::thread::sleep(Duration::from_millis(1));
        }
        drop(book);
        posts.into_iter().map(|post| post.join().unwrap()).collect()
    }

    async fn flush(&self) -> u64 {
        match self.orders.send(Order::Checkpoint).await {
            Some(Done::Flushed { requests }) => requests,
            other => panic!("{other:?}"),
        }
    }

    async fn end(self) {
        self.stop.send(true).unwrap();
        self.running.await.unwrap().unwrap();
    }
}

/// The sum of everything in the outbox, as a sink would add it up.
async fn sum_of_all(shard: &Shard) -> i64 {
    let mut sum = 0;
    while shard.outbox.waiting().0 > 0 {
        let (waiting, body) = shard.outbox.first().await.unwrap();
        for point in forwarded(&body).unwrap() {
            let Value::Sum(value) = point.value else { panic!("{point:?}") };
            sum += value;
        }
        shard.outbox.acknowledge(waiting.number).unwrap();
    }
    sum
}

async fn post_of(shard: &Arc<Shard>, number: u64) -> Outcome {
    shard.post("A".into(), point("a", number).into()).await
}

fn point(name: &str, number: u64) -> String {
    format!(
        "{{\"resourceMetrics\":[{{\"scopeMetrics\":[{{\"metrics\":[{{\"name\":\"{name}\",\"sum\":{{\
         \"aggregationTemporality\":1,\"dataPoints\":[{{\"asInt\":\"1\",\
         \"startTimeUnixNano\":\"{number}\",\"timeUnixNano\":\"{}\"}}]}}}}]}}]}}]}}",
        number + 1
    )
}

/// A point of a series that takes so many bytes in the journal because it shares little with others.
fn long_point(series: usize, length: usize) -> String {
    let digits = |at: usize| format!("{:016x}", (at as u64 + 1).wrapping_mul(0x9e37_79b9_7f4a_7c15));
    let attribute = |(key, at): (usize, usize)| {
        let value: String = (at..at + 250).map(digits).collect();
        format!(r#"{{"key":"k{key}","value":{{"stringValue":"{value}"}}}}"#)
    };
    let firsts = (series * length..).step_by(250).take(length / 4_000);
    let attributes: Vec<String> = firsts.enumerate().map(attribute).collect();
    let attributes = format!("\"attributes\":[{}],\"asInt\"", attributes.join(","));
    point(&format!("n{series}"), 1).replace("\"asInt\"", &attributes)
}

/// A worker that makes no checkpoints by itself.
pub(crate) fn settings() -> Settings {
    Settings { every: Duration::from_secs(3600), forget: None }
}

/// A worker that has not begun.
pub(super) fn worker(place: &Path) -> ShardWorker {
    let folder = Folder::open(&place.join("data"), Durability::Process).unwrap();
    let (journal, outbox) = folder.shard().unwrap();
    let metrics = Arc::new(Metrics::new().unwrap());
    let shard = Shard::new(0, journal, Arc::new(outbox), metrics, SharedBook::new(1).unwrap());
    ShardWorker::new(shard, settings()).0
}

fn is_in(part: &str, path: &Path) -> bool {
    path.to_string_lossy().contains(part)
}

/// Otherwise a loss of power could leave a group of a series whose owner nobody knows any more, and a repeat would
/// count again.
#[tokio::test(flavor = "multi_thread")]
async fn a_group_is_committed_once_its_posts_are_on_the_disk_also_where_posts_are_only_written() {
    let place = tempfile::tempdir().unwrap();
    let syncs = Arc::new(Mutex::new(Vec::<PathBuf>::new()));
    let seen = syncs.clone();
    let disk = Disk::failing(move |call, path| {
        if call == Call::Sync {
            seen.lock().unwrap().push(path.into());
        }
        Ok(())
    });
    let run = Run::begin(place.path(), disk).await;
    syncs.lock().unwrap().clear();
    assert_eq!(run.post(1).await, Outcome::taken(0));
    let done = run.orders.send(Order::Checkpoint).await;
    assert_eq!(done, Some(Done::Flushed { requests: 1 }));
    let first = |part| {
        let syncs = syncs.lock().unwrap();
        syncs.iter().position(|path| is_in(part, path)).unwrap()
    };
    assert!(first("journal/000000000001.seg") < first("outbox"), "{syncs:?}");
    run.end().await;
}

/// Otherwise a start that still quarantines the sender would put its new posts together with the parked ones, as one
/// point over all their windows.
#[tokio::test(flavor = "multi_thread")]
async fn nothing_of_a_sender_is_taken_before_it_is_noted_that_it_is_released() {
    let place = tempfile::tempdir().unwrap();
    let (shard, said) = (Arc::new(OnceLock::<Arc<Shard>>::new()), Arc::new(OnceLock::new()));
    let (of, told) = (shard.clone(), said.clone());
    let disk = Disk::failing(move |call, path| {
        if let Some(shard) = of.get().filter(|_| call == Call::Write && is_in("outbox", path)) {
            let post = || Builder::new_current_thread().build().unwrap().block_on(post_of(shard, 3));
            let outcome = std::thread::scope(|scope| scope.spawn(post).join().unwrap());
            let _ = told.set(outcome);
        }
        Ok(())
    });
    let run = Run::begin(place.path(), disk).await;
    assert_eq!(run.post(1).await, Outcome::taken(0));
    let done = Some(Done::Answered(Outcome::taken(0)));
    assert_eq!(run.orders.send(Order::Quarantine("A".into())).await, done);
    assert!(shard.set(run.shard.clone()).is_ok());
    assert_eq!(run.orders.send(Order::Lift("A".into())).await, done);
    assert_eq!(said.get().map(Outcome::status), Some(403), "{said:?}");
    assert_eq!(run.post(5).await, Outcome::taken(0));
    assert_eq!(run.flush().await, 1);
    run.end().await;
}

/// Otherwise a checkpoint would drop its posts, which the book keeps back although the outbox has the sender released.
#[test]
fn a_release_that_finds_no_memory_in_the_book_ends_the_shard() {
    let place = tempfile::tempdir().unwrap();
    let runtime = Builder::new_current_thread().enable_all().build().unwrap();
    let run = runtime.block_on(async {
        let run = Run::begin(place.path(), Disk::default()).await;
        assert_eq!(run.post(1).await, Outcome::taken(0));
        let done = Some(Done::Answered(Outcome::taken(0)));
        assert_eq!(run.orders.send(Order::Quarantine("A".into())).await, done);
        run
    });
    let lift = run.orders.send(Order::Lift("A".into()));
    assert_eq!(without_blocks(|| runtime.block_on(lift)), None);
    assert!(matches!(runtime.block_on(run.running).unwrap(), Err(WorkerError::NoMemory)));
    drop((run.shard, run.orders, run.stop));
    runtime.block_on(async {
        let run = Run::begin(place.path(), Disk::default()).await;
        assert_eq!(run.post(3).await, Outcome::taken(0));
        assert_eq!(run.flush().await, 1);
        assert_eq!(sum_of_all(&run.shard).await, 2);
        run.end().await;
    });
}

/// No post waits for the sync of a group, and posts that come meanwhile are in the next group.
#[tokio::test(flavor = "multi_thread")]
async fn posts_go_on_while_a_group_is_committed() {
    let place = tempfile::tempdir().unwrap();
    let (is_held, waits) = (Arc::new(AtomicBool::new(false)), Arc::new(AtomicBool::new(false)));
    let (holding, waiting) = (is_held.clone(), waits.clone());
    let disk = Disk::failing(move |call, path| {
        while call == Call::Sync && is_in("outbox", path) && holding.load(SeqCst) {
            waiting.store(true, SeqCst);
            std::thread::sleep(Duration::from_millis(1));
        }
        Ok(())
    });
    let run = Run::begin(place.path(), disk).await;
    for number in 1..=30 {
        assert_eq!(run.post(number).await, Outcome::taken(0));
    }
    is_held.store(true, SeqCst);
    let orders = run.orders.clone();
    let checkpoint = tokio::spawn(async move { orders.send(Order::Checkpoint).await });
    while !waits.load(SeqCst) {
        tokio::time::sleep(Duration::from_millis(1)).await;
    }
    for number in 31..=50 {
        assert_eq!(run.post(number).await, Outcome::taken(0));
    }
    assert_eq!(run.shard.ungrouped(), 50, "none is in a group yet");
    is_held.store(false, SeqCst);
    assert_eq!(checkpoint.await.unwrap(), Some(Done::Flushed { requests: 1 }));
    assert_eq!(run.shard.ungrouped(), 20);
    assert_eq!(run.flush().await, 1);
    assert_eq!(run.shard.ungrouped(), 0);
    run.end().await;
}

/// Otherwise its points would be in a group whose commit says that they are in none, and a start would put them in
/// again.
#[tokio::test(flavor = "multi_thread")]
async fn a_checkpoint_waits_for_a_post_that_is_written() {
    let place = tempfile::tempdir().unwrap();
    let run = Run::begin(place.path(), Disk::default()).await;
    let appending = run.shard.journal.hold_appends();
    let (shard, shared_book) = (run.shard.clone(), run.shard.shared_book.clone());
    let post = tokio::spawn(async move { shard.post("A".into(), point("a", 1).into()).await });
    while run.shard.ungrouped() == 0 {
        tokio::time::sleep(Duration::from_millis(1)).await;
    }
    // The book has the post, and a flush has to wait.
    let taking = tokio::task::spawn_blocking(move || shared_book.lock().series());
    tokio::time::sleep(Duration::from_millis(100)).await;
    let is_taken = taking.is_finished();
    drop(appending);
    assert!(!is_taken, "the lock was free while the post was in no journal");
    assert_eq!(post.await.unwrap(), Outcome::taken(0));
    assert_eq!((taking.await.unwrap(), run.flush().await), (1, 1));
    assert_eq!(run.shard.ungrouped(), 0);
    run.end().await;
}

/// Whether posts are taken is checked again under the lock: a post after the last checkpoint would be in no group.
#[tokio::test(flavor = "multi_thread")]
async fn nothing_is_taken_after_the_last_checkpoint() {
    let place = tempfile::tempdir().unwrap();
    let run = Run::begin(place.path(), Disk::default()).await;
    assert_eq!(run.post(1).await, Outcome::taken(0));
    let shard = run.shard.clone();
    let read = shard.shared_book.read("A".into(), point("a", 2).into()).unwrap();
    run.end().await;
    let late = shard.put_of_test(read);
    assert_eq!(late, Err(Reason::Stopping));
    assert_eq!(shard.ungrouped(), 0);
}

/// Otherwise they could use up the reserved room, and no start would have room for its own files until somebody frees
/// some.
#[tokio::test(flavor = "multi_thread")]
async fn posts_that_come_at_once_leave_the_room_that_is_kept_for_commits() {
    const KEPT: u64 = 256 << 20;
    const LENGTH: usize = 12_000;
    const FIT: usize = 10;
    let room = (FIT * LENGTH) as u64;
    let place = tempfile::tempdir().unwrap();
    let folder = Folder::open_on(Disk::default(), &place.path().join("data"), Durability::Process).unwrap();
    let journal = place.path().join("data/shard-0/journal/000000000001.seg");
    let path = journal.clone();
    let written = move || std::fs::metadata(&path).map_or(0, |file| file.len());
    let free = move || (KEPT + room).saturating_sub(written());
    let run = Run::begin_in(folder.in_room(free), settings()).await;
    let bodies = (0..40).map(|number| long_point(number, LENGTH));
    let mut taken = 0;
    for outcome in run.post_at_once(bodies.collect(), FIT) {
        match outcome.refusal() {
            None => taken += 1,
            Some(_) => assert_eq!(outcome, Reason::NoRoom.into()),
        }
    }
    assert_eq!(taken, FIT);
    assert!(std::fs::metadata(&journal).unwrap().len() < room + LENGTH as u64);
    run.end().await;
}
