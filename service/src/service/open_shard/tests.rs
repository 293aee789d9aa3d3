use super::*;
use crate::latch::Latch;
use crate::metrics::Metrics;
use crate::otlp::Clock;
use crate::storage::shard_store::{self, memory::Store};
use crate::storage::{Durability, Fenced, Folder};
use std::future::Future;
use std::path::Path;

/// A shard without deliveries, whose worker ends in this way after it was told to.
pub fn open_shard(
    place: &Path,
    number: u16,
    end: impl Future<Output = Result<(), Fault>> + Send + 'static,
) -> OpenShard {
    let folder = Folder::open(place, Durability::Process).unwrap();
    let (journal, outbox) = folder.shard().unwrap();
    over((journal, outbox, folder.dead().unwrap()), number, end)
}

pub fn over(
    (journal, outbox, dead): (Journal, Outbox, DeadLetters),
    number: u16,
    end: impl Future<Output = Result<(), Fault>> + Send + 'static,
) -> OpenShard {
    let (dead, outbox) = (Arc::new(dead), Arc::new(outbox));
    let metrics = Arc::new(Metrics::new().unwrap());
    let shared = Shared::new(metrics, Clock::default());
    let shard = Shard::of(None, number, journal, outbox.clone(), SharedBook::new(1).unwrap(), &shared);
    let (stop_worker, mut stopped) = watch::channel(false);
    let mut worker = JoinSet::new();
    worker.spawn(async move {
        stopped.wait_true().await;
        end.await.map_err(WorkerError::from)
    });
    let settings = crate::worker::Settings { every: Duration::from_secs(3600), forget: None };
    let orders = ShardWorker::new(shard.clone(), settings).1;
    let delivery = Arc::default();
    let undelivered = Undelivered { number, outbox, delivery };
    OpenShard {
        local: Arc::new(admin::LocalShard { shard, orders, undelivered, dead }),
        worker,
        delivery: JoinSet::new(),
        stop_worker,
        stop_delivery: watch::channel(false).0,
    }
}

impl OpenShard {
    /// With a worker that ends in this way, whatever it is told.
    pub fn with_worker(mut self, end: impl Future<Output = Result<(), Fault>> + Send + 'static) -> OpenShard {
        let mut worker = JoinSet::new();
        worker.spawn(async move { end.await.map_err(WorkerError::from) });
        self.worker = worker;
        self
    }
}

pub fn no_disk() -> Fault {
    Fault::Io { path: "/outbox".into(), source: std::io::Error::other("no disk") }
}

/// It may be in the middle of changing its files, usually for a commit.
#[tokio::test]
async fn a_fault_of_a_worker_that_is_late_is_told() {
    let place = tempfile::tempdir().unwrap();
    let late = async {
        tokio::time::sleep(LAST_CHECKPOINT + Duration::from_millis(200)).await;
        Err(no_disk())
    };
    let ended = open_shard(place.path(), 0, late).stop().await;
    assert!(matches!(ended, Err(Ended::Disk(_))), "{ended:?}");
}

/// Another instance has to open the shard, and to know the reason.
#[tokio::test]
async fn a_shard_that_failed_in_a_store_ends_with_the_reason_and_one_that_is_lost_without() {
    for why in [None, Some("no room")] {
        let shard_store = Arc::<Store>::default().take();
        let files = shard_store::open(shard_store, "00000000000000aa").unwrap();
        let mut open_shard = over(files, 0, async { Ok(()) }).with_worker(async { Err(Fenced.into()) });
        assert!(why.is_none_or(|why| open_shard.local.shard.journal.close(why)));
        match (open_shard.ended().await, why) {
            (End::Fenced, None) => {}
            (End::Failed(ended), Some(why)) => assert_eq!(ended.to_string(), why),
            (end, why) => panic!("{end:?} {why:?}"),
        }
    }
}

#[test]
fn a_shard_has_more_than_its_share_and_than_it_has_already() {
    for (most, shards, known, wanted) in [
        (100_000, 1, 0, 100_000),
        (100_000, 32, 0, 12_500),
        (100_000, 32, 9_000, 18_000),
        (100_000, 32, 80_000, 100_000),
        (100_000, 2, 0, 100_000),
        (1, 1024, 0, 1),
    ] {
        assert_eq!(room(most, shards, known), wanted, "{most} series, {shards} shards, {known} known");
    }
}
