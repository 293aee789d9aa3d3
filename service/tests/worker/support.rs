//! A shard with its worker over a folder, and what its outbox has.

use bytes::Bytes;
use serde_json::{json, Value as Json};
use std::collections::BTreeMap;
use std::path::PathBuf;
use std::sync::atomic::{AtomicUsize, Ordering};
use std::sync::Arc;
use std::time::{Duration, Instant};
use tokio::sync::watch;
use tokio::task::JoinHandle;
use totxegun::book::SharedBook;
use totxegun::metrics::Metrics;
use totxegun::otlp::series::{forwarded, Value};
use totxegun::otlp::{protobuf_of_forwarded, Clock, Outcome, Reading};
use totxegun::outbox::Outbox;
use totxegun::shard::{Request, Shard, Shared};
use totxegun::storage::{Durability, Folder};
use totxegun::worker::{Done, Order, Orders, Seeding, Settings, ShardWorker, WorkerError};

const PATIENCE: Duration = Duration::from_secs(120);

/// A folder for a test.
pub struct Place {
    folder: Option<tempfile::TempDir>,
    /// The limit of series, which may differ at each start.
    pub max_series: usize,
    /// How far from the service's clock points may end.
    pub clock: Clock,
}

impl Place {
    pub fn new() -> Place {
        Place { folder: Some(tempfile::tempdir().unwrap()), max_series: 100_000, clock: Clock::default() }
    }

    pub fn data(&self) -> PathBuf {
        self.folder.as_ref().unwrap().path().join("data")
    }

    pub fn settings(&self) -> Settings {
        Settings { every: Duration::from_secs(3600), forget: None }
    }

    pub async fn run(&self) -> Run {
        self.run_with(self.settings()).await
    }

    pub async fn run_with(&self, settings: Settings) -> Run {
        // Shown if a test fails.
        let _ = tracing_subscriber::fmt().with_test_writer().try_init();
        let folder = Folder::open(&self.data(), Durability::Process).unwrap();
        let (journal, outbox) = folder.shard().unwrap();
        let (outbox, metrics) = (Arc::new(outbox), Arc::new(Metrics::new().unwrap()));
        let shared_book = SharedBook::new(self.max_series).unwrap();
        let shared = Shared::new(metrics.clone(), self.clock);
        let seeding = Seeding::begin(&shared_book, &outbox, journal.size().1.is_some());
        let shard = Shard::of(None, 0, journal, outbox.clone(), shared_book, &shared);
        let (worker, orders) = ShardWorker::new(shard.clone(), settings);
        let (stop, stopped) = watch::channel(false);
        let task = tokio::spawn(worker.behind(seeding).run(stopped));
        let run = Run {
            shard,
            outbox,
            metrics,
            orders,
            reading: Arc::default(),
            posts: AtomicUsize::new(0),
            stop,
            task,
        };
        run.ready().await;
        run
    }
}

/// If a test fails its folder stays. A worker that still works in it would otherwise end the process before the failure
/// is reported.
impl Drop for Place {
    fn drop(&mut self) {
        if std::thread::panicking() {
            let _kept = self.folder.take().map(tempfile::TempDir::into_path);
        }
    }
}

pub struct Run {
    pub shard: Arc<Shard>,
    pub outbox: Arc<Outbox>,
    pub metrics: Arc<Metrics>,
    pub orders: Orders,
    reading: Arc<Reading>,
    posts: AtomicUsize,
    stop: watch::Sender<bool>,
    task: JoinHandle<Result<(), WorkerError>>,
}

impl Run {
    pub async fn ready(&self) {
        let begun = Instant::now();
        while !self.shard.is_ready() {
            assert!(begun.elapsed() < PATIENCE, "it is not ready");
            tokio::time::sleep(Duration::from_millis(5)).await;
        }
    }

    /// Every second post, if it can be, is sent by number like one of protobuf.
    pub async fn post(&self, sender: &str, body: Bytes) -> Outcome {
        let is_second = self.posts.fetch_add(1, Ordering::Relaxed) % 2 == 1;
        let by_number = in_protobuf(&body).filter(|_| is_second);
        let by_number = by_number.map(|body| self.shard.numbered(&body, &self.reading).unwrap());
        let request = by_number.map_or(Request::Text(body), Request::from);
        self.shard.request(sender.into(), request).await
    }

    pub async fn order(&self, order: Order) -> Done {
        self.orders.send(order).await.expect("it is ending")
    }

    /// How many requests a checkpoint made.
    pub async fn checkpoint(&self) -> u64 {
        match self.order(Order::Checkpoint).await {
            Done::Flushed { requests } => requests,
            other => panic!("{other:?}"),
        }
    }

    pub async fn stop(self) -> Taken {
        self.stop.send(true).unwrap();
        self.task.await.unwrap().unwrap();
        taken(&self.outbox).await
    }

    /// Ends like a kill: nothing is flushed.
    pub async fn abort(self) {
        self.task.abort();
        let _ = self.task.await;
    }
}

/// By the name of the metric: the sum of the values, and the intervals in the order in which they were forwarded.
pub type Taken = BTreeMap<String, (i64, Vec<(u64, u64)>)>;

/// Takes all that waits, like a sink. The intervals of a series have to follow one another.
pub async fn taken(outbox: &Outbox) -> Taken {
    let mut taken = Taken::new();
    while outbox.waiting().0 > 0 {
        let (waiting, body) = outbox.first().await.unwrap();
        for point in forwarded(&body).unwrap() {
            let Value::Sum(value) = point.value else { panic!("{point:?}") };
            let (sum, spans) = taken.entry(point.series.parts().unwrap().name).or_default();
            assert!(
                spans.last().is_none_or(|(_, end)| *end <= point.start),
                "{spans:?}, then {}",
                point.start
            );
            *sum += value;
            spans.push((point.start, point.end));
        }
        outbox.acknowledge(waiting.number).unwrap();
    }
    taken
}

pub fn sums(taken: &Taken) -> Vec<(&str, i64)> {
    taken.iter().map(|(name, (sum, _))| (name.as_str(), *sum)).collect()
}

/// A body of sums, in protobuf.
fn in_protobuf(body: &[u8]) -> Option<Bytes> {
    let mut request: Json = serde_json::from_slice(body).ok()?;
    for resource in request.get_mut("resourceMetrics")?.as_array_mut()? {
        resource["resource"] = json!({"attributes": []});
        for scope in resource.get_mut("scopeMetrics")?.as_array_mut()? {
            scope["scope"] = json!({"name": "", "version": "", "attributes": []});
            for metric in scope.get_mut("metrics")?.as_array_mut()? {
                metric["unit"] = json!("");
                metric["sum"]["isMonotonic"] = json!(false);
                for point in metric["sum"].get_mut("dataPoints")?.as_array_mut()? {
                    point["attributes"] = json!([]);
                }
            }
        }
    }
    protobuf_of_forwarded(&serde_json::to_vec(&request).ok()?).ok().map(Bytes::from)
}

/// A body with one point.
pub fn point(name: &str, start: u64, end: u64, value: i64) -> Bytes {
    text(&[(name.into(), start, end, value)])
}

/// A body with points, each of its own series.
pub fn text(points: &[(String, u64, u64, i64)]) -> Bytes {
    let metric = |(name, start, end, value): &(String, u64, u64, i64)| {
        format!(
            "{{\"name\":\"{name}\",\"sum\":{{\"aggregationTemporality\":1,\"dataPoints\":[{{\"asInt\":\"{value}\",\
             \"startTimeUnixNano\":\"{start}\",\"timeUnixNano\":\"{end}\"}}]}}}}"
        )
    };
    let metrics: Vec<String> = points.iter().map(metric).collect();
    format!("{{\"resourceMetrics\":[{{\"scopeMetrics\":[{{\"metrics\":[{}]}}]}}]}}", metrics.join(",")).into()
}

pub fn all() -> Outcome {
    Outcome::taken(0)
}

pub fn message(outcome: &Outcome) -> (u16, &str) {
    (outcome.status(), outcome.refusal().unwrap_or_default())
}
