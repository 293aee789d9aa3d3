//! Shards with their files in folders, which are opened and closed while posts go on.

mod finer_units;
mod reach;

use super::super::open_shard::tests::{no_disk, open_shard, over};
use super::super::operators::AdminAddresses;
use super::super::Live;
use super::*;
use crate::admin::{AdminApi, AuditLog, Others, Pulse};
use crate::book::FlushWindow;
use crate::dead_letters::DeadLetters;
use crate::identity::Door;
use crate::ingest::connections::Handler;
use crate::ingest::head::{Head, Packing};
use crate::ingest::{Budget, Ingest};
use crate::journal::Journal;
use crate::metrics::Metrics;
use crate::otlp::series::{forwarded, Value};
use crate::otlp::{shard_of, Clock, Encoding, Outcome, Reading, Reason, Resources};
use crate::outbox::Outbox;
use crate::sink::{Address, Answer, DeliveryOutcome, Forwarded, Keys, Retention};
use crate::storage::shard_store::{self, memory::Store};
use crate::storage::{Durability, Fenced, Folder, Tenure};
use bytes::Bytes;
use hyper::{Body, Request};
use std::path::{Path, PathBuf};
use std::time::{Duration, Instant};

const SHARDS: u16 = 3;

/// A sink that takes everything.
#[derive(Default)]
struct Taken {
    came: Mutex<Vec<Forwarded>>,
    held: Keys,
}

impl Sink for Taken {
    fn deliver_of<'a>(
        &'a self,
        request: &'a Forwarded,
        _tenure: Option<&'a Tenure>,
    ) -> Answer<'a, DeliveryOutcome> {
        self.came.lock().unwrap().push(request.clone());
        Box::pin(async { DeliveryOutcome::Taken })
    }

    fn name(&self) -> String {
        "test".into()
    }

    fn keys(&self) -> &Keys {
        &self.held
    }
}

/// The folder is kept after the test: a shard that is still writing would otherwise end the process of all tests.
fn folder() -> PathBuf {
    tempfile::tempdir().unwrap().into_path()
}

fn settings(place: &Path) -> Settings {
    Settings {
        store: None,
        data: place.into(),
        listen: String::new(),
        listen_grpc: None,
        operate: AdminAddresses { tcp: None, socket: PathBuf::new(), tokens: None },
        door: Door::default(),
        behind_proxy: false,
        sink: Address::Sqlite(PathBuf::new()),
        retention: Retention::default(),
        new_sink: false,
        durability: Durability::Process,
        every: Duration::from_secs(3600),
        forget: None,
        reading: Reading::default(),
        clock: Clock::default(),
        across: FlushWindow::None,
        runs: crate::runs::Options::default(),
        live: Live::default(),
        reload: Box::new(|| None),
        pass: None,
        max_bytes: 64 << 20,
        max_late: 1 << 20,
        max_connections: 8,
        threads: 1,
        max_series: 1000,
        totals_times: admin::Times::None,
        metrics: Arc::new(Metrics::new().unwrap()),
    }
}

struct Service {
    place: PathBuf,
    sink: Arc<Taken>,
    open_shards: OpenShards,
    ends: Ends,
    ingest: Ingest<Reported<Shard>>,
    budget: Arc<Budget>,
    admin: Arc<AdminApi>,
}

impl Service {
    fn new(place: &Path) -> Service {
        Service::of(settings(place), None)
    }

    /// With other instances.
    fn of(settings: Settings, others: Option<Others>) -> Service {
        let settings = Arc::new(settings);
        let (metrics, reading) = (settings.metrics.clone(), Arc::new(settings.reading.clone()));
        let place = settings.data.clone();
        let shared = Arc::new(Shared::new(metrics.clone(), settings.clock));
        let sink = Arc::<Taken>::default();
        let reporter =
            Reporter::new(settings.live.report_options.clone(), metrics.clone(), Arc::default(), None);
        let shards = Shards::several(Resources::new(SHARDS, reading.clone()), None);
        let local = admin::LocalShards::of(SHARDS);
        let (shard_tasks, ends) = ShardTasks::new(local.clone());
        let budget = Budget::new(settings.max_bytes);
        let ingest = Ingest::of(shards.clone(), reporter.clone(), reading, budget.clone(), metrics.clone());
        let admin = Arc::new(AdminApi {
            others,
            open_shards: local,
            quotas: shared.quotas.clone(),
            acts: Arc::new(AuditLog::in_folder(&place)),
            sink: sink.clone(),
            totals: None,
            pulse: Pulse::begin(metrics.clone()),
            metrics,
            budget: budget.clone(),
            activity: Arc::default(),
            late: shared.late.clone(),
            listen: String::new(),
            operate: String::new(),
            is_local: true,
            data: place.display().to_string(),
            max_series: 1000,
            begun: Instant::now(),
        });
        let open_shards = OpenShards { settings, shared, sink: sink.clone(), reporter, shards, shard_tasks };
        Service { place, sink, open_shards, ends, ingest, budget, admin }
    }

    async fn open(&self, number: u16) {
        let place = self.place.join(number.to_string());
        let folder = Folder::open(&place, Durability::Process).unwrap();
        let (journal, outbox) = folder.shard().unwrap();
        self.begin(number, (journal, outbox, folder.dead().unwrap())).await;
    }

    async fn begin(&self, number: u16, files: (Journal, Outbox, DeadLetters)) {
        self.open_shards.open(Files::of_shard_store(number, files)).await.unwrap();
        let is_ready = |open_shard: Arc<admin::LocalShard>| open_shard.shard.is_ready();
        while !self.admin.open_shards.get(number).is_some_and(is_ready) {
            tokio::time::sleep(Duration::from_millis(1)).await;
        }
    }

    /// Posts one point, which ends at `end`, for a resource in each of these shards.
    async fn post(&self, shards: &[u16], end: u64) -> Outcome {
        let head = Head { sender: "A".into(), encoding: Encoding::Json, packing: Packing::Plain };
        let body = request(shards, end);
        self.ingest.put(head, body, self.budget.hold()).await
    }

    async fn ask(&self, method: &str, path: &str) -> (u16, String) {
        let request = Request::builder().method(method).uri(path);
        let request = request.body(Body::empty()).unwrap();
        let answer = self.admin.clone().answer(request).await;
        let status = answer.status().as_u16();
        let body = hyper::body::to_bytes(answer.into_body()).await.unwrap();
        (status, String::from_utf8(body.to_vec()).unwrap())
    }

    /// The shards whose requests the sink got, and the sum of all points.
    async fn taken(&self) -> (Vec<u16>, i64) {
        while self.admin.open_shards.sum(|open_shard| open_shard.undelivered.outbox.waiting().0) > 0 {
            tokio::time::sleep(Duration::from_millis(1)).await;
        }
        let came = self.sink.came.lock().unwrap();
        let mut shards: Vec<u16> = came.iter().map(|request| request.shard).collect();
        shards.sort_unstable();
        let points = came.iter().flat_map(|request| forwarded(&request.body).unwrap());
        let values = points.map(|point| match point.value {
            Value::Sum(value) => value,
            other => panic!("{other:?}"),
        });
        (shards, values.sum())
    }
}

/// The attributes of a resource that belongs to this shard.
fn attributes(shard: u16) -> String {
    let of =
        |number: u32| format!(r#"[{{"key":"service.instance.id","value":{{"stringValue":"p{number}"}}}}]"#);
    (0..).map(of).find(|text| shard_of(text, SHARDS) == shard).unwrap()
}

fn request(shards: &[u16], end: u64) -> Bytes {
    let resources: Vec<String> = shards
        .iter()
        .map(|shard| {
            let (attributes, start) = (attributes(*shard), end - 1);
            format!(
                r#"{{"resource":{{"attributes":{attributes}}},"scopeMetrics":[{{"metrics":[{{"name":"m","sum":{{"aggregationTemporality":1,"dataPoints":[{{"asInt":"1","startTimeUnixNano":"{start}","timeUnixNano":"{end}"}}]}}}}]}}]}}"#
            )
        })
        .collect();
    format!(r#"{{"resourceMetrics":[{}]}}"#, resources.join(",")).into()
}

/// After a hand-over everything taken is in the outbox, and another owner may open the files.
#[tokio::test]
async fn a_shard_is_handed_over_while_the_others_go_on() {
    let place = folder();
    let service = Service::new(&place);
    for shard in 0..SHARDS {
        service.open(shard).await;
    }
    assert_eq!(service.post(&[0, 1, 2], 10).await, Outcome::taken(0));
    assert!(service.open_shards.hand_over(1).await.unwrap(), "in time");
    assert!(service.open_shards.shard_tasks.open_shards().get(1).is_none());
    let nobody = service.post(&[1], 20).await;
    assert_eq!(nobody, Reason::NoOwner.into());
    assert_eq!(service.post(&[0, 2], 20).await, Outcome::taken(0));
    service.open(1).await; // no shard has its folder open any more
    assert_eq!(service.post(&[1], 5).await.status(), 400, "it knows what it had");
    assert_eq!(service.post(&[1], 20).await, Outcome::taken(0));
    for shard in 0..SHARDS {
        assert!(service.open_shards.hand_over(shard).await.unwrap(), "in time");
    }
    assert!(service.admin.open_shards.all().is_empty(), "all have ended");
    for shard in 0..SHARDS {
        service.open(shard).await;
    }
    let (mut shards, sum) = service.taken().await;
    shards.dedup();
    assert_eq!((shards, sum), (vec![0, 1, 2], 6));
}

#[tokio::test]
async fn a_shard_that_is_lost_ends_alone() {
    let place = folder();
    let mut service = Service::new(&place);
    for shard in 0..SHARDS {
        service.open(shard).await;
    }
    assert_eq!(service.post(&[0, 1, 2], 10).await, Outcome::taken(0));
    let lost = service.open_shards.shard_tasks.open_shards().all().remove(1);
    service.open_shards.fence_off(1);
    assert_eq!(service.post(&[1], 20).await.status(), 503);
    assert_eq!(lost.shard.unavailable(), Some(Reason::ShardMoves), "also for who had found it before");
    assert_eq!(service.post(&[0, 2], 20).await, Outcome::taken(0));
    assert!(service.ends.try_recv().is_err(), "nothing else has ended");
    assert!(service.open_shards.shard_tasks.open_shards().get(1).is_none());
}

#[tokio::test]
async fn what_ends_by_itself_is_told_with_its_shard() {
    let (first, second) = (folder(), folder());
    let (shard_tasks, mut ends) = ShardTasks::new(admin::LocalShards::of(2));
    let (fail, failing) = tokio::sync::oneshot::channel::<()>();
    shard_tasks.start(open_shard(&first, 0, async { Ok(()) }));
    let broken = open_shard(&second, 1, std::future::pending());
    shard_tasks.start(broken.with_worker(async {
        let _ = failing.await;
        Err(no_disk())
    }));
    assert!(ends.try_recv().is_err());
    fail.send(()).unwrap();
    let ending = ends.recv().await.unwrap();
    let is_disk = matches!(ending.end, End::Failed(Ended::Disk(_)));
    assert!((ending.shard, ending.term) == (1, None) && is_disk, "{ending:?}");
    assert!(shard_tasks.stop(0).await.unwrap());
}

/// By the time this is read the shard may be open again under a later term, which must not end with it.
#[tokio::test]
async fn what_ends_in_a_store_is_told_with_its_term() {
    let store = Arc::<Store>::default();
    let (shard_tasks, mut ends) = ShardTasks::new(admin::LocalShards::of(1));
    for term in 1..3 {
        let files = shard_store::open(store.take(), "00000000000000aa").unwrap();
        let lost = over(files, 0, async { Ok(()) }).with_worker(async { Err(Fenced.into()) });
        shard_tasks.start(lost);
        let ending = ends.recv().await.unwrap();
        assert!(matches!(ending.end, End::Fenced) && ending.term == Some(term), "{ending:?}");
        shard_tasks.fence_off(0);
    }
}

/// After a store was restored, the sink may have everything that the journal has, and nothing of what follows; in one
/// group it would leave out both.
#[tokio::test]
async fn what_a_start_puts_in_again_is_a_group_of_its_own() {
    let place = folder();
    let (service, store) = (Service::new(&place), Arc::<Store>::default());
    let files = || shard_store::open(store.take(), "00000000000000aa").unwrap();
    service.begin(0, files()).await;
    assert_eq!(service.post(&[0], 10).await, Outcome::taken(0));
    service.open_shards.fence_off(0);
    service.begin(0, files()).await;
    assert_eq!(service.post(&[0], 20).await, Outcome::taken(0));
    assert_eq!(service.ask("POST", "/flush").await.0, 503, "two shards are elsewhere");
    assert_eq!(service.taken().await, (vec![0, 0], 2));
}

/// Otherwise one shard would accept a sender that another one refuses, unnoticed.
#[tokio::test]
async fn orders_are_all_shards_and_503_where_one_is_not_here() {
    let place = folder();
    let service = Service::new(&place);
    service.open(0).await;
    service.open(2).await;
    let quarantine = ("POST", "/quarantine/A");
    let (status, text) = service.ask(quarantine.0, quarantine.1).await;
    assert!(status == 503 && text.contains("2 of 3 shards did it, and not shard 1"), "{status} {text}");
    assert_eq!(service.post(&[0, 2], 10).await.status(), 403, "those that are here refuse it");
    service.open(1).await;
    assert_eq!(service.ask(quarantine.0, quarantine.1).await.0, 200, "also where some had it");
    assert_eq!(service.post(&[0, 1, 2], 10).await.status(), 403);
    assert_eq!(service.ask(quarantine.0, quarantine.1).await.0, 400, "all had it");
    assert_eq!(service.ask("POST", "/release/A").await.0, 200);
    assert_eq!(service.post(&[0, 1, 2], 10).await, Outcome::taken(0));
    let (status, text) = service.ask("POST", "/flush").await;
    assert_eq!((status, text.as_str()), (200, r#"{"requests":3}"#));
    assert_eq!(service.taken().await, (vec![0, 1, 2], 3));
}

#[tokio::test]
async fn what_is_shown_is_of_all_shards() {
    let place = folder();
    let service = Service::new(&place);
    for shard in 0..SHARDS {
        service.open(shard).await;
    }
    assert_eq!(service.post(&[0, 1, 2], 10).await, Outcome::taken(0));
    assert_eq!(service.ask("POST", "/flush").await.0, 200);
    assert_eq!(service.post(&[1, 2], 20).await, Outcome::taken(0));
    let (status, text) = service.ask("GET", "/status").await;
    let said: serde_json::Value = serde_json::from_str(&text).unwrap();
    let shards = said["shards"].as_array().unwrap().iter();
    let shards: Vec<u64> = shards.map(|shard| shard["shard"].as_u64().unwrap()).collect();
    assert_eq!((status, shards, said["ready"].as_bool()), (200, vec![0, 1, 2], Some(true)));
    let (_, metrics) = service.ask("GET", "/metrics").await;
    for line in ["totxegun_series 3", "totxegun_ready 1"] {
        assert!(metrics.lines().any(|found| found == line), "{line} in\n{metrics}");
    }
    let (status, page) = service.ask("GET", "/").await;
    assert!(status == 200 && page.contains("takes posts"), "{page}");
    let (status, report) = service.ask("GET", "/report").await;
    let series = report.lines().filter(|line| line.starts_with("series")).count();
    assert_eq!((status, series), (200, 3), "{report}");
    let (status, why) = service.ask("POST", "/close/2026-10").await;
    assert!(status == 409 && why.contains("not flushed"), "{status} {why}");
    let dead = service.open_shards.shard_tasks.open_shards().all().remove(2).dead.clone();
    dead.keep("2-abc-7", "no", b"{}").unwrap();
    let (status, letters) = service.ask("GET", "/dead-letters").await;
    assert!(status == 200 && letters.contains("2-abc-7"), "{letters}");
    assert_eq!(service.ask("GET", "/dead-letters/2-abc-7").await, (200, "{}".into()));
    assert_eq!(service.ask("GET", "/dead-letters/1-abc-7").await.0, 404);
    assert_eq!(service.ask("POST", "/dead-letters/2-abc-7/drop").await.0, 200);
    assert_eq!(dead.count(), 0);
}
