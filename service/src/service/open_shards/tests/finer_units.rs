//! What `--integer-unit auto` decides, if shards move between instances or between starts.

use super::*;
use crate::otlp::{FinerUnits, Profile};
use crate::service::StoreSettings;
use crate::shard::Phase;
use crate::storage::shard_store::{self, fenced, memory::Step, memory::Store, ShardStore};
use crate::store::postgres::{address, Copies};
use std::sync::atomic::{AtomicBool, AtomicUsize, Ordering::SeqCst};

const DOUBLE: &str = r#""asDouble":0.25"#;
const WHOLE: &str = r#""asInt":"7""#;
const AHEAD: u64 = 4_000_000_000_000_000_000;

fn finer(settings: Settings, choices: &[&str]) -> Settings {
    let choices = choices.iter().map(|choice| choice.parse().unwrap());
    let reading = Reading { profile: Profile::AlsoCumulative, ..Reading::default() };
    let finer_units = FinerUnits::of(choices).unwrap().with_profile(reading.profile);
    Settings { reading: Reading { finer_units, ..reading }, ..settings }
}

/// An instance whose shards have their files in folders here.
fn instance(place: &Path, choices: &[&str]) -> Service {
    let store = StoreSettings {
        database: address("postgres://u@h/d").unwrap(),
        copies: Copies::One,
        instance: "a".into(),
        peer: String::new(),
        peer_tls: None,
        peer_plain: false,
        reading: String::new(),
    };
    Service::of(Settings { store: Some(store), ..finer(settings(place), choices) }, None)
}

/// A process that has the same folders without a store.
fn process(place: &Path, choices: &[&str]) -> Service {
    Service::of(finer(settings(place), choices), None)
}

/// Posts a delta point for a resource of this shard.
async fn post(service: &Service, shard: u16, unit: &str, value: &str) -> Outcome {
    let point = format!(r#"{value},"startTimeUnixNano":"1","timeUnixNano":"2""#);
    post_of(service, shard, &sum("m", unit, 1, &point)).await
}

/// Posts a cumulative point of a run that began after the folder was made.
async fn post_run(service: &Service, unit: &str, value: &str, nanoseconds: u64) -> Outcome {
    let (start, time) = (AHEAD, AHEAD + nanoseconds);
    let point = format!(r#"{value},"startTimeUnixNano":"{start}","timeUnixNano":"{time}""#);
    post_of(service, 1, &sum("run", unit, 2, &point)).await
}

fn sum(name: &str, unit: &str, temporality: u8, point: &str) -> String {
    format!(
        r#"{{"name":"{name}","unit":"{unit}","sum":{{"aggregationTemporality":{temporality},"dataPoints":[{{{point}}}]}}}}"#
    )
}

async fn post_of(service: &Service, shard: u16, metric: &str) -> Outcome {
    let attributes = attributes(shard);
    let body = format!(
        r#"{{"resourceMetrics":[{{"resource":{{"attributes":{attributes}}},"scopeMetrics":[{{"metrics":[{metric}]}}]}}]}}"#
    );
    let head = Head { sender: "A".into(), encoding: Encoding::Json, packing: Packing::Plain };
    service.ingest.put(head, body.into(), service.budget.hold()).await
}

/// Otherwise a retry that reaches the next owner would belong to another series and count twice, or its double would be
/// rejected.
#[tokio::test]
async fn what_one_instance_has_decided_is_so_at_the_next() {
    let place = tempfile::tempdir().unwrap();
    let (one, other) = (instance(place.path(), &["auto"]), instance(place.path(), &["auto"]));
    one.open(1).await;
    other.open(0).await;
    assert_eq!(post(&one, 1, "s", DOUBLE).await, Outcome::taken(0), "in us");
    assert_eq!(post(&other, 0, "s", WHOLE).await, Outcome::taken(0), "in s");
    for flushed in [false, true] {
        if flushed {
            assert_eq!(one.ask("POST", "/flush").await.0, 503, "it has not all shards");
        }
        assert!(one.open_shards.hand_over(1).await.unwrap(), "in time");
        other.open(1).await;
        let repeat = post(&other, 1, "s", DOUBLE).await;
        assert_eq!(repeat.status(), 200, "{repeat:?}");
        assert!(other.open_shards.hand_over(1).await.unwrap(), "in time");
        one.open(1).await;
    }
    // If the second shard knows nothing of the metric's name, it does as the first one here.
    one.open(2).await;
    assert_eq!(post(&one, 2, "s", WHOLE).await, Outcome::taken(0));
    assert_eq!(one.ask("POST", "/flush").await.0, 503, "it has not all shards");
    one.taken().await;
    let points = {
        let came = one.sink.came.lock().unwrap();
        let of_second = came.iter().filter(|request| request.shard == 2);
        let points = of_second.flat_map(|request| forwarded(&request.body).unwrap());
        points.collect::<Vec<_>>()
    };
    assert!(matches!(points[..], [ref point] if point.value == Value::Sum(7_000_000)), "{points:?}");
    // Nothing is written any more when the folder is removed.
    for (service, shard) in [(&one, 1), (&one, 2), (&other, 0)] {
        assert!(service.open_shards.hand_over(shard).await.unwrap(), "in time");
    }
}

/// Otherwise the doubles of a metric would be rejected until the next start, because of a post that counts as never
/// sent.
#[tokio::test]
async fn a_refused_post_decides_no_unit() {
    for serves in [instance, process] {
        let place = folder();
        let service = serves(&place, &["auto"]);
        service.open(1).await;
        let of = |name, unit| {
            sum(name, unit, 1, &format!(r#"{WHOLE},"startTimeUnixNano":"1","timeUnixNano":"2""#))
        };
        service.ask("POST", "/quarantine/A").await;
        let refused = post_of(&service, 1, &of("m", "s")).await;
        assert_eq!(refused.status(), 403, "{refused:?}");
        service.ask("POST", "/release/A").await;
        assert_eq!(post(&service, 1, "s", DOUBLE).await, Outcome::taken(0));
        assert!(service.open_shards.hand_over(1).await.unwrap(), "in time");
    }
}

/// The requests that sinks got, by key.
#[derive(Default)]
struct Came(BTreeMap<String, Vec<u8>>);

impl Came {
    fn note(&mut self, service: &Service) {
        let came = service.sink.came.lock().unwrap();
        self.0.extend(came.iter().map(|request| (request.key(), request.body.clone())));
    }

    /// The sum of each metric in each unit.
    fn sums(&self) -> Vec<(String, i64)> {
        let mut sums = BTreeMap::new();
        for point in self.0.values().flat_map(|body| forwarded(body).unwrap()) {
            let parts = point.series.parts().unwrap();
            let Value::Sum(value) = point.value else { panic!("{:?}", point.value) };
            *sums.entry(format!("{} {}", parts.name, parts.unit)).or_insert(0) += value;
        }
        sums.into_iter().collect()
    }
}

fn sums<const N: usize>(sums: [(&str, i64); N]) -> Vec<(String, i64)> {
    sums.map(|(name, sum)| (name.to_string(), sum)).into()
}

/// Otherwise a retry after a start, and the rest of a run, would belong to the rule's series and count twice.
#[tokio::test]
async fn what_a_rule_brings_in_a_coarser_unit_decides_nothing_at_the_next_start() {
    for serves in [instance, process] {
        let (place, mut came) = (folder(), Came::default());
        let mut service = serves(&place, &["auto", "ms"]);
        service.open(1).await;
        for (unit, value) in [("s", DOUBLE), ("ms", WHOLE)] {
            assert_eq!(post(&service, 1, unit, value).await, Outcome::taken(0), "{unit}");
            assert_eq!(post_run(&service, unit, value, 1).await, Outcome::taken(0), "{unit}");
        }
        for start in 2..4 {
            assert!(service.open_shards.hand_over(1).await.unwrap(), "in time");
            came.note(&service);
            service = serves(&place, &["auto", "ms"]);
            service.open(1).await;
            let of_minutes = r#""asDouble":0.004166666666666667"#;
            for (unit, value) in [("s", DOUBLE), ("min", of_minutes), ("ms", WHOLE)] {
                let repeat = post(&service, 1, unit, value).await;
                assert_eq!(repeat.status(), 200, "{unit}: {repeat:?}");
            }
            let whole = format!(r#""asInt":"{start}""#);
            assert_eq!(post_run(&service, "s", &whole, start).await, Outcome::taken(0));
        }
        assert!(service.open_shards.hand_over(1).await.unwrap(), "in time");
        let last = serves(&place, &["auto", "ms"]);
        last.open(1).await;
        last.taken().await;
        [&service, &last].into_iter().for_each(|service| came.note(service));
        assert!(last.open_shards.hand_over(1).await.unwrap(), "in time");
        assert_eq!(came.sums(), sums([("m ms", 7), ("m us", 250_000), ("run ms", 7), ("run us", 3_000_000)]));
    }
}

impl Service {
    /// Whether a shard could be opened before it was fenced.
    async fn has_opened(&self, shard: u16, shard_store: Arc<dyn ShardStore>) -> bool {
        let Ok(files) = shard_store::open(shard_store, "00000000000000aa") else {
            return false;
        };
        if self.open_shards.open(Files::of_shard_store(shard, files)).await.is_err() {
            return false;
        }
        let shard = self.admin.open_shards.get(shard).unwrap().shard.clone();
        loop {
            match shard.phase() {
                Phase::Recovering => tokio::select! {
                    _ = shard.journal.fenced() => return false, // if its delivery finds out first, its worker is gone
                    () = tokio::time::sleep(Duration::from_millis(1)) => {}
                },
                phase => return phase == Phase::Serving,
            }
        }
    }
}

/// Before and after each sync, and again at the start that follows.
#[tokio::test]
async fn whenever_a_shard_is_lost_each_point_counts_once_in_its_unit() {
    let place = folder();
    let (mut at, mut is_lost) = (0, true);
    while std::mem::take(&mut is_lost) {
        let (store, mut came) = (Arc::<Store>::default(), Came::default());
        // The second owner is fenced at the same step, and gets again what the first one got.
        for most in [at, at, usize::MAX] {
            let (steps, over) = (AtomicUsize::new(0), Arc::new(AtomicBool::new(false)));
            let ends = over.clone();
            let shard_store = store.take_with(move |step| match step {
                Step::Sync | Step::Committed if steps.fetch_add(1, SeqCst) >= most => {
                    ends.store(true, SeqCst);
                    Err(fenced())
                }
                _ => Ok(()),
            });
            let service = instance(&place, &["auto", "ms"]);
            if service.has_opened(1, shard_store).await {
                for (unit, value) in [("s", DOUBLE), ("ms", WHOLE)] {
                    let said = post(&service, 1, unit, value).await.status();
                    assert!([200, 400].contains(&said) || over.load(SeqCst), "{at} {unit}: {said}");
                }
                assert_eq!(service.ask("POST", "/flush").await.0, 503, "it has not all shards");
            }
            if most == usize::MAX {
                service.taken().await;
            }
            came.note(&service);
            is_lost |= over.load(SeqCst);
        }
        assert_eq!(came.sums(), sums([("m ms", 7), ("m us", 250_000)]), "{at}");
        at += 1;
    }
    assert!(at > 4, "{at}");
}
