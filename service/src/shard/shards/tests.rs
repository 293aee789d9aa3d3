//! Requests in parts, for books and for shards that come and go.

use super::super::numbers::Numbers;
use super::super::posted::RequestReader;
use super::super::{Shard, Shared};
use super::*;
use crate::book::{FlushWindow, SharedBook};
use crate::ingest::head::{Head, Packing};
use crate::ingest::{Budget, Ingest, ResponseObserver};
use crate::metrics::Metrics;
use crate::otlp::series::forwarded;
use crate::otlp::{posts_of_test, prepare, requests_of_test, Clock, Reading};
use crate::storage::test_runs::runs;
use crate::storage::{Durability, Folder};
use std::path::Path;
use std::sync::Mutex;

/// One book that gets requests whole, and one that gets them in parts.
struct Both {
    books: [Arc<SharedBook>; 2],
    resources: Resources,
    reading: Arc<Reading>,
    numbers: Numbers,
    split: usize,
    taken: usize,
    foreign: u64,
}

impl Both {
    fn new() -> Both {
        let reading = Arc::<Reading>::default();
        Both {
            books: [(); 2].map(|()| SharedBook::apart(20_000, FlushWindow::None).unwrap()),
            resources: Resources::new(5, reading.clone()),
            reading,
            numbers: Numbers::default(),
            split: 0,
            taken: 0,
            foreign: 0,
        }
    }

    /// How many points are foreign; none if it is refused.
    fn put(&self, book: usize, sender: &str, encoding: Encoding, body: &Bytes) -> Option<u64> {
        let text = prepare(encoding, body.clone(), &self.reading).ok()?.body;
        let window = Clock::default().window();
        let shared_book = &self.books[book];
        let reader = RequestReader { shared_book, numbers: &self.numbers, window };
        let mut read = reader.read(sender.into(), text.into()).ok()?;
        shared_book.lock().admit(&mut read.read).ok()?;
        Some(read.read.post.foreign)
    }

    fn post(&mut self, sender: &str, encoding: Encoding, body: Bytes) {
        let Some(foreign) = self.put(0, sender, encoding, &body) else {
            return;
        };
        let parts = match self.resources.split(encoding, &body) {
            Split::Whole(_) => vec![body.clone()],
            Split::Parts(parts) => parts.into_iter().map(|part| part.body).collect(),
        };
        let of_parts = parts.iter().map(|part| self.put(1, sender, encoding, part));
        let of_parts: Vec<Option<u64>> = of_parts.collect();
        let sum = of_parts.iter().copied().sum::<Option<u64>>();
        assert_eq!(sum, Some(foreign), "{body:02x?}");
        self.split += usize::from(parts.len() > 1);
        self.taken += 1;
        self.foreign += foreign;
    }

    /// Counts and totals of both are the same.
    fn flush(&self) {
        let [whole, parts] = [0, 1].map(|book| {
            let shared_book = &self.books[book];
            let mut flushed = shared_book.lock().take_all().unwrap();
            let texts = flushed.texts().unwrap();
            shared_book.lock().settle(flushed).unwrap();
            let report = String::from_utf8(shared_book.lock().report().unwrap()).unwrap();
            // Series, owners and frontiers only: accepted sums begin anew with each round, and rounds depend on the
            // number of posts.
            let lines = report.lines().filter_map(|line| line.split(" accepted ").next());
            let mut report: Vec<String> = lines.map(String::from).collect();
            report.sort();
            let points = texts.iter().flat_map(|text| forwarded(text).unwrap());
            let mut points: Vec<_> = points
                .map(|point| (point.series, point.start, point.end, format!("{:?}", point.value)))
                .collect();
            points.sort();
            (report, points)
        });
        for (one, other) in [(&parts, &whole), (&whole, &parts)] {
            let line = one.0.iter().find(|line| !other.0.contains(line));
            assert_eq!(line, None, "of a report");
            let point = one.1.iter().find(|point| !other.1.contains(point));
            assert_eq!(point, None);
        }
        assert_eq!((parts.0.len(), parts.1.len()), (whole.0.len(), whole.1.len()));
    }
}

#[test]
fn the_parts_of_requests_give_the_counts_and_totals_of_the_whole() {
    let mut both = Both::new();
    let many = runs(500, 1500) as usize;
    let of_protobuf = (1..).flat_map(|seed| posts_of_test(seed, 500)).take(many);
    for (number, body) in of_protobuf.enumerate() {
        both.post(["A", "B"][number * 2 / many], Encoding::Protobuf, body.into());
        if number % 100 == 99 {
            both.flush();
        }
    }
    for both_forms in requests_of_test(many / 4) {
        for text in both_forms {
            both.post("C", Encoding::Json, text);
        }
    }
    both.flush();
    let found = (both.split, both.taken, both.foreign);
    assert!(both.split > many / 8 && both.taken > many / 4 && both.foreign > 0, "{found:?}");
}

const SHARDS: u16 = 4;

/// Shards with their books and journals, and an ingest before them.
struct Service {
    shards: Arc<Shards<Shard>>,
    all: Vec<Arc<Shard>>,
    ingest: Ingest<Shard>,
    budget: Arc<Budget>,
    heard: Arc<Heard>,
}

#[derive(Default)]
struct Heard(Mutex<Vec<String>>);

impl ResponseObserver for Heard {
    fn answered(&self, sender: &str, outcome: &Outcome) {
        self.0.lock().unwrap().push(format!("{sender} {}", outcome.status()));
    }

    fn part_refused(&self, sender: &str, outcome: &Outcome) {
        let part = format!("{sender} part {}", outcome.status());
        self.0.lock().unwrap().push(part);
    }
}

impl Service {
    /// No shard takes posts yet.
    fn new(place: &Path) -> Service {
        let metrics = Arc::new(Metrics::new().unwrap());
        let shared = Shared::new(metrics.clone(), Clock::default());
        let reading = Arc::<Reading>::default();
        let shards = Shards::several(Resources::new(SHARDS, reading.clone()), None);
        let all = (0..SHARDS).map(|number| {
            let place = place.join(number.to_string());
            let folder = Folder::open(&place, Durability::Process).unwrap();
            let (journal, outbox) = folder.shard().unwrap();
            let shared_book = SharedBook::new(1000).unwrap();
            Shard::of(None, number, journal, Arc::new(outbox), shared_book, &shared)
        });
        let (budget, heard) = (Budget::new(64 << 20), Arc::<Heard>::default());
        let ingest = Ingest::of(shards.clone(), heard.clone(), reading, budget.clone(), metrics);
        Service { shards, all: all.collect(), ingest, budget, heard }
    }

    /// Opens a shard and makes it reachable.
    fn open(&self, number: u16) {
        let shard = &self.all[usize::from(number)];
        shard.open();
        self.shards.set(number, Some(shard.clone()));
    }

    async fn post(&self, sender: &str, body: &Bytes) -> Outcome {
        let head = Head { sender: sender.into(), encoding: Encoding::Json, packing: Packing::Plain };
        self.ingest.put(head, body.clone(), self.budget.hold()).await
    }

    /// The values of all points that the books took.
    fn totals(&self) -> Vec<i64> {
        let mut totals = Vec::new();
        for shard in &self.all {
            let mut flushed = shard.shared_book.lock().take_all().unwrap();
            for text in flushed.texts().unwrap() {
                let points = forwarded(&text).unwrap().into_iter();
                totals.extend(points.map(|point| match point.value {
                    crate::otlp::series::Value::Sum(value) => value,
                    other => panic!("{other:?}"),
                }));
            }
            shard.shared_book.lock().settle(flushed).unwrap();
        }
        totals.sort_unstable();
        totals
    }

    fn heard(&self) -> Vec<String> {
        std::mem::take(&mut *self.heard.0.lock().unwrap())
    }
}

/// The name of a process whose resource belongs to this shard.
fn process(shard: u16) -> String {
    let has_shard = |name: &String| shard_of_process(name) == shard;
    (0..).map(|number| format!("p{number}")).find(has_shard).unwrap()
}

fn attributes(name: &str) -> String {
    format!(r#"[{{"key":"service.instance.id","value":{{"stringValue":"{name}"}}}}]"#)
}

fn shard_of_process(name: &str) -> u16 {
    crate::otlp::shard_of(&attributes(name), SHARDS)
}

/// A request of these processes, each with a point of this value.
fn request(processes: &[(&str, i64)], end: u64) -> Bytes {
    let start = end - 1;
    let resources: Vec<String> = processes
        .iter()
        .map(|(name, value)| {
            let attributes = attributes(name);
            format!(
                r#"{{"resource":{{"attributes":{attributes}}},"scopeMetrics":[{{"metrics":[{{"name":"m","sum":{{"aggregationTemporality":1,"dataPoints":[{{"asInt":"{value}","startTimeUnixNano":"{start}","timeUnixNano":"{end}"}}]}}}}]}}]}}"#
            )
        })
        .collect();
    format!(r#"{{"resourceMetrics":[{}]}}"#, resources.join(",")).into()
}

/// A sender drops a post that is answered 400: it would consider the part that was taken as lost.
#[tokio::test]
async fn a_repeat_of_a_post_that_was_taken_in_part_is_taken() {
    let place = tempfile::tempdir().unwrap();
    let service = Service::new(place.path());
    let (one, other) = (process(1), process(2));
    let body = request(&[(&one, 5), (&other, 7)], 10);
    service.open(1);
    assert_eq!(service.post("A", &body).await, Reason::NoOwner.into());
    service.open(2);
    for _ in 0..2 {
        assert_eq!(service.post("A", &body).await, Outcome::taken(0));
    }
    assert_eq!((service.totals(), service.budget.used()), (vec![5, 7], 0));
    assert_eq!(service.heard(), ["A 503", "A 200", "A 200"]);
}

/// If the shard were chosen by the sender, two shards would have the series.
#[tokio::test]
async fn a_series_of_two_senders_meets_in_one_shard() {
    let place = tempfile::tempdir().unwrap();
    let service = Service::new(place.path());
    (0..SHARDS).for_each(|shard| service.open(shard));
    let shared = process(3);
    let by_sender = |sender: &str| crate::otlp::shard_of(sender, SHARDS);
    let second = (0..).map(|number| format!("B{number}"));
    let second = second.clone().find(|name| by_sender(name) != by_sender("A")).unwrap();
    assert_eq!(service.post("A", &request(&[(&shared, 5)], 10)).await, Outcome::taken(0));
    let own = process(0);
    let both = request(&[(&own, 3), (&shared, 5)], 20);
    let said = service.post(&second, &both).await;
    let why = r#""1 point is refused: other writer: point 1""#;
    let text = String::from_utf8(said.body(Encoding::Json)).unwrap();
    assert!(said.status() == 200 && text.contains(why), "{text}");
    assert_eq!(service.totals(), [3, 5]);
}

/// A post goes to the shard that it found, whoever owns it by then; nothing is taken twice.
#[tokio::test(flavor = "multi_thread", worker_threads = 4)]
async fn shards_come_and_go_while_posts_go_on() {
    let place = tempfile::tempdir().unwrap();
    let service = Arc::new(Service::new(place.path()));
    (0..SHARDS).for_each(|shard| service.open(shard));
    let names: Vec<String> = (0..SHARDS).map(process).collect();
    let (moving, last) = (service.clone(), 200);
    let moves = tokio::spawn(async move {
        for number in 0..u16::MAX {
            let shard = number % SHARDS;
            moving.shards.set(shard, None);
            tokio::task::yield_now().await;
            moving.open(shard);
            tokio::task::yield_now().await;
        }
    });
    let posts = (0..4).map(|task| {
        let (service, names) = (service.clone(), names.clone());
        tokio::spawn(async move {
            let sender = format!("S{task}");
            // Each sender has metrics of its own.
            for end in 1..=last {
                let all: Vec<(&str, i64)> = names.iter().map(|name| (name.as_str(), 1)).collect();
                let body = request(&all, end * 10);
                let body =
                    String::from_utf8(body.to_vec()).unwrap().replace("\"m\"", &format!("\"{sender}\""));
                while service.post(&sender, &body.clone().into()).await.status() == 503 {
                    tokio::task::yield_now().await;
                }
            }
        })
    });
    for post in posts.collect::<Vec<_>>() {
        post.await.unwrap();
    }
    moves.abort();
    let _ = moves.await;
    let wanted = 4 * i64::from(SHARDS) * last as i64;
    assert_eq!(service.totals().into_iter().sum::<i64>(), wanted);
    let heard = service.heard();
    let in_time = heard.iter().filter(|heard| !heard.contains("part") && !heard.ends_with(" 503"));
    assert_eq!(in_time.count(), 4 * last as usize, "each post has one answer at the end");
}

/// The shard of a folder gets each request, whatever it contains.
#[tokio::test]
async fn one_shard_gets_all_requests_as_they_come() {
    let one = Shards::one(Some(Arc::new(5)));
    for body in [&b"{}"[..], b"\xff", b""] {
        let way = one.way(Encoding::Json, &Bytes::from_static(body));
        assert!(matches!(way, RequestRoute::Here(taker) if *taker == 5));
    }
    assert!(one.here(0).is_some() && one.here(1).is_none());
}
