//! Tests posts of both encodings over checkpoints, quarantines, kills and starts: the journal has their points by
//! number, and texts that an earlier version has written still work.

use crate::support::{all, message, point, text, Place, Run};
use bytes::Bytes;
use std::collections::{BTreeMap, BTreeSet};
use std::sync::Arc;
use totxegun::journal::{Body, NoNames, Post, Replayed};
use totxegun::otlp::series::only;
use totxegun::otlp::{Outcome, Reading};
use totxegun::storage::{Durability, Folder};
use totxegun::worker::{Done, Order};

const SENDERS: u64 = 4;
const SERIES: u64 = 6;
/// The greatest value of a point that is drawn. Points with more are those that nobody takes.
const MOST_VALUE: i64 = 50;

/// A small generator, with the same numbers in each run.
pub struct Chance(pub u64);

impl Chance {
    pub fn below(&mut self, end: u64) -> u64 {
        self.0 = self.0.wrapping_mul(6364136223846793005).wrapping_add(1442695040888963407);
        (self.0 >> 33) % end
    }
}

fn field(number: u8, bytes: &[u8]) -> Vec<u8> {
    [&[number << 3 | 2, bytes.len() as u8], bytes].concat()
}

fn fixed64(number: u8, bits: u64) -> Vec<u8> {
    [&[number << 3 | 1][..], &bits.to_le_bytes()].concat()
}

/// The same as `point` has in JSON, in protobuf and for several series.
pub fn points(series: &[(String, u64, u64, i64)]) -> Bytes {
    let metrics = series.iter().flat_map(|(name, start, end, value)| {
        let point = [fixed64(2, *start), fixed64(3, *end), fixed64(6, *value as u64)].concat();
        let sum = [&field(1, &point)[..], &[2 << 3, 1]].concat();
        field(1, &field(2, &field(2, &[field(1, name.as_bytes()), field(7, &sum)].concat())))
    });
    metrics.collect::<Vec<u8>>().into()
}

pub async fn post_by_number(run: &Run, sender: &str, body: Bytes, reading: &Arc<Reading>) -> Outcome {
    let numbered = run.shard.numbered(&body, reading).expect("it has sums alone");
    run.shard.request(sender.into(), numbered.into()).await
}

/// What is known of the points that were taken.
#[derive(Default)]
struct Model {
    /// The end and the sum of each series.
    series: BTreeMap<String, (u64, i64)>,
    /// The last point of each series: its start and its value.
    last: BTreeMap<String, (u64, i64)>,
    quarantined: BTreeSet<String>,
    in_protobuf: usize,
}

impl Model {
    async fn post(&mut self, run: &Run, chance: &mut Chance, reading: &Arc<Reading>) {
        let sender = format!("s{}", chance.below(SENDERS));
        let mut post = Vec::new();
        for number in 0..1 + chance.below(SERIES) {
            let name = format!("{sender}-{number}");
            let (last, _) = self.series.get(&name).copied().unwrap_or((10, 0));
            post.push((name, last, last + 1 + chance.below(9), chance.below(MOST_VALUE as u64) as i64));
        }
        let in_protobuf = chance.below(2) > 0;
        let outcome = match in_protobuf {
            true => post_by_number(run, &sender, points(&post), reading).await,
            false => run.shard.post(sender.clone(), text(&post)).await,
        };
        if self.quarantined.contains(&sender) {
            assert_eq!(message(&outcome), (403, "quarantined"));
            return;
        }
        assert_eq!(outcome, all(), "{post:?}");
        self.in_protobuf += usize::from(in_protobuf);
        for (name, start, end, value) in post {
            self.last.insert(name.clone(), (start, value));
            let of_it = self.series.entry(name).or_insert((0, 0));
            *of_it = (end, of_it.1 + value);
        }
    }

    /// Repeats are not taken again, and get the answer of the first time, in either encoding; late points are refused.
    async fn repeats_are_known(&self, run: &Run, reading: &Arc<Reading>) {
        for (name, (end, _)) in &self.series {
            let sender = name.split('-').next().unwrap();
            if !self.quarantined.contains(sender) {
                let late = format!("duplicate or late: point 0, frontier {end}");
                let (start, value) = self.last[name];
                for (start, value, wanted) in
                    [(end - 1, MOST_VALUE, (400, late.as_str())), (start, value, (200, ""))]
                {
                    let body = points(&[(name.clone(), start, *end, value)]);
                    let by_number = post_by_number(run, sender, body, reading).await;
                    let text = run.shard.post(sender.into(), point(name, start, *end, value)).await;
                    assert_eq!([message(&by_number), message(&text)], [wanted; 2], "{name}");
                }
            }
        }
    }

    async fn change_quarantine(&mut self, run: &Run, sender: String) {
        let order = match self.quarantined.remove(&sender) {
            true => Order::Lift(sender),
            false => {
                self.quarantined.insert(sender.clone());
                Order::Quarantine(sender)
            }
        };
        let done = run.order(order).await;
        assert!(matches!(&done, Done::Answered(Outcome::Taken { .. })), "{done:?}");
    }
}

#[tokio::test(flavor = "multi_thread")]
async fn what_was_taken_in_both_encodings_is_forwarded_once() {
    for seed in 0..6 {
        let (place, mut chance, mut model) = (Place::new(), Chance(seed), Model::default());
        let mut reading = Arc::new(Reading::default());
        let mut run = place.run().await;
        for _ in 0..60 {
            match chance.below(12) {
                0 => drop(run.checkpoint().await),
                1 => {
                    run.abort().await;
                    run = place.run().await;
                    reading = Arc::new(Reading::default());
                    model.repeats_are_known(&run, &reading).await;
                }
                2 => {
                    let sender = format!("s{}", chance.below(SENDERS));
                    model.change_quarantine(&run, sender).await;
                }
                _ => model.post(&run, &mut chance, &reading).await,
            }
        }
        for sender in model.quarantined.clone() {
            model.change_quarantine(&run, sender).await;
        }
        assert!((6..34).contains(&model.in_protobuf), "seed {seed}: {}", model.in_protobuf);
        for kind in ["replay", "owner"] {
            assert_eq!(run.metrics.faults.with_label_values(&[kind]).get(), 0, "{kind}");
        }
        let taken = run.stop().await;
        let sums = taken.into_iter().map(|(name, (sum, _))| (name, sum));
        let expected = model.series.into_iter().map(|(name, (_, sum))| (name, sum));
        assert_eq!(sums.collect::<Vec<_>>(), expected.collect::<Vec<_>>(), "seed {seed}");
    }
}

/// The posts of the journal that are in no group.
fn in_journal(place: &Place) -> Vec<Replayed> {
    let (journal, outbox) = folder(place).shard().unwrap();
    let mut found = Vec::new();
    let posts = journal.posts(outbox.journal(), u64::MAX, |read| {
        found.push(read);
        true
    });
    posts.unwrap();
    found
}

fn folder(place: &Place) -> Folder {
    Folder::open(&place.data(), Durability::Process).unwrap()
}

/// A text would be read as it is.
#[tokio::test(flavor = "multi_thread")]
async fn points_of_both_encodings_are_in_the_journal_by_number() {
    let place = Place::new();
    let run = place.run().await;
    let reading = Arc::new(Reading::default());
    let series = |start, values: [i64; 2]| {
        let point = |(name, value): (&str, i64)| (name.to_string(), start, start + 10, value);
        ["a", "b"].into_iter().zip(values).map(point).collect::<Vec<_>>()
    };
    let body = points(&series(10, [5, -6]));
    assert_eq!(post_by_number(&run, "A", body, &reading).await, all());
    let mut more = series(20, [7, 8]);
    more.push(("c".into(), 20, 30, 9));
    assert_eq!(run.shard.post("A".into(), text(&more)).await, all());
    run.abort().await;
    let found = in_journal(&place);
    let named = |read: &Replayed| {
        let name = |(number, text): &(u64, Bytes)| (*number, only(text).unwrap().parts().unwrap().name);
        read.named.iter().map(name).collect::<Vec<_>>()
    };
    let words = found.iter().map(|read| match &read.post.body {
        Body::Points(points) => points.each().map(<[u64]>::to_vec).collect(),
        Body::Text(_) => panic!("{read:?}"),
    });
    let words: Vec<BTreeSet<Vec<u64>>> = words.collect(); // a text has them book by book
    assert_eq!(words[0], [[0, 10, 20, 5], [1, 10, 20, -6i64 as u64]].map(Vec::from).into());
    // The series of the text have the same numbers as before.
    assert_eq!(words[1], [[0, 20, 30, 7], [1, 20, 30, 8], [2, 20, 30, 9]].map(Vec::from).into());
    let name = |number, name: &str| (number, name.to_string());
    assert_eq!(named(&found[0]), [name(0, "a"), name(1, "b")]);
    assert_eq!(named(&found[1]), [name(2, "c")]);
}

/// That version wrote each post in JSON as its text.
#[tokio::test(flavor = "multi_thread")]
async fn texts_that_an_earlier_version_has_written_go_on() {
    let (place, mut sums) = (Place::new(), BTreeMap::<String, i64>::new());
    let mut chance = Chance(7);
    for start in 0..12 {
        if start % 3 == 0 {
            place.run().await.abort().await;
            let (journal, _outbox) = folder(&place).shard().unwrap();
            let post = Post {
                sender: "A".into(),
                foreign: 0,
                body: Body::Text(text(&drawn(&mut chance, start, &mut sums))),
            };
            journal.append(&post, &NoNames);
            continue;
        }
        let run = place.run().await;
        let post = text(&drawn(&mut chance, start, &mut sums));
        let repeat = run.shard.post("A".into(), post.clone()).await;
        assert_eq!(repeat, all());
        let repeat = run.shard.post("A".into(), post).await;
        assert_eq!(repeat, all());
        match start {
            7 => assert!(run.checkpoint().await > 0),
            _ => run.abort().await,
        }
    }
    let run = place.run().await;
    assert_eq!(run.metrics.faults.with_label_values(&["replay"]).get(), 0);
    let taken = run.stop().await.into_iter();
    let taken = taken.map(|(name, (sum, _))| (name, sum));
    assert_eq!(taken.collect::<BTreeMap<_, _>>(), sums);
}

/// Points of some series, later than all before.
fn drawn(chance: &mut Chance, number: u64, sums: &mut BTreeMap<String, i64>) -> Vec<(String, u64, u64, i64)> {
    let first = chance.below(4);
    let points = (first..first + 2).map(|series| {
        let (name, value) = (format!("t{series}"), chance.below(90) as i64);
        *sums.entry(name.clone()).or_default() += value;
        (name, 10 + 10 * number, 20 + 10 * number, value)
    });
    points.collect()
}
