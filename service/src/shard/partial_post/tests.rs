//! Compares posts with late, foreign-owned, rejected and duplicate points in all positions with a model that goes point by
//! point.

mod late_data;

use super::*;
use crate::book::SharedBook;
use crate::metrics::Metrics;
use crate::otlp::series::{forwarded, Value};
use crate::otlp::{answered, Clock, Profile, RejectedPoint};
use crate::shard::{Request, Shared};
use crate::storage::test_random::TestRandom;
use crate::storage::{Disk, Durability, Folder};
use std::collections::BTreeMap;
use std::sync::atomic::{AtomicBool, Ordering::SeqCst};
use std::time::Duration;

/// How many series each sender has.
const SERIES: u64 = 3;

/// A point: its series (sender and number), its start, its end and its value.
#[derive(Clone, Copy, Debug, PartialEq, Eq)]
struct Point {
    series: (char, u64),
    start: u64,
    end: u64,
    value: i64,
}

/// What the model knows of a series.
#[derive(Clone, Debug, Default)]
struct OfSeries {
    end: u64,
    sum: i64,
    /// The points that each post had of it.
    posts: Vec<Vec<Point>>,
}

#[derive(Clone, Copy, Debug, PartialEq, Eq)]
enum Wanted {
    Taken,
    Duplicate,
    Late(u64),
    Others,
}

#[derive(Default)]
struct Model(BTreeMap<(char, u64), OfSeries>);

impl Model {
    /// The fate of each point of a post, by its order in the text, for each series by itself.
    fn post(&mut self, sender: char, points: &[Point]) -> Vec<Wanted> {
        let mut wanted = vec![Wanted::Others; points.len()];
        let mut series: Vec<(char, u64)> = points.iter().map(|point| point.series).collect();
        series.sort_unstable();
        series.dedup();
        for one in series.into_iter().filter(|one| one.0 == sender) {
            let of = self.0.entry(one).or_default();
            let own: Vec<usize> = (0..points.len()).filter(|place| points[*place].series == one).collect();
            for (place, fate) in own.iter().zip(of.fates(own.iter().map(|place| points[*place]).collect())) {
                wanted[*place] = fate;
            }
        }
        wanted
    }
}

impl OfSeries {
    fn fates(&mut self, all: Vec<Point>) -> Vec<Wanted> {
        let is_as_before = |place: usize| place > 0 && all[place - 1] == all[place];
        let points: Vec<Point> =
            (0..all.len()).filter(|place| !is_as_before(*place)).map(|at| all[at]).collect();
        let mut of_each = self.fates_of_different(&points).into_iter();
        let mut fates = Vec::<Wanted>::new();
        for place in 0..all.len() {
            let before = fates.last().copied().filter(|_| is_as_before(place));
            fates.push(match before {
                Some(Wanted::Taken) => Wanted::Duplicate,
                Some(other) => other,
                None => of_each.next().unwrap(),
            });
        }
        fates
    }

    /// The same for points of which no two neighbours are equal.
    fn fates_of_different(&mut self, points: &[Point]) -> Vec<Wanted> {
        let last_two: Vec<Vec<Point>> = self.posts.iter().rev().take(2).cloned().collect();
        let (mut fates, mut taken) = (Vec::<Wanted>::new(), Vec::new());
        let mut place = 0;
        while place < points.len() {
            let point = points[place];
            if point.start >= self.end {
                self.end = point.end;
                self.sum += point.value;
                taken.push(point);
                fates.push(Wanted::Taken);
                place += 1;
            } else {
                let is_here = |post: &&Vec<Point>| points[place..].starts_with(post);
                let length = last_two.iter().filter(is_here).map(Vec::len).max();
                let fate = if length.is_some() { Wanted::Duplicate } else { Wanted::Late(self.end) };
                fates.extend(vec![fate; length.unwrap_or(1)]);
                place += length.unwrap_or(1);
            }
        }
        if !taken.is_empty() {
            self.posts.push(taken);
        }
        fates
    }
}

fn body(points: &[Point]) -> String {
    body_with(points, &[])
}

/// The same with a point of a gauge at each of these places among the metrics.
fn body_with(points: &[Point], gauges: &[usize]) -> String {
    let mut metrics: Vec<String> = points
        .iter()
        .map(|Point { series: (sender, number), start, end, value }| {
            format!(
                r#"{{"name":"{sender}{number}","sum":{{"aggregationTemporality":1,"dataPoints":[{{"asInt":"{value}","startTimeUnixNano":"{start}","timeUnixNano":"{end}"}}]}}}}"#
            )
        })
        .collect();
    for place in gauges {
        metrics.insert(*place, r#"{"name":"g","gauge":{"dataPoints":[{"asInt":"1"}]}}"#.into());
    }
    format!(r#"{{"resourceMetrics":[{{"scopeMetrics":[{{"metrics":[{}]}}]}}]}}"#, metrics.join(","))
}

/// Points of a series that continue it, are late, or were in an earlier post.
fn drawn(chance: &mut TestRandom, model: &Model, sender: char) -> Vec<Point> {
    let owner = if chance.below(8) == 0 { 'B' } else { sender };
    let series = (owner, chance.below(SERIES));
    let of = model.0.get(&series).cloned().unwrap_or_default();
    let fresh = |start: u64, chance: &mut TestRandom| {
        let (end, value) = (start + 1 + chance.below(5), chance.below(1000) as i64);
        Point { series, start, end, value }
    };
    match chance.below(8) {
        0 | 1 if !of.posts.is_empty() => of.posts[of.posts.len() - 1].clone(),
        2 if of.posts.len() > 1 => of.posts[of.posts.len() - 2].clone(),
        3 if !of.posts.is_empty() => of.posts[chance.below(of.posts.len() as u64) as usize].clone(),
        4 if of.end > 20 => vec![fresh(of.end - 1 - chance.below(18), chance)],
        5 => vec![fresh(of.end.max(10), chance); 2],
        _ => {
            let mut all = vec![fresh(of.end.max(10), chance)];
            for _ in 0..chance.below(3) {
                let next = fresh(all[all.len() - 1].end, chance);
                all.push(next);
            }
            all
        }
    }
}

/// Interleaves the points of several series at random.
fn mixed(chance: &mut TestRandom, mut parts: Vec<Vec<Point>>) -> Vec<Point> {
    let mut all = Vec::new();
    while !parts.is_empty() {
        let part = chance.below(parts.len() as u64) as usize;
        all.push(parts[part].remove(0));
        parts.retain(|part| !part.is_empty());
    }
    all
}

async fn posted(shard: &Arc<Shard>, sender: char, body: String, by_number: bool) -> Outcome {
    let request = match by_number {
        true => Request::from(shard.numbered_text(&body.into()).unwrap().unwrap()),
        false => Request::Text(body.into()),
    };
    shard.request(sender.to_string(), request).await
}

/// What an answer says: the status, how many points are rejected, and for each reason how many and the first one.
fn said(outcome: &Outcome) -> (u16, u64, Vec<String>) {
    let begin = |message: &str| message.splitn(3, ": ").take(2).collect::<Vec<_>>().join(": ");
    match outcome {
        Outcome::Taken { rejected, parts, .. } => {
            let parts = parts.iter().map(|(points, why)| format!("{points} {}", begin(&why.message)));
            let mut parts: Vec<String> = parts.collect();
            parts.sort();
            (200, *rejected, parts)
        }
        Outcome::Refused(rejection) => (outcome.status(), 0, vec![begin(&rejection.message)]),
    }
}

/// What is to be said of a post with points that come to this, beside so many foreign ones.
fn wanted(fates: &[Wanted], foreign: u64) -> (u16, u64, Vec<String>) {
    let of = |is_wanted: fn(&Wanted) -> bool| -> Vec<(usize, Wanted)> {
        fates.iter().copied().enumerate().filter(|(_, fate)| is_wanted(fate)).collect()
    };
    let told = |(place, fate): (usize, Wanted)| match fate {
        Wanted::Late(frontier) => format!("duplicate or late: point {place}, frontier {frontier}"),
        _ => format!("other writer: point {place}"),
    };
    let (late, others) =
        (of(|fate| matches!(fate, Wanted::Late(_))), of(|fate| matches!(fate, Wanted::Others)));
    let rejected = (late.len() + others.len()) as u64;
    if rejected == fates.len() as u64 {
        let first = late.first().into_iter().chain(others.first()).min_by_key(|first| first.0).unwrap();
        return (400, 0, vec![told(*first)]);
    }
    let parts =
        [late, others].into_iter().filter_map(|of| Some(format!("{} {}", of.len(), told(*of.first()?))));
    let mut parts: Vec<String> = parts.collect();
    parts.sort();
    (200, rejected + foreign, parts)
}

#[tokio::test]
async fn each_point_of_a_post_is_as_it_is_by_itself() {
    for (seed, series) in [(1, 1), (2, 1), (3, 80_000)] {
        let shared = Shared::of_test();
        let shard = Shard::in_memory_of(&shared, SharedBook::new(series).unwrap());
        let (mut chance, mut model) = (TestRandom(seed), Model::default());
        let mut found = [0; 4];
        for number in 0..SERIES {
            let one = [Point { series: ('B', number), start: 1, end: 2, value: 1 }];
            model.post('B', &one);
            assert_eq!(posted(&shard, 'B', body(&one), false).await, Outcome::taken(0));
        }
        for post in 0..1500 {
            let count = 1 + chance.below(4);
            let parts = (0..count).map(|_| drawn(&mut chance, &model, 'A')).collect();
            let points = mixed(&mut chance, parts);
            let fates = model.post('A', &points);
            let gauges: Vec<usize> =
                (0..chance.below(3)).map(|_| chance.below(points.len() as u64 + 1) as usize).collect();
            let (body, by_number) = (body_with(&points, &gauges), chance.below(2) > 0);
            let outcome = posted(&shard, 'A', body, by_number).await;
            let wanted = wanted(&fates, gauges.len() as u64);
            assert_eq!(said(&outcome), wanted, "post {post} of {seed}, {gauges:?}: {points:?}: {fates:?}");
            for fate in fates {
                found[match fate {
                    Wanted::Taken => 0,
                    Wanted::Duplicate => 1,
                    Wanted::Late(_) => 2,
                    Wanted::Others => 3,
                }] += 1;
            }
        }
        assert!(found.iter().all(|count| *count > 100), "{found:?}");
        let value = |name: &str| {
            let page = String::from_utf8(shared.metrics.page()).unwrap();
            let line = page.lines().find_map(|line| line.strip_prefix(name)?.strip_prefix(' '));
            line.unwrap_or_else(|| panic!("{name} in\n{page}")).parse::<u64>().unwrap()
        };
        assert_eq!(value("totxegun_accepted_points_total{sender=\"A\"}"), found[0]);
        assert_eq!(value("totxegun_duplicate_points_total{sender=\"A\"}"), found[1]);
        assert_eq!(
            sums(&shard),
            model.0.into_iter().map(|((sender, number), of)| (format!("{sender}{number}"), of.sum)).collect()
        );
    }
}

fn sums(shard: &Shard) -> BTreeMap<String, i64> {
    let mut texts = Vec::new();
    shard.shared_book.lock().write_all(&mut texts).unwrap();
    let mut sums = BTreeMap::new();
    for point in texts.iter().flat_map(|text| forwarded(text).unwrap()) {
        let Value::Sum(value) = point.value else { panic!("{point:?}") };
        *sums.entry(point.series.parts().unwrap().name).or_default() += value;
    }
    sums
}

fn one(start: u64, value: i64) -> String {
    body(&[Point { series: ('A', 0), start, end: start + 1, value }])
}

/// Otherwise the sender would drop points that a loss of power may still take.
#[tokio::test(flavor = "multi_thread")]
async fn a_duplicate_waits_for_the_first_attempt() {
    let place = tempfile::tempdir().unwrap();
    let open = Arc::new(AtomicBool::new(true));
    let folder = Folder::open_on(Disk::held(open.clone()), place.path(), Durability::Disk).unwrap();
    let (journal, outbox) = folder.shard().unwrap();
    let metrics = Arc::new(Metrics::new().unwrap());
    let shard = Shard::new(0, journal, Arc::new(outbox), metrics, SharedBook::new(1).unwrap());
    shard.open();
    open.store(false, SeqCst);
    let post = || {
        let shard = shard.clone();
        tokio::spawn(async move { shard.post("A".into(), one(10, 5).into()).await })
    };
    let first = post();
    while shard.shared_book.lock().series() == 0 {
        tokio::time::sleep(Duration::from_millis(1)).await;
    }
    let second = post();
    tokio::time::sleep(Duration::from_millis(50)).await;
    let both_wait = !first.is_finished() && !second.is_finished();
    // Before an assertion that may fail: the drop of the journal waits for the disk.
    open.store(true, SeqCst);
    for post in [first, second] {
        assert_eq!(post.await.unwrap(), Outcome::taken(0));
    }
    assert!(both_wait);
}

/// Otherwise a start would put the refused points in too, or count them as a fault.
#[tokio::test]
async fn the_journal_has_what_was_taken_alone() {
    let shard = Shard::in_memory(&Shared::of_test());
    assert_eq!(shard.post("A".into(), one(10, 5).into()).await, Outcome::taken(0));
    let points = [(10, 5), (11, 6), (3, 7)];
    let points = points.map(|(start, value)| Point { series: ('A', 0), start, end: start + 1, value });
    let outcome = shard.post("A".into(), body(&points).into()).await;
    let why = "1 point is refused: duplicate or late: point 2, frontier 12: the post has `A0` {} twice over one time, so \
               1970-01-01T00:00:00.000000Z to 1970-01-01T00:00:00.000000Z is not counted: give each process its own \
               service.instance.id, each instrument its own name";
    assert_eq!((outcome.status(), outcome.message().as_deref()), (200, Some(why)));
    let mut found = Vec::new();
    shard.journal.write_all().unwrap();
    shard
        .journal
        .posts(1, u64::MAX, |read| {
            let Body::Points(points) = &read.post.body else { panic!("{read:?}") };
            found.extend(points.each().map(|point| (point[1], point[3])));
            true
        })
        .unwrap();
    assert_eq!(found, [(10, 5), (11, 6)]);
}

/// The points that are refused for one reason are in one line, whatever the names of their series.
#[tokio::test]
async fn each_reason_is_told_with_its_first_point() {
    let shard = Shard::in_memory(&Shared::of_test());
    let point = |sender, number, start| Point { series: (sender, number), start, end: start + 1, value: 1 };
    for (sender, points) in
        [('B', [point('B', 0, 10), point('B', 1, 10)]), ('A', [point('A', 0, 10), point('A', 1, 10)])]
    {
        assert_eq!(posted(&shard, sender, body(&points), false).await, Outcome::taken(0));
    }
    let points = [
        point('A', 2, 10),
        point('B', 1, 20),
        point('A', 1, 5),
        point('A', 0, 10),
        point('A', 0, 4),
        point('B', 0, 30),
    ];
    let outcome = posted(&shard, 'A', body(&points), false).await;
    let Outcome::Taken { rejected, .. } = &outcome else { panic!("{outcome:?}") };
    let why = "2 points are refused: other writer: point 1: `B1` {} is another sender's, so BEGIN to BEGIN is not counted: give each \
               process its own service.instance.id, or, if only this sender's name has changed, have it renamed; 2 points are refused: \
               duplicate or late: point 2, frontier 11: `A1` {} begins before \
               what its series has (until BEGIN), and is no repeat of the last two posts, so BEGIN to BEGIN is not counted: set the \
               sender's clock, or give each process its own service.instance.id";
    let why = why.replace("BEGIN", "1970-01-01T00:00:00.000000Z");
    assert_eq!((*rejected, outcome.message()), (4, Some(why)));
}

type Shape = (u16, u64, Vec<(u64, Reason, Option<RejectedPoint>)>);

/// The comparable part of an answer: for each reason how many points are refused, and the first one.
fn shape(outcome: &Outcome) -> Shape {
    match outcome {
        Outcome::Taken { rejected, parts, .. } => {
            let parts = parts.iter().map(|(points, why)| (*points, why.reason, why.point));
            (200, *rejected, parts.collect())
        }
        refused => (refused.status(), 0, Vec::new()),
    }
}

/// `totxegun explain` answers as a shard that knows none of the body's series.
#[tokio::test]
async fn a_body_is_answered_as_it_is_explained() {
    let (shard, mut random, mut refused) = (Shard::in_memory(&Shared::of_test()), TestRandom(7), 0);
    for body in 0..400 {
        let points: Vec<String> = (0..1 + random.below(6))
            .map(|_| {
                let (start, series) = (1 + random.below(20), random.below(3));
                let (end, value) = (start + random.below(9), random.below(2));
                format!(
                    r#"{{"startTimeUnixNano":"{start}","timeUnixNano":"{end}","asInt":"{value}","attributes":[{{"key":"s","value":{{"intValue":"{series}"}}}}]}}"#
                )
            })
            .collect();
        let sum = format!(r#""sum":{{"aggregationTemporality":1,"dataPoints":[{}]}}"#, points.join(","));
        let gauge = r#"{"name":"g","gauge":{"dataPoints":[{}]}}"#;
        let body = format!(
            r#"{{"resourceMetrics":[{{"scopeMetrics":[{{"metrics":[{{"name":"m{body}",{sum}}},{gauge}]}}]}}]}}"#
        );
        let (said, late) = answered(body.as_bytes(), Profile::Deltas, Clock::default().window()).unwrap();
        let found = shard.post("A".into(), body.clone().into()).await;
        assert_eq!(shape(&said), shape(&found), "{body}");
        refused += late.len();
    }
    assert!((100..1_000).contains(&refused), "{refused}");
}
