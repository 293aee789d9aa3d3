//! Cumulative points, programs that send them, and a plain count of them.

use super::*;
use crate::otlp::series::{forwarded, Value};
use crate::otlp::Outcome;
use crate::runs::Options;
use crate::storage::test_random::TestRandom;
use std::collections::BTreeMap;

/// Points begin here, so that their runs began after the folder was made.
pub const BEGIN: u64 = 4_000_000_000_000_000_000;

/// A cumulative point of a series, whose name says its kind.
#[derive(Clone, Debug)]
pub struct Point {
    pub name: String,
    pub start: u64,
    pub time: u64,
    /// A histogram has one bound: how many are below it, and how many there are.
    pub value: i64,
    pub all: i64,
}

impl Point {
    fn text(&self, temporality: u8) -> String {
        let Point { name, start, time, value, all } = self;
        let span = format!(r#""startTimeUnixNano":"{start}","timeUnixNano":"{time}""#);
        let head = format!(r#""aggregationTemporality":{temporality},"dataPoints":[{{{span}"#);
        match &name[..1] {
            "h" => format!(
                r#"{{"name":"{name}","histogram":{{{head},"count":"{all}","sum":{value},"explicitBounds":[5],"bucketCounts":["{value}","{}"]}}]}}}}"#,
                all - value
            ),
            kind => format!(
                r#"{{"name":"{name}","sum":{{"isMonotonic":{},{head},"asInt":"{value}"}}]}}}}"#,
                kind == "m"
            ),
        }
    }
}

pub fn text(points: &[Point], temporality: u8) -> String {
    let metrics: Vec<String> = points.iter().map(|point| point.text(temporality)).collect();
    let metrics = metrics.join(",");
    format!(r#"{{"resourceMetrics":[{{"scopeMetrics":[{{"metrics":[{metrics}]}}]}}]}}"#)
}

impl Run {
    pub async fn begin_runs(path: &Path, options: Options) -> Run {
        let folder = Folder::open(path, Durability::Process).unwrap();
        let run = Run::begin_in(folder, settings()).await;
        run.shard.runs.set(options);
        run
    }

    pub async fn cumulative(&self, sender: &str, points: &[Point]) -> Outcome {
        let by = self.shard.numbered_text(&text(points, 2).into()).unwrap().unwrap();
        self.shard.request(sender.into(), by.into()).await
    }

    /// What it has forwarded.
    pub async fn forwarded(&self) -> BTreeMap<String, (i128, i128)> {
        let mut sums: BTreeMap<String, (i128, i128)> = BTreeMap::new();
        while self.shard.outbox.waiting().0 > 0 {
            let (waiting, body) = self.shard.outbox.first().await.unwrap();
            self.shard.outbox.acknowledge(waiting.number).unwrap();
            for point in forwarded(&body).unwrap() {
                let (value, all): (i128, i128) = match point.value {
                    Value::Sum(value) => (value.into(), 0),
                    Value::Histogram { count, sum, buckets } => {
                        assert_eq!(sum, Some(buckets[0]));
                        (buckets[0].into(), count.into())
                    }
                };
                let sum = sums.entry(point.series.parts().unwrap().name).or_default();
                *sum = (sum.0 + value, sum.1 + all);
            }
        }
        sums
    }
}

/// Begins a run from what a `kill -9` of the other would have left.
pub async fn killed(run: Run, place: &Path, number: usize, options: Options) -> Run {
    let [from, to] = [number, number + 1].map(|number| place.join(format!("data{number}")));
    copy(&from, &to);
    // Whatever it still does is not seen.
    run.end().await;
    Run::begin_runs(&to, options).await
}

pub fn copy(from: &Path, to: &Path) {
    let copied = std::process::Command::new("cp").arg("-r").args([from, to]).status();
    assert!(copied.unwrap().success());
}

/// A count that knows nothing of deltas: the last values of each run of a series.
#[derive(Default)]
pub struct Plain {
    /// The start and the time of the last point, and its interval.
    last: BTreeMap<String, (u64, u64, u64)>,
    runs: BTreeMap<String, Vec<(i64, i64)>>,
}

impl Plain {
    pub fn take(&mut self, point: &Point) {
        let runs = self.runs.entry(point.name.clone()).or_default();
        let all = if point.name.starts_with('h') { point.all } else { 0 };
        let interval = match self.last.get(&point.name).copied() {
            Some((_, last, _)) if point.time <= last => return,
            Some((start, last, interval)) if start == point.start => {
                runs.pop();
                (point.time - last).max(interval / 2)
            }
            Some((_, last, interval)) if point.start < last => {
                if point.time - last < 3 * interval {
                    return;
                }
                // The run before it has ended; of this one counts what is added from now on.
                runs.push((-point.value, -all));
                point.time - point.start
            }
            _ => point.time - point.start,
        };
        runs.push((point.value, all));
        self.last.insert(point.name.clone(), (point.start, point.time, interval));
    }

    pub fn sums(&self) -> BTreeMap<String, (i128, i128)> {
        let sum = |runs: &Vec<(i64, i64)>| {
            let value = runs.iter().map(|run| i128::from(run.0)).sum();
            (value, runs.iter().map(|run| i128::from(run.1)).sum())
        };
        self.runs.iter().map(|(name, runs)| (name.clone(), sum(runs))).collect()
    }
}

/// The program of a sender.
pub struct Program {
    pub sender: &'static str,
    /// How long before its first point a run may begin, so that it overlaps another one.
    pub overlap: u64,
    start: u64,
    points: Vec<Point>,
    sent: Vec<Vec<Point>>,
}

impl Program {
    pub fn new(sender: &'static str) -> Program {
        let names = ["m", "u", "h"].map(|kind| format!("{kind}-{sender}"));
        let point = |name| Point { name, start: BEGIN, time: BEGIN, value: 0, all: 0 };
        Program { sender, overlap: 0, start: BEGIN, points: names.map(point).into(), sent: Vec::new() }
    }

    /// What it sends next; none if that is lost on its way.
    pub fn next(&mut self, now: u64, chance: &mut TestRandom) -> Option<Vec<Point>> {
        if chance.below(12) == 0 {
            let overlap = if self.overlap > 0 { chance.below(self.overlap) } else { 0 };
            self.start = (now - 1 - overlap).max(self.start + 1);
            self.points.iter_mut().for_each(|point| (point.value, point.all) = (0, 0));
        }
        for point in &mut self.points {
            let more = chance.below(9) as i64;
            (point.start, point.time) = (self.start, now);
            point.value += if point.name.starts_with('u') { more - 4 } else { more };
            point.all += more + chance.below(5) as i64;
        }
        let few = 1 + chance.below(3) as usize;
        self.sent.push(self.points[..few].to_vec());
        match chance.below(6) {
            0 => None,
            // Again, or a late one.
            1 => Some(self.sent[chance.below(self.sent.len() as u64) as usize].clone()),
            _ => self.sent.last().cloned(),
        }
    }
}

pub fn point(name: &str, start: u64, time: u64, value: i64) -> Point {
    Point { name: name.into(), start, time, value, all: value }
}

pub fn rejected(outcome: &Outcome) -> (u64, String) {
    match outcome {
        Outcome::Taken { rejected, causes, .. } => (*rejected, causes.to_string()),
        other => panic!("{other:?}"),
    }
}
