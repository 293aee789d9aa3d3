//! What `--integer-unit` has rounded since the start, by series: which totals may be off, and by how much at most. `Metrics`
//! owns it.
//!
//! There are at most as many series as the service may have. If there are more, those that were rounded longest ago are
//! left out, as series that nobody posts to are forgotten.

use crate::otlp::{Rounded, Rounding, ShownSeries};
use crate::work::locked;
use serde::{Deserialize, Serialize};
use std::cmp::Ordering;
use std::collections::{BTreeMap, HashMap};
use std::sync::{Arc, Mutex};

/// How many series are kept until the limit is known.
const SERIES: usize = 10_000;

/// How many series of a rule are shown: those that were rounded most.
pub const SHOWN: usize = 10;

/// A series with its rounded values: its total is off by at most the sum of what they were rounded by.
#[derive(Debug, PartialEq, Serialize, Deserialize)]
pub struct RoundedSeries {
    pub metric: String,
    /// `key=value, ..`; long texts are cut.
    pub attributes: String,
    pub resource: String,
    #[serde(flatten)]
    pub rounding: Rounding,
}

/// The series that a rule has rounded.
#[derive(Debug, Default, PartialEq)]
pub struct SeriesOfRule {
    pub count: usize,
    /// The first of them, ordered by how much they were rounded.
    pub greatest: Vec<RoundedSeries>,
}

/// By rule and series.
pub struct RoundingBySeries(Mutex<Table>);

/// The table behind the lock.
struct Table {
    /// How many series there is room for.
    most: usize,
    points: u64,
    /// By the hash of the series' key.
    rules: BTreeMap<Arc<str>, HashMap<u64, One>>,
}

/// A rounded series.
struct One {
    of: Arc<ShownSeries>,
    rounding: Rounding,
    /// The number of its last rounded point, counted over all series.
    last: u64,
}

impl RoundingBySeries {
    pub fn new() -> RoundingBySeries {
        RoundingBySeries(Mutex::new(Table { most: SERIES, points: 0, rules: BTreeMap::new() }))
    }

    /// Sets how many series there is room for.
    pub fn has_room_for(&self, series: usize) {
        locked(&self.0).most = series;
    }

    /// Counts the points of a post that was taken.
    pub fn add(&self, rounded: &Rounded) {
        if !rounded.points.is_empty() {
            locked(&self.0).add(rounded);
        }
    }

    /// The largest sum that one series was rounded by, for each rule.
    pub fn greatest(&self) -> Vec<(Arc<str>, f64)> {
        let table = locked(&self.0);
        let rules = table.rules.iter();
        rules
            .map(|(rule, series)| {
                let all = series.values().map(|one| one.rounding.together);
                (rule.clone(), all.fold(0.0, f64::max))
            })
            .collect()
    }

    pub fn of_rule(&self, rule: &str) -> SeriesOfRule {
        let table = locked(&self.0);
        let Some(series) = table.rules.get(rule) else {
            return SeriesOfRule::default();
        };
        let mut all: Vec<&One> = series.values().collect();
        if all.len() > SHOWN {
            all.select_nth_unstable_by(SHOWN, by_greatest);
            all.truncate(SHOWN);
        }
        all.sort_unstable_by(by_greatest);
        SeriesOfRule { count: series.len(), greatest: all.into_iter().map(One::shown).collect() }
    }
}

/// Orders by how much was rounded, the most first; among equals, the one that was rounded last comes first.
fn by_greatest(one: &&One, other: &&One) -> Ordering {
    let (this, that) = (one.rounding.together, other.rounding.together);
    that.total_cmp(&this).then(other.last.cmp(&one.last))
}

impl One {
    fn shown(&self) -> RoundedSeries {
        RoundedSeries {
            metric: self.of.metric.clone(),
            attributes: self.of.attributes.clone(),
            resource: self.of.resource.to_string(),
            rounding: self.rounding,
        }
    }
}

impl Table {
    fn add(&mut self, rounded: &Rounded) {
        for point in &rounded.points {
            self.points += 1;
            let of = &point.of;
            let series = self.rules.entry(of.rule.clone()).or_default();
            let new = || One { of: of.clone(), rounding: Rounding::default(), last: 0 };
            let one = series.entry(of.series).or_insert_with(new);
            one.rounding.add(point.by);
            one.last = self.points;
        }
        if self.count() > self.most {
            self.keep(self.most - self.most / 16);
        }
    }

    fn count(&self) -> usize {
        self.rules.values().map(HashMap::len).sum()
    }

    /// Keeps only the series that were rounded last, `most` of them. There are more.
    fn keep(&mut self, most: usize) {
        let series = self.rules.values().flat_map(HashMap::values);
        let mut lasts: Vec<u64> = series.map(|one| one.last).collect();
        let left_out = lasts.len() - most;
        let first = *lasts.select_nth_unstable(left_out).1;
        for series in self.rules.values_mut() {
            series.retain(|_, one| one.last >= first);
        }
    }
}

#[cfg(test)]
mod tests {
    use super::*;
    use crate::otlp::{prepare, Encoding, FinerUnits, Reading};

    /// A post with one point for each of these series: its name, and a value in seconds, which is rounded to
    /// milliseconds.
    fn post(points: &[(String, &str)]) -> Rounded {
        let metrics: Vec<String> = points
            .iter()
            .map(|(name, value)| {
                format!(
                    r#"{{"name":"{name}","unit":"s","sum":{{"aggregationTemporality":1,"dataPoints":[{{"startTimeUnixNano":"1",
                    "timeUnixNano":"2","asDouble":{value},"attributes":[{{"key":"a","value":{{"intValue":"5"}}}}]}}]}}}}"#
                )
            })
            .collect();
        let body = format!(
            r#"{{"resourceMetrics":[{{"resource":{{"attributes":[{{"key":"r","value":{{"stringValue":"x"}}}}]}},
            "scopeMetrics":[{{"metrics":[{}]}}]}}]}}"#,
            metrics.join(",")
        );
        let reading = Reading {
            finer_units: FinerUnits::new(["s=ms".parse().unwrap()]).unwrap(),
            ..Reading::default()
        };
        prepare(Encoding::Json, body.into(), &reading).unwrap().rounded
    }

    fn names(found: &SeriesOfRule) -> Vec<(&str, u64, f64)> {
        let shown = |one: &RoundedSeries| (one.rounding.values, one.rounding.together);
        found.greatest.iter().map(|one| (one.metric.as_str(), shown(one).0, shown(one).1)).collect()
    }

    #[test]
    fn each_series_has_what_it_was_rounded_by() {
        let table = RoundingBySeries::new();
        let one = |name: &str, value| (name.to_string(), value);
        table.add(&post(&[one("a", "0.0105"), one("b", "0.01025"), one("c", "0.01")]));
        table.add(&post(&[one("b", "0.0005"), one("a", "0.01025")]));
        table.add(&Rounded::default());
        let found = table.of_rule("s=1000:ms");
        assert_eq!((found.count, names(&found)), (2, vec![("a", 2, 0.75), ("b", 2, 0.75)]));
        assert_eq!((&*found.greatest[0].attributes, &*found.greatest[0].resource), ("a=5", "r=x"));
        table.add(&post(&[one("b", "0.01025")]));
        assert_eq!(table.greatest(), [("s=1000:ms".into(), 1.0)]);
        assert_eq!(names(&table.of_rule("s=1000:ms"))[0], ("b", 3, 1.0));
        assert_eq!(table.of_rule("ms=1000:us"), SeriesOfRule::default());
    }

    #[test]
    fn the_greatest_are_shown() {
        let table = RoundingBySeries::new();
        let points: Vec<_> = (0..100).map(|one| (format!("n{one}"), "0.00025")).collect();
        for first in 0..points.len() {
            table.add(&post(&points[first..]));
        }
        let found = table.of_rule("s=1000:ms");
        let wanted: Vec<_> = (90..100).rev().map(|one| format!("n{one}")).collect();
        let shown: Vec<_> = found.greatest.iter().map(|one| one.metric.clone()).collect();
        assert_eq!((found.count, shown), (100, wanted));
        assert_eq!(table.greatest()[0].1, 25.0);
    }

    #[test]
    fn what_was_rounded_longest_ago_is_left_out() {
        let table = RoundingBySeries::new();
        let points = |from: usize, to: usize| -> Vec<_> {
            (from..to).map(|one| (format!("n{one}"), "0.0005")).collect()
        };
        table.add(&post(&points(0, 9_000)));
        table.add(&post(&points(0, 1)));
        table.add(&post(&points(9_000, 10_000)));
        assert_eq!(table.of_rule("s=1000:ms").count, 10_000);
        table.add(&post(&points(10_000, 10_001)));
        let found = table.of_rule("s=1000:ms");
        // The series that was rounded again is still there, with everything that it was rounded by.
        assert_eq!((found.count, names(&found)[0]), (10_000 - 625, ("n0", 2, 1.0)));
        let table = locked(&table.0);
        let of = |name: &str| table.rules["s=1000:ms"].values().any(|one| one.of.metric == name);
        let left_out = 10_001 - found.count;
        assert!(!of("n1") && !of(&format!("n{left_out}")));
        assert!(of(&format!("n{}", left_out + 1)) && of("n9999") && of("n10000"));
    }

    #[test]
    fn there_may_be_room_for_more_series() {
        let table = RoundingBySeries::new();
        table.has_room_for(30_000);
        let points: Vec<_> = (0..10_001).map(|one| (format!("n{one}"), "0.0005")).collect();
        table.add(&post(&points));
        assert_eq!(table.of_rule("s=1000:ms").count, 10_001);
    }
}
