//! `plain`, tuned: texts are borrowed, a point of a known series takes no memory, series are found by a fast hash of
//! what is borrowed, and the program is built as a whole.

mod body;
mod few;
mod parts;
mod table;

use std::sync::{Mutex, MutexGuard, PoisonError};

use ahash::RandomState;
use plain::series::Taken;
use plain::serve;
use plain::simple::{Series, Simple};

use crate::body::{Body, Natural};
use crate::parts::{hash_of, Head, KindPart, Parts};
use crate::table::{DataPart, Point, Table};

const DELTA: u64 = 1;

#[derive(Default)]
struct Store {
    random: RandomState,
    table: Mutex<Table>,
}

impl Store {
    fn lock(&self) -> MutexGuard<'_, Table> {
        self.table.lock().unwrap_or_else(PoisonError::into_inner)
    }
}

impl Series for Store {
    fn admit(&self, sender: &str, body: &[u8]) -> Result<(), String> {
        let body: Body = serde_json::from_slice(body).map_err(|fault| fault.to_string())?;
        let heads = heads_of(&body);
        let points = points_of(&body, &heads, &self.random);
        self.lock().admit(sender, &points).map_err(str::to_owned)
    }

    fn take(&self, most: usize) -> Vec<Taken> {
        self.lock().take(most)
    }

    fn end_flush(&self, taken: Vec<Taken>, is_taken: bool) {
        self.lock().end_flush(taken, is_taken, &self.random);
    }

    fn report(&self) -> String {
        self.lock().report()
    }
}

type BodyHead<'a> = Head<'a, body::Attribute<'a>>;

/// The heads of all metrics, in their order.
fn heads_of<'a>(body: &'a Body) -> Vec<BodyHead<'a>> {
    let mut heads = Vec::new();
    for one in &body.resource_metrics {
        for scope_metrics in &one.scope_metrics {
            let scope = &scope_metrics.scope;
            heads.extend(scope_metrics.metrics.iter().map(|metric| Head {
                resource: &one.resource.attributes[..],
                scope_name: &scope.name,
                scope_version: &scope.version,
                scope_attributes: &scope.attributes[..],
                name: &metric.name,
                unit: &metric.unit,
            }));
        }
    }
    heads
}

/// The points of a body, whose metrics have these heads.
fn points_of<'a>(body: &'a Body, heads: &'a [BodyHead<'a>], random: &RandomState) -> Vec<Point<'a>> {
    let scopes = body.resource_metrics.iter().flat_map(|one| &one.scope_metrics);
    let metrics = scopes.flat_map(|one| &one.metrics);
    let mut points = Vec::new();
    for (metric, head) in metrics.zip(heads) {
        let hasher = head.hasher(random);
        let place = |kind, attributes: &'a [_]| {
            let hash = hash_of(&hasher, kind, attributes);
            let parts = Parts {
                head,
                kind,
                attributes,
            };
            (hash, parts)
        };
        if let Some(sum) = metric
            .sum
            .as_ref()
            .filter(|it| it.aggregation_temporality == DELTA)
        {
            let is_monotonic = sum.is_monotonic;
            points.extend(sum.data_points.iter().map(|point| {
                let (hash, series) = place(KindPart::Sum { is_monotonic }, &point.attributes);
                let (Natural(start), Natural(end)) = (point.start_time_unix_nano, point.time_unix_nano);
                let data = DataPart::Sum(point.as_int.0);
                Point {
                    hash,
                    series,
                    start,
                    end,
                    data,
                }
            }));
        }
        if let Some(histogram) = metric
            .histogram
            .as_ref()
            .filter(|it| it.aggregation_temporality == DELTA)
        {
            points.extend(histogram.data_points.iter().map(|point| {
                let bounds = &point.explicit_bounds[..];
                let (hash, series) = place(KindPart::Histogram { bounds }, &point.attributes);
                let (Natural(start), Natural(end)) = (point.start_time_unix_nano, point.time_unix_nano);
                let (sum, buckets) = (point.sum, &point.bucket_counts[..]);
                let data = DataPart::Histogram { sum, buckets };
                Point {
                    hash,
                    series,
                    start,
                    end,
                    data,
                }
            }));
        }
    }
    points
}

fn main() {
    serve::serve(&Simple(Store::default()));
}
