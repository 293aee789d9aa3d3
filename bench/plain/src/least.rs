//! The least that does the job: serde's derive, owned texts, a hash map under one lock.
//!
//! A body is read into the types of this page at once (`read`), or first into the tree of `serde_json`, and the tree
//! into the types (`read_by_tree`).

use std::collections::HashMap;
use std::fmt::Write;
use std::sync::{Arc, Mutex, MutexGuard, PoisonError};

use serde::Deserialize;

use crate::number::Number;
use crate::series::{self, Data, Identity, Kind, Pairs, Stored, Taken, Value};
use crate::simple::Series;

const DELTA: u64 = 1;

/// A request as it is posted.
#[derive(Deserialize)]
#[serde(rename_all = "camelCase")]
pub struct Body {
    #[serde(default)]
    resource_metrics: Vec<ResourceMetrics>,
}

#[derive(Deserialize)]
#[serde(rename_all = "camelCase")]
struct ResourceMetrics {
    #[serde(default)]
    resource: Resource,
    #[serde(default)]
    scope_metrics: Vec<ScopeMetrics>,
}

#[derive(Deserialize, Default)]
struct Resource {
    #[serde(default)]
    attributes: Vec<Attribute>,
}

#[derive(Deserialize)]
struct ScopeMetrics {
    #[serde(default)]
    scope: Scope,
    #[serde(default)]
    metrics: Vec<Metric>,
}

#[derive(Deserialize, Default)]
struct Scope {
    #[serde(default)]
    name: String,
    #[serde(default)]
    version: String,
    #[serde(default)]
    attributes: Vec<Attribute>,
}

#[derive(Deserialize)]
struct Attribute {
    key: String,
    value: AnyValue,
}

#[derive(Deserialize)]
enum AnyValue {
    #[serde(rename = "stringValue")]
    Text(String),
    #[serde(rename = "intValue")]
    Int(Number),
    #[serde(rename = "boolValue")]
    Bool(bool),
}

#[derive(Deserialize)]
struct Metric {
    #[serde(default)]
    name: String,
    #[serde(default)]
    unit: String,
    sum: Option<Sum>,
    histogram: Option<Histogram>,
}

#[derive(Deserialize)]
#[serde(rename_all = "camelCase")]
struct Sum {
    aggregation_temporality: u64,
    #[serde(default)]
    is_monotonic: bool,
    #[serde(default)]
    data_points: Vec<SumPoint>,
}

#[derive(Deserialize)]
#[serde(rename_all = "camelCase")]
struct SumPoint {
    #[serde(default)]
    attributes: Vec<Attribute>,
    start_time_unix_nano: Number,
    time_unix_nano: Number,
    as_int: Number,
}

#[derive(Deserialize)]
#[serde(rename_all = "camelCase")]
struct Histogram {
    aggregation_temporality: u64,
    #[serde(default)]
    data_points: Vec<HistogramPoint>,
}

#[derive(Deserialize)]
#[serde(rename_all = "camelCase")]
struct HistogramPoint {
    #[serde(default)]
    attributes: Vec<Attribute>,
    start_time_unix_nano: Number,
    time_unix_nano: Number,
    sum: Option<u64>,
    #[serde(default)]
    bucket_counts: Vec<Number>,
    #[serde(default)]
    explicit_bounds: Vec<i64>,
}

/// A point with its series.
struct Point {
    series: Identity,
    stored: Stored,
}

fn signed(number: Number) -> Result<i64, &'static str> {
    number.signed().ok_or("a number is out of range")
}

fn natural(number: Number) -> Result<u64, &'static str> {
    number.natural().ok_or("a number is out of range")
}

/// The attributes of a list, by their keys.
fn sorted(attributes: Vec<Attribute>) -> Result<Pairs, &'static str> {
    let pair = |Attribute { key, value }| {
        let value = match value {
            AnyValue::Text(text) => Value::Text(text),
            AnyValue::Int(number) => Value::Int(signed(number)?),
            AnyValue::Bool(value) => Value::Bool(value),
        };
        Ok((key, value))
    };
    let mut pairs: Pairs = attributes.into_iter().map(pair).collect::<Result<_, _>>()?;
    pairs.sort_by(|a, b| a.0.cmp(&b.0));
    Ok(pairs)
}

/// The points of a request.
fn points_of(body: Body) -> Result<Vec<Point>, &'static str> {
    let mut points = Vec::new();
    for ResourceMetrics {
        resource,
        scope_metrics,
    } in body.resource_metrics
    {
        let resource = Arc::new(sorted(resource.attributes)?);
        for ScopeMetrics { scope, metrics } in scope_metrics {
            let scope_attributes = Arc::new(sorted(scope.attributes)?);
            for metric in metrics {
                let identity = |kind, attributes| Identity {
                    resource: resource.clone(),
                    scope_name: scope.name.clone(),
                    scope_version: scope.version.clone(),
                    scope_attributes: scope_attributes.clone(),
                    name: metric.name.clone(),
                    unit: metric.unit.clone(),
                    kind,
                    attributes,
                };
                if let Some(sum) = metric.sum.filter(|sum| sum.aggregation_temporality == DELTA) {
                    let kind = Kind::Sum {
                        is_monotonic: sum.is_monotonic,
                    };
                    for point in sum.data_points {
                        points.push(Point {
                            series: identity(kind.clone(), sorted(point.attributes)?),
                            stored: Stored {
                                start: natural(point.start_time_unix_nano)?,
                                end: natural(point.time_unix_nano)?,
                                data: Data::Sum(signed(point.as_int)?),
                            },
                        });
                    }
                }
                let histogram = metric.histogram;
                if let Some(histogram) = histogram.filter(|it| it.aggregation_temporality == DELTA) {
                    for point in histogram.data_points {
                        let buckets = point.bucket_counts.into_iter().map(natural);
                        let buckets = buckets.collect::<Result<_, _>>()?;
                        let kind = Kind::Histogram {
                            bounds: point.explicit_bounds,
                        };
                        points.push(Point {
                            series: identity(kind, sorted(point.attributes)?),
                            stored: Stored {
                                start: natural(point.start_time_unix_nano)?,
                                end: natural(point.time_unix_nano)?,
                                data: Data::Histogram {
                                    sum: point.sum,
                                    buckets,
                                },
                            },
                        });
                    }
                }
            }
        }
    }
    Ok(points)
}

pub fn read(body: &[u8]) -> serde_json::Result<Body> {
    serde_json::from_slice(body)
}

pub fn read_by_tree(body: &[u8]) -> serde_json::Result<Body> {
    let tree: serde_json::Value = serde_json::from_slice(body)?;
    serde_json::from_value(tree)
}

/// The series, and how a body is read.
pub struct Store {
    all: Mutex<HashMap<Identity, series::Series>>,
    read: fn(&[u8]) -> serde_json::Result<Body>,
}

impl Store {
    pub fn new(read: fn(&[u8]) -> serde_json::Result<Body>) -> Store {
        Store {
            all: Mutex::default(),
            read,
        }
    }

    fn lock(&self) -> MutexGuard<'_, HashMap<Identity, series::Series>> {
        self.all.lock().unwrap_or_else(PoisonError::into_inner)
    }
}

impl Series for Store {
    fn admit(&self, sender: &str, body: &[u8]) -> Result<(), String> {
        let body = (self.read)(body).map_err(|fault| fault.to_string())?;
        let points = points_of(body)?;
        let mut all = self.lock();
        let mut ends: HashMap<&Identity, u64> = HashMap::new();
        for Point { series, stored } in &points {
            let known = all.get(series);
            if known.is_some_and(|series| series.owner != sender) {
                return Err("another sender's series".to_owned());
            }
            let frontier = known.map_or(0, |series| series.frontier);
            let end = ends.entry(series).or_insert(frontier);
            if stored.start < *end || stored.end <= stored.start {
                return Err("a point that is too late".to_owned());
            }
            *end = stored.end;
        }
        for Point { series, stored } in points {
            let series = all.entry(series).or_insert_with(|| series::Series::new(sender));
            series.frontier = stored.end;
            series.put(stored);
        }
        Ok(())
    }

    fn take(&self, most: usize) -> Vec<Taken> {
        series::take(self.lock().iter_mut(), most)
    }

    fn end_flush(&self, taken: Vec<Taken>, is_taken: bool) {
        let mut all = self.lock();
        for Taken { series, stored } in taken {
            let Some(series) = all.get_mut(&series) else {
                continue;
            };
            match is_taken {
                true => series.acknowledged += 1,
                false => series.put(stored),
            }
        }
    }

    fn report(&self) -> String {
        let mut text = String::new();
        for (identity, series) in self.lock().iter() {
            let _ = text.write_str(&series.line(identity));
        }
        text
    }
}
