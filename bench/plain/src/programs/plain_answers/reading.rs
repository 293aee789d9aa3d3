//! The points of a body that are taken, and how many are not.

use std::mem::take;
use std::sync::Arc;

use plain::number::Number;
use plain::series::{Data, Identity, Kind, Pairs, Stored, Value};

use crate::body::{
    AnyValue, Attribute, Body, Foreign, Histogram, HistogramPoint, Metric, ResourceMetrics, Scope,
    ScopeMetrics, Sum, SumPoint,
};
use crate::lenient::{Field, Wrong};
use crate::refusal::Refusal;

const MAX_TEXT: usize = 4096;
const MAX_LIST: usize = 128;
const MAX_BOUNDS: usize = 255;
const MAX_FLAGS: u64 = u32::MAX as u64;
/// Up to which a double has every whole number.
pub const MAX_EXACT: u64 = 1 << 53;

/// A point with its series.
pub struct Point {
    pub series: Identity,
    pub stored: Stored,
}

#[derive(Default)]
pub struct Reading {
    pub points: Vec<Point>,
    pub foreign: usize,
}

type Found<T> = Result<T, Wrong>;

/// Reads a body. Where a container is wrong all of it is; where a value is wrong, the points below it are foreign.
pub fn read(body: &[u8]) -> Result<Reading, Refusal> {
    let body: Field<Body> = serde_json::from_slice(body).map_err(|_| Refusal::NotJson)?;
    let mut reading = Reading::default();
    reading.add_body(body).map_err(|Wrong| Refusal::WrongShape)?;
    Ok(reading)
}

/// What the points of a scope have in common.
struct Origin {
    resource: Arc<Pairs>,
    scope_name: String,
    scope_version: String,
    scope_attributes: Arc<Pairs>,
}

impl Origin {
    fn new(resource: &Option<Arc<Pairs>>, scope: Scope) -> Found<Origin> {
        Ok(Origin {
            resource: resource.clone().ok_or(Wrong)?,
            scope_name: text(scope.name)?,
            scope_version: text(scope.version)?,
            scope_attributes: Arc::new(attributes(scope.attributes)?),
        })
    }
}

/// What the points of a metric have in common.
struct Head<'a> {
    origin: &'a Origin,
    name: String,
    unit: String,
}

impl<'a> Head<'a> {
    fn new(origin: Option<&'a Origin>, name: Field<String>, unit: Field<String>) -> Found<Head<'a>> {
        Ok(Head {
            origin: origin.ok_or(Wrong)?,
            name: text(name)?,
            unit: text(unit)?,
        })
    }

    fn series(&self, kind: Kind, attributes: Pairs) -> Identity {
        Identity {
            resource: self.origin.resource.clone(),
            scope_name: self.origin.scope_name.clone(),
            scope_version: self.origin.scope_version.clone(),
            scope_attributes: self.origin.scope_attributes.clone(),
            name: self.name.clone(),
            unit: self.unit.clone(),
            kind,
            attributes,
        }
    }
}

impl Reading {
    fn add_body(&mut self, body: Field<Body>) -> Found<()> {
        let resources = body.required()?.resource_metrics.or_default()?;
        resources.into_iter().try_for_each(|one| self.add_resource(one))
    }

    fn add_resource(&mut self, one: ResourceMetrics) -> Found<()> {
        let resource = attributes(one.resource.or_default()?.attributes)
            .ok()
            .map(Arc::new);
        let mut scopes = one.scope_metrics.or_default()?.into_iter();
        scopes.try_for_each(|one| self.add_scope(&resource, one))
    }

    fn add_scope(&mut self, resource: &Option<Arc<Pairs>>, one: ScopeMetrics) -> Found<()> {
        let origin = Origin::new(resource, one.scope.or_default()?).ok();
        let mut metrics = one.metrics.or_default()?.into_iter();
        metrics.try_for_each(|metric| self.add_metric(origin.as_ref(), metric))
    }

    fn add_metric(&mut self, origin: Option<&Origin>, metric: Metric) -> Found<()> {
        let (sum, histogram) = (metric.sum.optional()?, metric.histogram.optional()?);
        let mut others = 0;
        for field in [metric.gauge, metric.exponential_histogram, metric.summary] {
            if let Some(Foreign { data_points }) = field.optional()? {
                others += 1;
                self.foreign += data_points.or_default()?.len();
            }
        }
        let head = match others + usize::from(sum.is_some()) + usize::from(histogram.is_some()) {
            1 => Head::new(origin, metric.name, metric.unit).ok(),
            _ => None,
        };
        sum.map_or(Ok(()), |sum| self.add_sum(head.as_ref(), sum))?;
        histogram.map_or(Ok(()), |histogram| self.add_histogram(head.as_ref(), histogram))
    }

    fn add_sum(&mut self, head: Option<&Head>, sum: Sum) -> Found<()> {
        let points = sum.data_points.or_default()?;
        let is_monotonic = sum.is_monotonic.or_default();
        match (head, sum.temporality, is_monotonic) {
            (Some(head), Field::Is(_), Ok(is_monotonic)) => {
                let points = points.into_iter();
                self.add_points(points.map(|point| sum_point(head, is_monotonic, point)));
            }
            _ => self.foreign += points.len(),
        }
        Ok(())
    }

    fn add_histogram(&mut self, head: Option<&Head>, histogram: Histogram) -> Found<()> {
        let points = histogram.data_points.or_default()?;
        match (head, histogram.temporality) {
            (Some(head), Field::Is(_)) => {
                let points = points.into_iter();
                self.add_points(points.map(|point| histogram_point(head, point)));
            }
            _ => self.foreign += points.len(),
        }
        Ok(())
    }

    fn add_points(&mut self, points: impl Iterator<Item = Found<Point>>) {
        for point in points {
            match point {
                Ok(point) => self.points.push(point),
                Err(Wrong) => self.foreign += 1,
            }
        }
    }
}

fn sum_point(head: &Head, is_monotonic: bool, point: SumPoint) -> Found<Point> {
    let value = point.as_int.required()?.signed().ok_or(Wrong)?;
    let is_fit = value != i64::MIN && !(is_monotonic && value < 0);
    require(point.as_double.is_absent() && is_fit)?;
    let (start, end) = span(point.start, point.end, point.flags)?;
    let series = head.series(Kind::Sum { is_monotonic }, attributes(point.attributes)?);
    let data = Data::Sum(value);
    Ok(Point {
        series,
        stored: Stored { start, end, data },
    })
}

fn histogram_point(head: &Head, point: HistogramPoint) -> Found<Point> {
    let (start, end) = span(point.start, point.end, point.flags)?;
    let sum = point.sum.optional()?.map(natural).transpose()?;
    require(sum.unwrap_or(0) <= MAX_EXACT)?;
    let count = point.count.optional()?.map_or(Ok(0), natural)?;
    let bounds = bounds(point.explicit_bounds.or_default()?)?;
    let buckets = buckets(point.bucket_counts.or_default()?, bounds.len(), count)?;
    let series = head.series(Kind::Histogram { bounds }, attributes(point.attributes)?);
    let data = Data::Histogram { sum, buckets };
    Ok(Point {
        series,
        stored: Stored { start, end, data },
    })
}

fn require(is_right: bool) -> Found<()> {
    is_right.then_some(()).ok_or(Wrong)
}

fn natural(number: Number) -> Found<u64> {
    number.natural().ok_or(Wrong)
}

/// The two times of a point that has a value.
fn span(start: Field<Number>, end: Field<Number>, flags: Field<Number>) -> Found<(u64, u64)> {
    let (start, end) = (natural(start.required()?)?, natural(end.required()?)?);
    let flags = flags.optional()?.map_or(Ok(0), natural)?;
    require(1 <= start && start < end && flags <= MAX_FLAGS && flags % 2 == 0)?;
    Ok((start, end))
}

fn bounds(numbers: Vec<Number>) -> Found<Vec<i64>> {
    require(numbers.len() <= MAX_BOUNDS)?;
    let bound = |number: Number| number.signed().filter(|it| it.unsigned_abs() <= MAX_EXACT);
    let bounds: Vec<i64> = numbers
        .into_iter()
        .map(bound)
        .collect::<Option<_>>()
        .ok_or(Wrong)?;
    require(bounds.windows(2).all(|pair| pair[0] < pair[1]))?;
    Ok(bounds)
}

/// The buckets between so many bounds, which add up to the count; where there are neither, the count is one bucket.
fn buckets(numbers: Vec<Number>, bounds: usize, count: u64) -> Found<Vec<u64>> {
    if numbers.is_empty() && bounds == 0 {
        return Ok(vec![count]);
    }
    require(numbers.len() == bounds + 1)?;
    let buckets: Vec<u64> = numbers.into_iter().map(natural).collect::<Found<_>>()?;
    let total = buckets.iter().try_fold(0, |sum: u64, one| sum.checked_add(*one));
    require(total == Some(count))?;
    Ok(buckets)
}

/// A text that identifies.
fn text(field: Field<String>) -> Found<String> {
    let text = field.or_default()?;
    require(text.len() <= MAX_TEXT)?;
    Ok(text)
}

/// The attributes of a list, by their keys.
fn attributes(list: Field<Vec<Attribute>>) -> Found<Pairs> {
    let list = list.or_default()?;
    require(list.len() <= MAX_LIST)?;
    let pair = |Attribute { key, value }| Ok((text(key)?, value_of(value.or_default()?)?));
    let mut pairs: Pairs = list.into_iter().map(pair).collect::<Found<_>>()?;
    pairs.sort_unstable_by(|a, b| a.0.cmp(&b.0));
    require(pairs.windows(2).all(|pair| pair[0].0 != pair[1].0))?;
    Ok(pairs)
}

fn value_of(mut value: AnyValue) -> Found<Value> {
    let Some(array) = take(&mut value.array).optional()? else {
        return single(value);
    };
    require(single(value)? == Value::Empty)?;
    let values = array.values.or_default()?;
    require(values.len() <= MAX_LIST)?;
    Ok(Value::List(values.into_iter().map(single).collect::<Found<_>>()?))
}

/// A value that is no list: at most one of its fields is there.
fn single(value: AnyValue) -> Found<Value> {
    let is_other = [&value.double, &value.bytes, &value.list_of_pairs]
        .into_iter()
        .any(|it| !it.is_absent());
    require(value.array.is_absent() && !is_other)?;
    match (
        value.string.optional()?,
        value.boolean.optional()?,
        value.int.optional()?,
    ) {
        (None, None, None) => Ok(Value::Empty),
        (Some(it), None, None) => text(Field::Is(it)).map(Value::Text),
        (None, Some(it), None) => Ok(Value::Bool(it)),
        (None, None, Some(it)) => it.signed().map(Value::Int).ok_or(Wrong),
        _ => Err(Wrong),
    }
}
