//! Requests that the service forwards, read strictly: their bytes are the book's own (docs/FORMATS.md,
//! "JSON that is written"), and parts of keys are copied from them.

use super::{ForwardedPoint, NotForwarded, SeriesKey, Value};
use crate::otlp::encoded::put_message;
use crate::otlp::json::{Document, Value as Json};
use crate::otlp::number::book_whole;
use crate::otlp::schema::REQUEST;
use std::sync::Arc;

type ReadResult<T> = Result<T, NotForwarded>;

/// The points of a forwarded request, in its order.
pub fn forwarded(body: &[u8]) -> ReadResult<Vec<ForwardedPoint>> {
    let document = Document::parse(body)?;
    let mut points = Vec::new();
    each(document.root(), "resourceMetrics", |of_resource| {
        let resource = list(member(of_resource, "resource")?, "attributes")?.raw();
        each(of_resource, "scopeMetrics", |of_scope| {
            let scope = member(of_scope, "scope")?;
            let (name, version) = (member(scope, "name")?.raw(), member(scope, "version")?.raw());
            let above = format!("[{resource},{name},{version},{}", list(scope, "attributes")?.raw());
            each(of_scope, "metrics", |metric| add_points(&mut points, &above, metric))
        })
    })?;
    Ok(points)
}

/// A forwarded request in protobuf.
pub fn protobuf_of_forwarded(body: &[u8]) -> ReadResult<Vec<u8>> {
    let document = Document::parse(body)?;
    let mut out = Vec::with_capacity(body.len() / 2);
    put_message(&mut out, &REQUEST, document.root()).ok_or_else(|| missing("a field of a point"))?;
    Ok(out)
}

fn missing(what: &str) -> NotForwarded {
    NotForwarded(format!("{what} is missing or of another form"))
}

fn member<'d>(object: Json<'d>, name: &str) -> ReadResult<Json<'d>> {
    optional(object, name)?.ok_or_else(|| missing(name))
}

fn optional<'d>(object: Json<'d>, name: &str) -> ReadResult<Option<Json<'d>>> {
    object.named([name]).map(|found| found[0]).ok_or_else(|| missing(name))
}

fn list<'d>(object: Json<'d>, name: &str) -> ReadResult<Json<'d>> {
    let list = member(object, name)?;
    list.elements().map(|_| list).ok_or_else(|| missing(name))
}

fn elements<'d>(object: Json<'d>, name: &str) -> ReadResult<impl Iterator<Item = Json<'d>>> {
    member(object, name)?.elements().ok_or_else(|| missing(name))
}

fn each<'d>(object: Json<'d>, name: &str, mut one: impl FnMut(Json<'d>) -> ReadResult<()>) -> ReadResult<()> {
    elements(object, name)?.try_for_each(&mut one)
}

fn whole<T: TryFrom<i128>>(value: Json<'_>, name: &str) -> ReadResult<T> {
    book_whole(value).and_then(|whole| T::try_from(whole).ok()).ok_or_else(|| missing(name))
}

fn number<T: TryFrom<i128>>(object: Json<'_>, name: &str) -> ReadResult<T> {
    whole(member(object, name)?, name)
}

fn numbers<T: TryFrom<i128>>(object: Json<'_>, name: &str) -> ReadResult<Vec<T>> {
    elements(object, name)?.map(|element| whole(element, name)).collect()
}

/// Whether a sum is monotonic.
fn is_monotonic(sum: Json<'_>) -> ReadResult<bool> {
    member(sum, "isMonotonic")?.truth().ok_or_else(|| missing("isMonotonic"))
}

fn add_points<'d>(points: &mut Vec<ForwardedPoint>, above: &str, metric: Json<'d>) -> ReadResult<()> {
    let above = format!("{above},{},{}", member(metric, "name")?.raw(), member(metric, "unit")?.raw());
    let add = |points: &mut Vec<ForwardedPoint>, point: Json<'d>, kind: &str, value: Value| {
        let attributes = list(point, "attributes")?.raw();
        let series = SeriesKey(Arc::from(format!("{above},{kind},{attributes}]")));
        let (start, end) = (number(point, "startTimeUnixNano")?, number(point, "timeUnixNano")?);
        points.push(ForwardedPoint { place: points.len(), series, start, end, value });
        Ok(())
    };
    if let Some(sum) = optional(metric, "sum")? {
        let kind = if is_monotonic(sum)? { "\"monotonic\"" } else { "\"sum\"" };
        return each(sum, "dataPoints", |point| {
            add(points, point, kind, Value::Sum(number(point, "asInt")?))
        });
    }
    each(member(metric, "histogram")?, "dataPoints", |point| {
        let kind = list(point, "explicitBounds")?.raw();
        let sum = optional(point, "sum")?.map(|sum| whole(sum, "sum")).transpose()?;
        let (count, buckets) = (number(point, "count")?, numbers(point, "bucketCounts")?);
        add(points, point, kind, Value::Histogram { count, sum, buckets })
    })
}
