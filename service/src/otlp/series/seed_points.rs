//! Points of value zero, which tell a fresh book whom each series belongs to and where its points begin. One by itself names a
//! series.

use super::{kind_of, parts_in, Kind, NotForwarded, SeriesKey};
use crate::otlp::json::{Document, Value as Json};
use std::fmt::Write;

/// A body is not much longer, so that none takes long to read.
const MOST: usize = 3 << 20;
/// What a point has beside its key, about.
const AROUND: usize = 256;
/// What is behind the scopes of a resource, the metrics of a scope, the points of a metric.
const ENDS: [&str; 3] = ["]}", "]}", "]}}"];

/// A point, with all that is above it.
struct Zero<'d> {
    key: &'d str,
    parts: [Json<'d>; 8],
    kind: Kind,
    start: u64,
    end: u64,
}

/// A body that grows.
#[derive(Default)]
struct Body {
    text: String,
    /// What the last point's resource, scope and metric are, as a key says it.
    above: [String; 3],
}

/// Bodies that prime: for each series with frontier F a point of value zero over (F-1, F]. At most 3 MiB
/// each, but that of a series which is longer itself. What a series shares with the one before it is said once: who reads it keeps
/// it once, too.
pub fn zeros(series: impl IntoIterator<Item = (SeriesKey, u64)>) -> Result<Vec<String>, NotForwarded> {
    let mut bodies = Vec::new();
    let mut body = Body::default();
    for (key, frontier) in series {
        let document = Document::parse(key.0.as_bytes())?;
        let zero = Zero::of(&document, frontier)?;
        if !body.text.is_empty() && body.text.len() + key.0.len() + AROUND > MOST {
            bodies.push(std::mem::take(&mut body).finished());
        }
        body.add(&zero);
    }
    if !body.text.is_empty() {
        bodies.push(body.finished());
    }
    Ok(bodies)
}

/// A request of one point, of value zero.
pub fn request_of(key: &SeriesKey, end: u64) -> Result<String, NotForwarded> {
    let mut body = Body::default();
    body.add(&Zero::of(&Document::parse(key.0.as_bytes())?, end)?);
    Ok(body.finished())
}

impl Body {
    fn add(&mut self, zero: &Zero<'_>) {
        let (above, mut same) = (zero.above(), 0);
        if self.text.is_empty() {
            self.text.push_str("{\"resourceMetrics\":[");
        } else {
            same = above.iter().zip(&self.above).take_while(|(one, other)| one == other).count();
            self.end(same);
            self.text.push(',');
        }
        for (level, above) in above.into_iter().enumerate().skip(same) {
            zero.begin(level, &mut self.text);
            self.above[level] = above.into();
        }
        zero.put(&mut self.text);
    }

    /// Ends the last metric, and what is above it, up to a level.
    fn end(&mut self, level: usize) {
        self.text.extend(ENDS[level..].iter().rev().copied());
    }

    fn finished(mut self) -> String {
        self.end(0);
        self.text + "]}"
    }
}

impl<'d> Zero<'d> {
    fn of(key: &'d Document<'_>, frontier: u64) -> Result<Zero<'d>, NotForwarded> {
        // A point begins at 1 or later, so a frontier is 2 at least.
        let start = frontier.checked_sub(1).filter(|start| *start > 0);
        let start = start.ok_or_else(|| NotForwarded(format!("a frontier of {frontier}")))?;
        let parts = parts_in(key).and_then(|parts| Some((parts, kind_of(parts[6])?)));
        let (parts, kind) = parts.ok_or_else(|| NotForwarded(format!("the key {}", key.text())))?;
        Ok(Zero { key: key.text(), parts, kind, start, end: frontier })
    }

    /// What its resource, its scope and its metric are, as its key says it. Of histograms of other bounds the metric is the same.
    fn above(&self) -> [&'d str; 3] {
        let said = |first: usize, last: usize| {
            let (first, last) = (self.parts[first].range(), self.parts[last].range());
            &self.key[first.start..last.end]
        };
        let is_histogram = matches!(self.kind, Kind::Histogram { .. });
        [said(0, 0), said(1, 3), said(4, if is_histogram { 5 } else { 6 })]
    }

    /// Begins its resource, its scope or its metric.
    fn begin(&self, level: usize, out: &mut String) {
        let [resource, scope, version, scope_attributes, name, unit, ..] = self.parts.map(Json::raw);
        // Into a text it never fails.
        let _ = match level {
            0 => write!(out, "{{\"resource\":{{\"attributes\":{resource}}},\"scopeMetrics\":["),
            1 => write!(
                out,
                "{{\"scope\":{{\"name\":{scope},\"version\":{version},\"attributes\":{scope_attributes}}},\"metrics\":["
            ),
            _ => {
                let data = match self.kind {
                    Kind::Sum => "\"sum\":{\"isMonotonic\":false,",
                    Kind::Monotonic => "\"sum\":{\"isMonotonic\":true,",
                    Kind::Histogram { .. } => "\"histogram\":{",
                };
                write!(
                    out,
                    "{{\"name\":{name},\"unit\":{unit},{data}\"aggregationTemporality\":1,\"dataPoints\":["
                )
            }
        };
    }

    /// The point itself.
    fn put(&self, out: &mut String) {
        let (start, end) = (self.start, self.end);
        let _ = write!(out, "{{\"startTimeUnixNano\":\"{start}\",\"timeUnixNano\":\"{end}\",");
        match &self.kind {
            Kind::Histogram { bounds: all } => {
                let (buckets, bounds) = (vec!["\"0\""; all.len() + 1].join(","), self.parts[6].raw());
                let _ = write!(
                    out,
                    "\"count\":\"0\",\"sum\":0,\"bucketCounts\":[{buckets}],\"explicitBounds\":{bounds}"
                );
            }
            _ => out.push_str("\"asInt\":\"0\""),
        }
        let _ = write!(out, ",\"attributes\":{}}}", self.parts[7].raw());
    }
}
