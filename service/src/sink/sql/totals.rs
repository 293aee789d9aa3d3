//! What series have counted, for readers of a database.

use super::exact::Exact;
use crate::otlp::series::{Digest, Kind as Identified, NotForwarded, SeriesKey};
use crate::sink::attributes::object;
use serde::Serialize;
use serde_json::{Map, Value};

/// Which series to read. The empty filter means all.
#[derive(Clone, Debug, Default, PartialEq, Eq)]
pub struct Filter {
    /// The metric's name.
    pub name: Option<String>,
    /// Attributes of the points or of the resource, each with its value as text: `code` and `200`.
    pub attributes: Vec<(String, String)>,
}

/// A series with what its points add up to.
#[derive(Clone, Debug, PartialEq, Eq, Serialize)]
pub struct SeriesTotal {
    pub name: String,
    pub unit: String,
    pub kind: Kind,
    /// By key; a value has the JSON type of the attribute.
    pub attributes: Map<String, Value>,
    pub resource: Map<String, Value>,
    pub scope_name: String,
    pub scope_version: String,
    pub scope_attributes: Map<String, Value>,
    /// Whose series it is, if the service knows.
    #[serde(skip_serializing_if = "Option::is_none")]
    pub sender: Option<String>,
    /// Of all that identifies it.
    #[serde(skip)]
    pub digest: Digest,
    /// How many points it has, each for an interval of its own.
    pub points: u64,
    /// The first start and the last end, in nanoseconds since 1970.
    pub start_ns: u64,
    pub end_ns: u64,
    /// The sum of the values; for a histogram, of its sums.
    pub total: Exact,
    /// Only for histograms.
    #[serde(skip_serializing_if = "Option::is_none")]
    pub histogram: Option<Histogram>,
}

/// The order matters: if two kinds give one name of Prometheus, the first keeps it.
#[derive(Clone, Copy, Debug, PartialEq, Eq, PartialOrd, Ord, Serialize)]
#[serde(rename_all = "lowercase")]
pub enum Kind {
    Monotonic,
    Histogram,
    Sum,
}

impl Kind {
    /// The kind of an identity, with the bounds of a histogram.
    pub(in crate::sink) fn identified(kind: Identified) -> (Kind, Option<Vec<i64>>) {
        match kind {
            Identified::Sum => (Kind::Sum, None),
            Identified::Monotonic => (Kind::Monotonic, None),
            Identified::Histogram { bounds } => (Kind::Histogram, Some(bounds)),
        }
    }

    /// As databases and exports have it, beside `is_monotonic`.
    pub fn name(self) -> &'static str {
        match self {
            Kind::Sum | Kind::Monotonic => "sum",
            Kind::Histogram => "histogram",
        }
    }

    pub fn is_monotonic(self) -> bool {
        self == Kind::Monotonic
    }

    /// As people read it.
    pub fn shown(self) -> &'static str {
        match self {
            Kind::Sum => "sum",
            Kind::Monotonic => "monotonic sum",
            Kind::Histogram => "histogram",
        }
    }
}

#[derive(Clone, Debug, Default, PartialEq, Eq, Serialize)]
pub struct Histogram {
    pub count: Exact,
    /// How many points had no sum. The total lacks theirs.
    pub points_without_sum: u64,
    pub bounds: Vec<i64>,
    /// One more than bounds: the last is above all of them.
    pub buckets: Vec<Exact>,
}

impl SeriesTotal {
    /// The series of a key, with nothing counted.
    pub fn of_none(key: &SeriesKey) -> Result<SeriesTotal, NotForwarded> {
        let parts = key.parts()?;
        let (kind, bounds) = Kind::identified(parts.kind);
        Ok(SeriesTotal {
            name: parts.name,
            unit: parts.unit,
            kind,
            attributes: object(&parts.attributes)?,
            resource: object(&parts.resource)?,
            scope_name: parts.scope_name,
            scope_version: parts.scope_version,
            scope_attributes: object(&parts.scope_attributes)?,
            sender: None,
            digest: key.digest(),
            points: 0,
            start_ns: 0,
            end_ns: 0,
            total: Exact::default(),
            histogram: bounds.map(|bounds| Histogram { bounds, ..Histogram::default() }),
        })
    }
}

impl Filter {
    pub fn takes(&self, row: &SeriesTotal) -> bool {
        let is_named = self.name.as_ref().is_none_or(|name| *name == row.name);
        is_named
            && self.attributes.iter().all(|(key, value)| {
                let found = [&row.attributes, &row.resource].into_iter().find_map(|all| all.get(key));
                found.is_some_and(|found| text(found) == *value)
            })
    }
}

/// An attribute's value as an operator writes it: a string has no quotes.
pub fn text(value: &Value) -> String {
    match value {
        Value::String(text) => text.clone(),
        Value::Null => String::new(),
        other => other.to_string(),
    }
}

/// What a series counted in an hour of UTC.
#[derive(Clone, Copy, Debug, PartialEq, Eq)]
pub struct Hour {
    /// When it begins, in hours since 1970.
    pub hour: u64,
    pub total: Exact,
    /// Only for histograms.
    pub count: Option<Exact>,
}
