//! The series that a body has points of.

mod around;
mod digest;
mod forwarded;
mod identity;
mod point;
mod posted;
mod seed_points;
mod why;

pub use around::Around;
pub use digest::{Digest, Digests};
pub use forwarded::{forwarded, protobuf_of_forwarded};
pub(super) use point::Temporality;
pub use posted::Profile;
pub(super) use posted::{first_resource, is_monotonic, points_by_resource, visit, visit_body, Seen};
pub use posted::{only, others, posted, words_of};
pub use seed_points::{request_of, zeros};
#[cfg(test)]
pub(crate) use tests::{KINDS, VALUES};
pub(super) use why::{name_shown, said, short, What, LOOKED_AT};

use super::json::{Document, NotJson, Value as Json};
use super::number::book_whole;
use std::sync::Arc;

/// A series' identity as compact JSON, as the book writes it:
/// `[resource attributes,scope name,version,scope attributes,name,unit,kind,point attributes]`,
/// attributes in key order, the kind `"sum"`, `"monotonic"` or a histogram's bounds.
#[derive(Clone, Debug, PartialEq, Eq, Hash, PartialOrd, Ord)]
pub struct SeriesKey(pub Arc<str>);

/// The parts of a key, each as the JSON that stands in it; texts are plain.
#[derive(Clone, Debug, PartialEq, Eq)]
pub struct SeriesParts {
    pub resource: String,
    pub scope_name: String,
    pub scope_version: String,
    pub scope_attributes: String,
    pub name: String,
    pub unit: String,
    pub kind: Kind,
    pub attributes: String,
}

#[derive(Clone, Debug, PartialEq, Eq)]
pub enum Kind {
    Sum,
    Monotonic,
    Histogram { bounds: Vec<i64> },
}

/// A point that the service forwarded.
#[derive(Clone, Debug, PartialEq, Eq)]
pub struct ForwardedPoint {
    /// Among the points of its request, from 0.
    pub place: usize,
    pub series: SeriesKey,
    /// The span (start, end], in nanoseconds since 1970.
    pub start: u64,
    pub end: u64,
    pub value: Value,
}

#[derive(Clone, Debug, PartialEq, Eq)]
pub enum Value {
    Sum(i64),
    /// `sum` is missing where a merged point had none.
    Histogram {
        count: u64,
        sum: Option<u64>,
        buckets: Vec<u64>,
    },
}

#[derive(Debug, thiserror::Error)]
#[error("not a request that the service forwards: {0}")]
pub struct NotForwarded(pub String);

impl From<NotJson> for NotForwarded {
    fn from(why: NotJson) -> NotForwarded {
        NotForwarded(why.to_string())
    }
}

impl SeriesKey {
    pub fn parts(&self) -> Result<SeriesParts, NotForwarded> {
        self.parts_of().ok_or_else(|| NotForwarded(format!("the key {}", self.0)))
    }

    fn parts_of(&self) -> Option<SeriesParts> {
        let document = Document::parse(self.0.as_bytes()).ok()?;
        let [resource, scope_name, scope_version, scope_attributes, name, unit, kind, attributes] =
            parts_in(&document)?;
        let plain = |text: Json<'_>| text.text().map(String::from);
        let list = |list: Json<'_>| list.raw().to_string();
        Some(SeriesParts {
            resource: list(resource),
            scope_name: plain(scope_name)?,
            scope_version: plain(scope_version)?,
            scope_attributes: list(scope_attributes),
            name: plain(name)?,
            unit: plain(unit)?,
            kind: kind_of(kind)?,
            attributes: list(attributes),
        })
    }
}

/// The metrics of a request in the book's form, in order.
pub(super) fn metrics<'d>(document: &'d Document<'_>) -> impl Iterator<Item = Json<'d>> {
    let scopes = document.root().list("resourceMetrics").flat_map(|resource| resource.list("scopeMetrics"));
    scopes.flat_map(|scope| scope.list("metrics"))
}

/// The parts of a key, where it is one but for its kind.
fn parts_in<'d>(document: &'d Document<'_>) -> Option<[Json<'d>; 8]> {
    use super::json::Kind::{Array, Text};
    let parts: Vec<Json<'_>> = document.root().elements()?.collect();
    let parts: [Json<'_>; 8] = parts.try_into().ok()?;
    let kinds = [0, 1, 2, 3, 4, 5, 7].map(|part| parts[part].kind());
    (kinds == [Array, Text, Text, Array, Text, Text, Array]).then_some(parts)
}

/// The kind of a series from its part of a key.
fn kind_of(kind: Json<'_>) -> Option<Kind> {
    match kind.text().as_deref() {
        Some("sum") => Some(Kind::Sum),
        Some("monotonic") => Some(Kind::Monotonic),
        Some(_) => None,
        None => {
            let bound = |bound| i64::try_from(book_whole(bound)?).ok();
            let bounds = kind.elements()?.map(bound).collect::<Option<Vec<i64>>>()?;
            Some(Kind::Histogram { bounds })
        }
    }
}

#[cfg(test)]
mod tests;
