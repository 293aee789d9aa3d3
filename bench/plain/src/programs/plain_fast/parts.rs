//! What identifies a series, as it is borrowed of a body or kept: both have one hash.

use std::hash::{BuildHasher, Hash, Hasher};
use std::sync::Arc;

use ahash::{AHasher, RandomState};
use plain::series::{Identity, Kind, Pairs, Value};

use crate::body::{AnyValue, Attribute};

/// A value of an attribute.
#[derive(PartialEq, Eq, Hash)]
pub enum Single<'a> {
    Empty,
    Bool(bool),
    Int(i64),
    Text(&'a str),
}

/// An attribute of a body, or one that is kept.
pub trait Pair {
    fn key(&self) -> &str;
    fn value(&self) -> Single<'_>;
}

impl Pair for Attribute<'_> {
    fn key(&self) -> &str {
        &self.key
    }

    fn value(&self) -> Single<'_> {
        match &self.value {
            AnyValue::Empty => Single::Empty,
            AnyValue::Text(text) => Single::Text(text),
            AnyValue::Int(number) => Single::Int(number.0),
            AnyValue::Bool(it) => Single::Bool(*it),
        }
    }
}

impl Pair for (String, Value) {
    fn key(&self) -> &str {
        &self.0
    }

    fn value(&self) -> Single<'_> {
        match &self.1 {
            Value::Bool(it) => Single::Bool(*it),
            Value::Int(number) => Single::Int(*number),
            Value::Text(text) => Single::Text(text),
            // Bodies are read without lists.
            Value::Empty | Value::List(_) => Single::Empty,
        }
    }
}

fn is_same<A: Pair, B: Pair>(one: &[A], other: &[B]) -> bool {
    let mut pairs = one.iter().zip(other);
    one.len() == other.len() && pairs.all(|(a, b)| a.key() == b.key() && a.value() == b.value())
}

fn hash_pairs<P: Pair>(pairs: &[P], to: &mut AHasher) {
    to.write_usize(pairs.len());
    for pair in pairs {
        pair.key().hash(to);
        pair.value().hash(to);
    }
}

fn kept(pairs: &[Attribute]) -> Pairs {
    let value = |value: Single| match value {
        Single::Empty => Value::Empty,
        Single::Bool(it) => Value::Bool(it),
        Single::Int(number) => Value::Int(number),
        Single::Text(text) => Value::Text(text.to_owned()),
    };
    pairs
        .iter()
        .map(|pair| (pair.key().to_owned(), value(pair.value())))
        .collect()
}

/// What the series of a metric have in common.
pub struct Head<'a, P> {
    pub resource: &'a [P],
    pub scope_name: &'a str,
    pub scope_version: &'a str,
    pub scope_attributes: &'a [P],
    pub name: &'a str,
    pub unit: &'a str,
}

impl<P: Pair> Head<'_, P> {
    /// The beginning of the hashes of its series.
    pub fn hasher(&self, random: &RandomState) -> AHasher {
        let mut hasher = random.build_hasher();
        hash_pairs(self.resource, &mut hasher);
        hash_pairs(self.scope_attributes, &mut hasher);
        for text in [self.scope_name, self.scope_version, self.name, self.unit] {
            text.hash(&mut hasher);
        }
        hasher
    }
}

#[derive(PartialEq, Eq, Hash, Clone, Copy)]
pub enum KindPart<'a> {
    Sum { is_monotonic: bool },
    Histogram { bounds: &'a [i64] },
}

impl<'a> From<&'a Kind> for KindPart<'a> {
    fn from(kind: &'a Kind) -> KindPart<'a> {
        match kind {
            Kind::Sum { is_monotonic } => KindPart::Sum {
                is_monotonic: *is_monotonic,
            },
            Kind::Histogram { bounds } => KindPart::Histogram { bounds },
        }
    }
}

impl From<KindPart<'_>> for Kind {
    fn from(kind: KindPart) -> Kind {
        match kind {
            KindPart::Sum { is_monotonic } => Kind::Sum { is_monotonic },
            KindPart::Histogram { bounds } => Kind::Histogram {
                bounds: bounds.to_vec(),
            },
        }
    }
}

/// The hash of a series, by that of its metric.
pub fn hash_of<P: Pair>(head: &AHasher, kind: KindPart, attributes: &[P]) -> u64 {
    let mut hasher = head.clone();
    kind.hash(&mut hasher);
    hash_pairs(attributes, &mut hasher);
    hasher.finish()
}

pub fn hash_of_kept(series: &Identity, random: &RandomState) -> u64 {
    let head = Head {
        resource: series.resource.as_slice(),
        scope_name: &series.scope_name,
        scope_version: &series.scope_version,
        scope_attributes: series.scope_attributes.as_slice(),
        name: &series.name,
        unit: &series.unit,
    };
    hash_of(&head.hasher(random), (&series.kind).into(), &series.attributes)
}

/// A series of a body.
pub struct Parts<'a> {
    pub head: &'a Head<'a, Attribute<'a>>,
    pub kind: KindPart<'a>,
    pub attributes: &'a [Attribute<'a>],
}

impl Parts<'_> {
    pub fn is(&self, series: &Identity) -> bool {
        let Parts {
            head,
            kind,
            attributes,
        } = self;
        head.name == series.name
            && is_same(attributes, &series.attributes)
            && *kind == KindPart::from(&series.kind)
            && head.unit == series.unit
            && head.scope_name == series.scope_name
            && head.scope_version == series.scope_version
            && is_same(head.scope_attributes, &series.scope_attributes)
            && is_same(head.resource, &series.resource)
    }

    pub fn to_kept(&self) -> Identity {
        let Parts {
            head,
            kind,
            attributes,
        } = self;
        Identity {
            resource: Arc::new(kept(head.resource)),
            scope_name: head.scope_name.to_owned(),
            scope_version: head.scope_version.to_owned(),
            scope_attributes: Arc::new(kept(head.scope_attributes)),
            name: head.name.to_owned(),
            unit: head.unit.to_owned(),
            kind: (*kind).into(),
            attributes: kept(attributes),
        }
    }
}
