//! What makes two series one, and what is kept of a series.

use std::sync::Arc;

pub type Pairs = Vec<(String, Value)>;

/// What an attribute has.
#[derive(PartialEq, Eq, Hash, Clone, Debug)]
pub enum Value {
    Empty,
    Bool(bool),
    Int(i64),
    Text(String),
    List(Vec<Value>),
}

#[derive(PartialEq, Eq, Hash, Clone, Debug)]
pub enum Kind {
    Sum { is_monotonic: bool },
    Histogram { bounds: Vec<i64> },
}

#[derive(PartialEq, Eq, Hash, Clone)]
pub struct Identity {
    pub resource: Arc<Pairs>,
    pub scope_name: String,
    pub scope_version: String,
    pub scope_attributes: Arc<Pairs>,
    pub name: String,
    pub unit: String,
    pub kind: Kind,
    pub attributes: Pairs,
}

/// What points add up to. A histogram has a sum where each point had one.
#[derive(Clone)]
pub enum Data {
    Sum(i64),
    Histogram { sum: Option<u64>, buckets: Vec<u64> },
}

/// Data over a time.
#[derive(Clone)]
pub struct Stored {
    pub start: u64,
    pub end: u64,
    pub data: Data,
}

pub struct Series {
    pub owner: String,
    pub frontier: u64,
    pub stored: Option<Stored>,
    pub acknowledged: u64,
}

impl Series {
    pub fn new(owner: &str) -> Series {
        Series {
            owner: owner.to_owned(),
            frontier: 0,
            stored: None,
            acknowledged: 0,
        }
    }

    /// Adds to what is stored.
    pub fn put(&mut self, more: Stored) {
        match &mut self.stored {
            Some(old) => {
                add(&mut old.data, &more.data);
                old.start = old.start.min(more.start);
                old.end = old.end.max(more.end);
            }
            None => self.stored = Some(more),
        }
    }

    pub fn line(&self, identity: &Identity) -> String {
        format!(
            "series {} {:?} owner {} frontier {} acknowledged {} stored {}\n",
            identity.name,
            identity.attributes,
            self.owner,
            self.frontier,
            self.acknowledged,
            self.stored.is_some()
        )
    }
}

/// Adds one to the other, of one series.
fn add(to: &mut Data, from: &Data) {
    match (to, from) {
        (Data::Sum(a), Data::Sum(b)) => *a = a.saturating_add(*b),
        (Data::Histogram { sum: a, buckets: xs }, Data::Histogram { sum: b, buckets: ys }) => {
            *a = a.zip(*b).map(|(a, b)| a.saturating_add(b));
            xs.iter_mut().zip(ys).for_each(|(x, y)| *x = x.saturating_add(*y));
        }
        _ => {}
    }
}

/// What a flush took of a series.
pub struct Taken {
    pub series: Identity,
    pub stored: Stored,
}

/// Takes what is stored of so many series.
pub fn take<'a>(all: impl Iterator<Item = (&'a Identity, &'a mut Series)>, most: usize) -> Vec<Taken> {
    let ready = all.filter(|(_, series)| series.stored.is_some());
    let taken = ready.take(most).filter_map(|(identity, series)| {
        Some(Taken {
            series: identity.clone(),
            stored: series.stored.take()?,
        })
    });
    taken.collect()
}
