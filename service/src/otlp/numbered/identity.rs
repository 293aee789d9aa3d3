//! What is not known yet is read once by the reader for all requests: a request that has this alone.

use super::levels::{Full, Level, Levels, CUMULATIVE, FOREIGN};
use super::walk::{Head, Own, Path, Slow};
use super::Learnt;
use crate::otlp::finer_units::{rewritten, scale_of, shown_of, Scale, Scaled};
use crate::otlp::from_protobuf;
use crate::otlp::output::{self, Output};
use crate::otlp::schema::{
    of_histogram, of_sum, Field, METRICS, POINTS, RESOURCES, RESOURCE_OF, SCOPES, SCOPE_OF, TEMPORALITY,
};
use crate::otlp::wire::{field, Fields, Payload};
use crate::otlp::{Profile, Reading};
use bytes::Bytes;
use std::cell::Cell;
use std::sync::atomic::{AtomicBool, Ordering::Relaxed};
use std::sync::{PoisonError, RwLock, RwLockReadGuard};

/// Names a series by a request of one point.
pub type Learn<'s> = dyn Fn(Bytes) -> Option<Learnt> + 's;

/// So many bytes a request has written at most, of what is not known: a metric of some bytes is written with all that is above it.
/// Where it has more it is read otherwise, and the next one learns on from there.
pub const LEARNT_AT_ONCE: usize = 8 << 20;

/// Who learns what is not known. No lock is held while something is read or named.
pub struct Learner<'s> {
    pub levels: &'s RwLock<Levels>,
    pub reading: &'s Reading,
    pub is_full: &'s AtomicBool,
    pub learn: &'s Learn<'s>,
    /// How much it may still have written.
    pub left: Cell<usize>,
}

impl Learner<'_> {
    /// The level of resources where these decisions count.
    pub fn top(&self, decides: u64) -> Result<Level, Slow> {
        self.fitting(|levels| levels.make_top(decides))
    }

    /// The level of these bytes, which are the last part of the path.
    pub fn level(&self, path: &Path<'_>, within: Level, bytes: &[u8]) -> Result<Level, Slow> {
        let written = self.written(path, &[])?;
        let scaled = match written.is_measured {
            true => scale_of(&written.text, &self.reading.finer_units).ok_or(Slow)?,
            false => Scaled::Plain,
        };
        match scaled {
            Scaled::Plain => self.fitting(|levels| levels.level(within, bytes)),
            Scaled::By(scale) => self.fitting(|levels| levels.scaled(within, bytes, scale)),
            Scaled::Undecided => Err(Slow), // what reads it as a text decides
        }
    }

    /// The level of a histogram's bounds.
    pub fn bounds(&self, within: Level, bounds: &[u8]) -> Result<Level, Slow> {
        self.fitting(|levels| levels.level(within, bounds))
    }

    /// The number of a series.
    pub fn series(
        &self,
        path: &Path<'_>,
        within: Level,
        own: Own<'_>,
        scale: Option<&Scale>,
    ) -> Result<u32, Slow> {
        let written = self.written(path, &field_of(POINTS, &point(own)))?;
        let text = match scale {
            Some(_) => self.in_finer(&written.text)?,
            None => written.text,
        };
        let series =
            scale.filter(|scale| scale.is_finer()).and_then(|scale| shown_of(&text, scale.rule.clone()));
        let flags = if self.makes_deltas(path) { CUMULATIVE } else { 0 };
        let number = self.name(within, own.attributes, text, flags)?;
        if let Some(series) = series {
            self.fitting(|levels| levels.show(number, series))?;
        }
        Ok(number)
    }

    /// Whether deltas are made of a metric's points.
    fn makes_deltas(&self, path: &Path<'_>) -> bool {
        let is_wanted = self.reading.profile == Profile::AlsoCumulative;
        is_wanted && path.head.is_some_and(|head| temporality(head.tail) == output::CUMULATIVE)
    }

    /// The number of a series that has these bytes, by a request of one point, with these flags.
    pub fn name(&self, within: Level, bytes: &[u8], request: Vec<u8>, flags: u32) -> Result<u32, Slow> {
        self.fitting(|levels| levels.take_room(bytes, request.len()))?;
        let number = match (self.learn)(request.into_boxed_slice().into()).ok_or(Slow)? {
            Learnt::Foreign => FOREIGN,
            Learnt::Number(number) => u32::try_from(number).map_err(|_| Slow)? | flags,
        };
        self.fitting(|levels| Ok(levels.put(within, bytes, number)))
    }

    pub fn known(&self) -> RwLockReadGuard<'_, Levels> {
        self.levels.read().unwrap_or_else(PoisonError::into_inner) // each change of it is whole
    }

    fn fitting<T>(&self, change: impl FnOnce(&mut Levels) -> Result<T, Full>) -> Result<T, Slow> {
        let mut levels = self.levels.write().unwrap_or_else(PoisonError::into_inner);
        change(&mut levels).map_err(|Full| {
            self.is_full.store(true, Relaxed);
            Slow
        })
    }

    /// A request in the finer unit. What can't be had in it is named by who reads the whole request.
    fn in_finer(&self, text: &[u8]) -> Result<Vec<u8>, Slow> {
        match rewritten(text, &self.reading.finer_units) {
            Ok((text, rounded)) if rounded.unfit.is_none() => Ok(text.into_bytes()),
            _ => Err(Slow),
        }
    }

    /// A request of what is on a path, with these points, as it is written for the book.
    fn written(&self, path: &Path<'_>, points: &[u8]) -> Result<Output<'_>, Slow> {
        let request = match self.makes_deltas(path) {
            true => as_delta(path, points),
            false => request(path, points),
        };
        self.left.set(self.left.get().checked_sub(request.len()).ok_or(Slow)?);
        from_protobuf::written_plainly(&request, self.reading).map_err(|_| Slow)
    }
}

/// A request of what is on a path, with these points.
fn request(path: &Path<'_>, points: &[u8]) -> Vec<u8> {
    let metric = path.head.map_or_else(Vec::new, |head| {
        let data = match head.data {
            0 => Vec::new(),
            number => field(number, &[points, head.tail].concat()),
        };
        field_of(METRICS, &[head.before, &data].concat())
    });
    let scope = path
        .scope
        .map_or_else(Vec::new, |scope| field_of(SCOPES, &[&field_of(SCOPE_OF, scope), &metric[..]].concat()));
    field_of(RESOURCES, &[field_of(RESOURCE_OF, path.resource), scope].concat())
}

fn field_of(of: &Field, bytes: &[u8]) -> Vec<u8> {
    field(of.number.into(), bytes)
}

/// How a temporality is written; of several in a message the last counts.
const DELTA: [u8; 2] = [TEMPORALITY.number << 3, 1];

fn temporality(tail: &[u8]) -> i128 {
    let own = |field| match field {
        Ok((number, Payload::Varint(found))) if number == u32::from(TEMPORALITY.number) => Some(found as i32),
        _ => None,
    };
    Fields::of(tail).filter_map(own).last().unwrap_or(0).into()
}

/// The same of the delta metric of its name: what deltas are made of has its series.
fn as_delta(path: &Path<'_>, points: &[u8]) -> Vec<u8> {
    let tail = path.head.map_or(&[][..], |head| head.tail);
    let tail = [tail, &DELTA].concat();
    let head = path.head.map(|head| Head { tail: &tail, ..head });
    request(&Path { head, ..*path }, points)
}

/// A point of a series that nothing is wrong with.
fn point(own: Own<'_>) -> Vec<u8> {
    let span = [fixed64(of_sum::START, 1), fixed64(of_sum::END, 2)].concat();
    match own.bounds {
        None => [&span, &fixed64(of_sum::INT, 0)[..], own.attributes].concat(),
        Some(bounds) => {
            let buckets = vec![0; bounds.len() + 8];
            let buckets = field(of_histogram::BUCKETS.into(), &buckets);
            [&span, &buckets[..], &field(of_histogram::BOUNDS.into(), bounds), own.attributes].concat()
        }
    }
}

fn fixed64(number: u8, bits: u64) -> Vec<u8> {
    [&[number << 3 | 1][..], &bits.to_le_bytes()].concat()
}
