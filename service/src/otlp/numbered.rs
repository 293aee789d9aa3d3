//! The points of a request in protobuf, by the numbers of their series: what nearly all requests have is read without a
//! text of any of it. A request that no usual encoder writes, or whose series can't be named now, is written in the book's form
//! (`from_protobuf`).
//!
//! A series is known by the raw bytes of its resource, its scope, its metric without points, its bounds and its
//! attributes, level by level (`levels`). What is not known yet is written as a request of one point by the reader for all
//! requests (`identity`), and named. **So nothing of a rule is here**: what was read once as sound is as sound where the same
//! bytes come again, and whatever is not plainly a whole number or a histogram is not read here at all (`walk`).
//!
//! A text in the book's form is read as `series` reads it, where its points are wanted by number too: each series is known by its
//! key.

mod fields;
mod identity;
mod known;
mod levels;
mod walk;

use super::series::{request_of, visit_body, Profile, Seen, SeriesKey, Temporality};
use super::{Reading, Rounded};
use crate::journal::Points;
use bytes::Bytes;
use identity::{Learn, Learner};
use levels::{Levels, FOREIGN, KEYS};
use std::cell::Cell;
use std::sync::atomic::{AtomicBool, Ordering::Relaxed};
use std::sync::{PoisonError, RwLock};
use walk::{Slow, Walk};

/// What naming a series said.
#[derive(Clone, Copy, Debug, PartialEq, Eq)]
pub enum Learnt {
    Number(u64),
    /// None of its points is taken, whatever it says.
    Foreign,
}

/// A series can't be named now.
#[derive(Debug)]
pub struct NotNamed;

/// Points of a request.
#[derive(Debug, Default, PartialEq)]
pub struct Numbered {
    pub points: Points,
    /// How many points are not among them, since they are outside the profile.
    pub foreign: u64,
    pub rounded: Rounded,
    /// Which of them are cumulative, by their places, ascending.
    pub cumulative: Vec<u32>,
}

/// All that is known by its bytes, under one way of reading, but for what shards decide by themselves.
pub struct Series {
    levels: RwLock<Levels>,
    /// Something found no room.
    is_full: AtomicBool,
}

impl Series {
    /// It takes about so many bytes of memory at most.
    pub fn new(most: usize) -> Series {
        Series { levels: RwLock::new(Levels::new(most)), is_full: AtomicBool::new(false) }
    }

    pub fn is_full(&self) -> bool {
        self.is_full.load(Relaxed)
    }

    /// Takes room for a series that is known elsewhere, by a name of so many bytes: whether there is so much.
    pub fn take_room(&self, name: usize) -> bool {
        let taken = self.levels.write().unwrap_or_else(PoisonError::into_inner).take_room(&[], name);
        self.is_full.fetch_or(taken.is_err(), Relaxed);
        taken.is_ok()
    }

    /// The points of a request; none where it is to be read otherwise, which says nothing of it. What is not known yet
    /// is given to `learn` as a request of one point: none where it can't be named now.
    pub fn read(
        &self,
        body: &[u8],
        reading: &Reading,
        learn: impl Fn(Bytes) -> Option<Learnt>,
    ) -> Option<Numbered> {
        if reading.finer_units.has_no_unit() {
            return None; // all metrics have a unit of `--integer-unit`
        }
        Walk::new(&self.learner(reading, &learn), body.len()).request(body).ok()
    }

    /// The points of a request in the book's form, also those that are cumulative; none where the book refuses it whole.
    pub fn read_text(
        &self,
        text: &[u8],
        learn: impl Fn(Bytes) -> Option<Learnt>,
    ) -> Result<Option<Numbered>, NotNamed> {
        let reading = Reading::default(); // a key says what it does
        let learner = self.learner(&reading, &learn);
        let (mut read, mut goes_on) = (Numbered::default(), Ok(()));
        let whole = visit_body(text, Profile::AlsoCumulative, |seen| {
            if goes_on.is_ok() {
                goes_on = add(&mut read, &learner, &seen);
            }
        });
        goes_on.map_err(|_| NotNamed)?;
        Ok(whole.map(|()| read))
    }

    /// For one request.
    fn learner<'s>(&'s self, reading: &'s Reading, learn: &'s Learn<'s>) -> Learner<'s> {
        let left = Cell::new(identity::LEARNT_AT_ONCE);
        Learner { levels: &self.levels, reading, is_full: &self.is_full, learn, left }
    }
}

fn add(read: &mut Numbered, learner: &Learner<'_>, seen: &Seen<'_, '_>) -> Result<(), Slow> {
    let Ok(temporality) = seen.found else {
        read.foreign += 1;
        return Ok(());
    };
    match number_of(learner, seen.key)? {
        FOREIGN => read.foreign += 1,
        number => {
            if temporality == Temporality::Cumulative {
                read.cumulative.push(read.points.count() as u32);
            }
            read.points.push_words(number.into(), seen.words);
        }
    }
    Ok(())
}

fn number_of(learner: &Learner<'_>, key: &str) -> Result<u32, Slow> {
    if let Some(number) = learner.known().find(KEYS, key.as_bytes()) {
        return Ok(number);
    }
    let end = 2; // of a point from 1 on
    let request = request_of(&SeriesKey(key.into()), end).map_err(|_| Slow)?;
    learner.name(KEYS, key.as_bytes(), request.into_bytes(), 0)
}

#[cfg(test)]
mod tests;
