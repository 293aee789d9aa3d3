//! Series in slots, which are found by their hash.

use ahash::RandomState;
use hashbrown::hash_map::RawEntryMut;
use hashbrown::HashMap;
use plain::series::{self, Data, Identity, Series, Stored, Taken};

use crate::body::Natural;
use crate::parts::{hash_of_kept, Parts};

pub enum DataPart<'a> {
    Sum(i64),
    Histogram {
        sum: Option<u64>,
        buckets: &'a [Natural],
    },
}

impl DataPart<'_> {
    fn to_kept(&self) -> Data {
        match self {
            DataPart::Sum(value) => Data::Sum(*value),
            DataPart::Histogram { sum, buckets } => Data::Histogram {
                sum: *sum,
                buckets: buckets.iter().map(|bucket| bucket.0).collect(),
            },
        }
    }
}

/// A point of a body.
pub struct Point<'a> {
    pub hash: u64,
    pub series: Parts<'a>,
    pub start: u64,
    pub end: u64,
    pub data: DataPart<'a>,
}

struct Kept {
    identity: Identity,
    series: Series,
    /// The last batch that was looked at, and where its points of the series end.
    batch: u64,
    end: u64,
}

impl Kept {
    fn put(&mut self, point: &Point) {
        self.series.frontier = point.end;
        match (&mut self.series.stored, &point.data) {
            (
                Some(Stored {
                    start,
                    end,
                    data: Data::Histogram { sum, buckets },
                }),
                DataPart::Histogram {
                    sum: more,
                    buckets: others,
                },
            ) => {
                *start = point.start.min(*start);
                *end = point.end.max(*end);
                *sum = sum.zip(*more).map(|(a, b)| a.saturating_add(b));
                buckets
                    .iter_mut()
                    .zip(*others)
                    .for_each(|(a, b)| *a = a.saturating_add(b.0));
            }
            _ => self.series.put(Stored {
                start: point.start,
                end: point.end,
                data: point.data.to_kept(),
            }),
        }
    }
}

#[derive(Clone, Copy)]
struct Slot {
    hash: u64,
    at: usize,
}

#[derive(Default)]
pub struct Table {
    slots: HashMap<Slot, (), ()>,
    all: Vec<Kept>,
    batches: u64,
    /// Where the points of the batch go; kept for its memory.
    places: Vec<usize>,
}

impl Table {
    /// Adds all points of a batch, or none.
    pub fn admit(&mut self, sender: &str, points: &[Point]) -> Result<(), &'static str> {
        self.batches += 1;
        self.places.clear();
        let known = self.all.len();
        let checked = points.iter().try_for_each(|point| self.check(sender, point));
        match checked {
            Ok(()) => {
                for (point, at) in points.iter().zip(&self.places) {
                    self.all[*at].put(point);
                }
            }
            Err(_) if known < self.all.len() => {
                self.slots.retain(|slot, ()| slot.at < known);
                self.all.truncate(known);
            }
            Err(_) => {}
        }
        checked
    }

    /// Finds a place for a point, whose series begins where it is not known.
    fn check(&mut self, sender: &str, point: &Point) -> Result<(), &'static str> {
        let at = self.find(sender, point);
        let kept = &mut self.all[at];
        if kept.series.owner != sender {
            return Err("another sender's series");
        }
        if kept.batch != self.batches {
            (kept.batch, kept.end) = (self.batches, kept.series.frontier);
        }
        if point.start < kept.end || point.end <= point.start {
            return Err("a point that is too late");
        }
        kept.end = point.end;
        self.places.push(at);
        Ok(())
    }

    fn find(&mut self, sender: &str, point: &Point) -> usize {
        let Table { slots, all, .. } = self;
        let is = |slot: &Slot| slot.hash == point.hash && point.series.is(&all[slot.at].identity);
        match slots.raw_entry_mut().from_hash(point.hash, is) {
            RawEntryMut::Occupied(entry) => entry.key().at,
            RawEntryMut::Vacant(entry) => {
                let at = all.len();
                entry.insert_with_hasher(point.hash, Slot { hash: point.hash, at }, (), |slot| slot.hash);
                all.push(Kept {
                    identity: point.series.to_kept(),
                    series: Series::new(sender),
                    batch: 0,
                    end: 0,
                });
                at
            }
        }
    }

    /// Takes what is stored of so many series.
    pub fn take(&mut self, most: usize) -> Vec<Taken> {
        series::take(
            self.all.iter_mut().map(|kept| (&kept.identity, &mut kept.series)),
            most,
        )
    }

    /// Counts what was taken as acknowledged, or gives it back.
    pub fn end_flush(&mut self, taken: Vec<Taken>, is_taken: bool, random: &RandomState) {
        for Taken { series, stored } in taken {
            let hash = hash_of_kept(&series, random);
            let is = |slot: &Slot| slot.hash == hash && self.all[slot.at].identity == series;
            let Some((slot, ())) = self.slots.raw_entry().from_hash(hash, is) else {
                continue;
            };
            let kept = &mut self.all[slot.at].series;
            match is_taken {
                true => kept.acknowledged += 1,
                false => kept.put(stored),
            }
        }
    }

    /// A line for each series.
    pub fn report(&self) -> String {
        self.all
            .iter()
            .map(|kept| kept.series.line(&kept.identity))
            .collect()
    }
}
