//! What is known by its bytes: resources, in each its scopes, in each its metrics, in a histogram its bounds, and then the
//! points' attributes, which have the number of their series. Beside them the keys of series, which have numbers too.

use super::known::KnownBytes;
use crate::otlp::finer_units::{Scale, ShownSeries};
use ahash::RandomState;
use std::collections::HashMap;
use std::hash::BuildHasher;
use std::sync::Arc;

/// The place of a level.
pub type Level = u32;

/// The level of resources, where all shards are read alike; each that is not has another.
pub const TOP: Level = 0;
/// The level of series' keys, by which points of a text are known.
pub const KEYS: Level = 1;
/// With a number: the points of the series are cumulative.
pub const CUMULATIVE: u32 = 1 << 31;
/// In the place of a number: no point of the series is taken.
pub const FOREIGN: u32 = u32::MAX;

/// What an entry takes beside its bytes: its place in a table that is half full, its length, and what the allocator adds.
const ENTRY: usize = 96;
/// What a level takes that has nothing yet.
const LEVEL: usize = 256;

pub struct Levels {
    /// By bytes a level, or a number. Nobody who posts can make two of them meet: the hash has a key of its own.
    all: Vec<KnownBytes>,
    hasher: RandomState,
    left: usize,
    /// The levels of resources by whose decisions count in them.
    tops: HashMap<u64, Level, RandomState>,
    /// Of metrics that are taken in another unit, by their level.
    scales: HashMap<Level, Arc<Scale>, RandomState>,
    /// Of the series of these, by their number.
    shown: HashMap<u32, Arc<ShownSeries>, RandomState>,
}

/// There is no room.
#[derive(Debug)]
pub struct Full;

impl Levels {
    pub fn new(most: usize) -> Levels {
        let hasher = RandomState::new();
        Levels {
            all: vec![KnownBytes::default(), KnownBytes::default()],
            tops: HashMap::with_hasher(hasher.clone()),
            scales: HashMap::with_hasher(hasher.clone()),
            shown: HashMap::with_hasher(hasher.clone()),
            hasher,
            left: most,
        }
    }

    #[inline]
    pub fn find(&self, within: Level, bytes: &[u8]) -> Option<u32> {
        self.all[within as usize].find(self.hasher.hash_one(bytes), bytes)
    }

    /// The level of resources where these decisions count.
    #[inline]
    pub fn top(&self, decides: u64) -> Option<Level> {
        match decides {
            0 => Some(TOP),
            _ => self.tops.get(&decides).copied(),
        }
    }

    /// The same, which is there from now on.
    pub fn make_top(&mut self, decides: u64) -> Result<Level, Full> {
        if let Some(level) = self.top(decides) {
            return Ok(level);
        }
        let level = self.fresh(&[])?;
        self.tops.insert(decides, level);
        Ok(level)
    }

    /// The level of these bytes, which is there from now on.
    pub fn level(&mut self, within: Level, bytes: &[u8]) -> Result<Level, Full> {
        if let Some(level) = self.find(within, bytes) {
            return Ok(level);
        }
        let level = self.fresh(bytes)?;
        self.put(within, bytes, level);
        Ok(level)
    }

    /// A level that has nothing yet, by these bytes.
    fn fresh(&mut self, bytes: &[u8]) -> Result<Level, Full> {
        let level = Level::try_from(self.all.len()).map_err(|_| Full)?;
        self.take_room(bytes, LEVEL)?;
        self.all.push(KnownBytes::default());
        Ok(level)
    }

    /// The level of a metric that is taken in another unit. It is there with its scale, or not at all.
    pub fn scaled(&mut self, within: Level, bytes: &[u8], scale: Scale) -> Result<Level, Full> {
        self.take_room(&[], 0)?;
        let level = self.level(within, bytes)?;
        self.scales.entry(level).or_insert_with(|| Arc::new(scale));
        Ok(level)
    }

    /// How the points of a metric are taken, where it is in another unit.
    #[inline]
    pub fn scale(&self, level: Level) -> Option<Arc<Scale>> {
        match self.scales.is_empty() {
            true => None,
            false => self.scales.get(&level).cloned(),
        }
    }

    /// How a series of such a metric is shown.
    pub fn show(&mut self, number: u32, series: ShownSeries) -> Result<(), Full> {
        let takes = 2 * ENTRY + series.metric.len() + series.attributes.len();
        self.left = self.left.checked_sub(takes).ok_or(Full)?;
        self.shown.insert(number, Arc::new(series));
        Ok(())
    }

    pub fn shown(&self, number: u32) -> Option<Arc<ShownSeries>> {
        self.shown.get(&number).cloned()
    }

    /// Takes room for a series, before it is named. `text` is what its name takes elsewhere.
    pub fn take_room(&mut self, bytes: &[u8], text: usize) -> Result<(), Full> {
        let takes = ENTRY + bytes.len() + text;
        self.left = self.left.checked_sub(takes).ok_or(Full)?;
        Ok(())
    }

    /// What these bytes have from now on, or have already, since another has learnt them meanwhile.
    pub fn put(&mut self, within: Level, bytes: &[u8], number: u32) -> u32 {
        let (known, hash) = (&mut self.all[within as usize], self.hasher.hash_one(bytes));
        known.find(hash, bytes).unwrap_or_else(|| {
            known.put(hash, bytes, number);
            number
        })
    }
}
