//! The keys of series by id, packed. Neighbouring keys share most of their text, so a key takes some ten bytes instead
//! of hundreds. They are read seldom: at a start, for a snapshot, and when an operator names series.
//!
//! They are delta-coded (`text_row`) and then deflated. Deflate alone looks back only 32 KiB, and one key may be
//! longer.

use super::rows::{deflated_fast, inflated};
use crate::otlp::series::SeriesKey;
use crate::storage::text_row::TextRow;
use crate::work::made_in_order;
use std::sync::Arc;

/// Keys in a block; to read one, the whole block is unpacked.
const IN_BLOCK: usize = 64;
/// How many ids are read together when they are not ascending: those of one block are unpacked once.
const TOGETHER: usize = 4 * IN_BLOCK;
/// How many bytes of a key are compared to sort it.
const LOOKED_AT: usize = 512;
/// How many keys one thread reads, if there are more; a multiple of `IN_BLOCK`.
pub const PART: usize = IN_BLOCK * if cfg!(test) { 3 } else { 8 };

/// A clone shares the packed blocks.
#[derive(Clone, Debug, Default)]
pub struct Texts {
    /// `IN_BLOCK` keys each.
    blocks: Vec<Arc<[u8]>>,
    /// The keys after these, fewer than a block.
    last: Vec<SeriesKey>,
}

impl Texts {
    pub fn count(&self) -> u32 {
        (self.blocks.len() * IN_BLOCK + self.last.len()) as u32 // memory can't hold 2^32
    }

    /// Adds the key with the next id.
    pub fn push(&mut self, key: SeriesKey) {
        self.last.push(key);
        if self.last.len() == IN_BLOCK {
            self.blocks.push(packed(&self.last).into());
            self.last.clear();
        }
    }

    /// Adds these keys with the next ids. If the first one begins a block, the blocks are shared as they are.
    pub fn append(&mut self, more: &Texts) {
        match self.last.is_empty() {
            true => {
                self.blocks.extend(more.blocks.iter().cloned());
                self.last.clone_from(&more.last);
            }
            false => more.all().for_each(|key| self.push(key)),
        }
    }

    /// All keys by ascending id.
    pub fn all(&self) -> impl Iterator<Item = SeriesKey> + '_ {
        (0..self.count()).filter_map(self.reader())
    }

    /// The keys of these ids. Fast if most ids ascend.
    pub fn of<'t>(&'t self, mut ids: impl Iterator<Item = u32> + 't) -> impl Iterator<Item = SeriesKey> + 't {
        let next = move || {
            let some: Vec<u32> = ids.by_ref().take(TOGETHER).collect();
            (!some.is_empty()).then(|| self.together(&some))
        };
        std::iter::from_fn(next).flatten()
    }

    fn together(&self, ids: &[u32]) -> impl Iterator<Item = SeriesKey> {
        let mut ascending: Vec<usize> = (0..ids.len()).collect();
        ascending.sort_by_key(|place| ids[*place]);
        let (mut read, mut keys) = (self.reader(), vec![None; ids.len()]);
        ascending.into_iter().for_each(|place| keys[place] = read(ids[place]));
        keys.into_iter().flatten()
    }

    fn reader(&self) -> impl FnMut(u32) -> Option<SeriesKey> + '_ {
        let (mut at, mut read) = (self.blocks.len(), self.last.clone());
        move |id| {
            let (block, place) = (id as usize / IN_BLOCK, id as usize % IN_BLOCK);
            if block != at {
                (at, read) = (block, self.read(block));
            }
            read.get(place).cloned()
        }
    }

    /// Maps these with their keys; in parallel if they are many. Fast if the ids ascend.
    pub fn each_of<V: Send, T: Send>(
        &self,
        those: Vec<(u32, V)>,
        make: impl Fn(SeriesKey, V) -> T + Sync,
    ) -> Vec<T> {
        let made = |part: Vec<(u32, V)>| -> Vec<T> {
            let mut read = self.reader();
            part.into_iter().filter_map(|(id, value)| Some(make(read(id)?, value))).collect()
        };
        if those.len() <= PART {
            return made(those);
        }
        let mut all = Vec::with_capacity(those.len());
        let mut left = those.into_iter();
        let parts = std::iter::from_fn(|| (left.len() > 0).then(|| left.by_ref().take(PART).collect()));
        made_in_order(parts, made, |made| all.extend(made));
        all
    }

    /// The bytes of all blocks.
    #[cfg(test)]
    pub fn bytes(&self) -> usize {
        self.blocks.iter().map(|block| block.len()).sum()
    }

    fn read(&self, block: usize) -> Vec<SeriesKey> {
        let Some(packed) = self.blocks.get(block) else {
            return self.last.clone();
        };
        // This code packed the block, so it can unpack it.
        inflated(packed).and_then(|bytes| unpacked(&bytes)).unwrap_or_default()
    }
}

/// The part of a key that is compared to sort it: the whole key if it is short.
pub fn begin_of(key: &SeriesKey) -> Box<[u8]> {
    let bytes = key.0.as_bytes();
    bytes[..bytes.len().min(LOOKED_AT)].into()
}

fn packed(keys: &[SeriesKey]) -> Vec<u8> {
    let (mut row, mut out) = (TextRow::default(), Vec::new());
    keys.iter().for_each(|key| row.put(&mut out, key.0.as_bytes()));
    deflated_fast(&out)
}

fn unpacked(mut rest: &[u8]) -> Option<Vec<SeriesKey>> {
    let (mut row, mut keys) = (TextRow::default(), Vec::with_capacity(IN_BLOCK));
    while !rest.is_empty() {
        keys.push(SeriesKey(std::str::from_utf8(row.take(&mut rest)?).ok()?.into()));
    }
    Some(keys)
}

#[cfg(test)]
mod tests {
    use super::*;

    fn texts_of(keys: &[SeriesKey]) -> Texts {
        let mut texts = Texts::default();
        keys.iter().for_each(|key| texts.push(key.clone()));
        texts
    }

    /// Including keys that differ within a character, and keys that begin with another key.
    #[test]
    fn keys_come_back_as_they_were() {
        let pieces = ["", "a", "ab", "\u{e9}", "\u{e8}x", "x\u{e8}", "\u{1f600}", "\u{1f601}", "aa", "a\na"];
        let keys =
            (0..300).map(|number| pieces[number * 7 % 10].repeat(number % 3) + pieces[number / 9 % 10]);
        let keys: Vec<SeriesKey> = keys.map(|key| SeriesKey(key.into())).collect();
        let texts = texts_of(&keys);
        assert_eq!(texts.all().collect::<Vec<_>>(), keys);
        let those: Vec<(u32, usize)> = (0..300).rev().map(|id| (id, id as usize)).collect();
        let same = texts.each_of(those, |key, place| key == keys[place]);
        assert_eq!(same, vec![true; 300]);
        let mixed: Vec<u32> = (0..600).map(|number| number * 7 % 300).collect();
        let wanted = mixed.iter().map(|id| keys[*id as usize].clone());
        assert!(texts.of(mixed.iter().copied()).eq(wanted));
    }

    #[test]
    fn those_of_others_are_behind_the_own_ones() {
        for (own, more) in [(0, 200), (IN_BLOCK, 70), (3, 200), (2 * IN_BLOCK, 0), (0, 5)] {
            let all: Vec<SeriesKey> =
                (0..own + more).map(|number| SeriesKey(format!("a{number}").into())).collect();
            let mut texts = texts_of(&all[..own]);
            texts.append(&texts_of(&all[own..]));
            assert_eq!(texts.count() as usize, all.len());
            assert_eq!(texts.all().collect::<Vec<_>>(), all, "{own} and {more}");
        }
    }

    /// This far back, deflate alone finds nothing that repeats.
    #[test]
    fn what_long_keys_share_is_kept_once_a_block() {
        let mut state = 1u64;
        let characters = std::iter::repeat_with(|| {
            state = state.wrapping_mul(6364136223846793005).wrapping_add(1442695040888963407);
            char::from(b'0' + (state >> 58) as u8)
        });
        let shared: String = characters.take(48_000).collect();
        let keys: Vec<SeriesKey> =
            (0..4 * IN_BLOCK).map(|number| SeriesKey(format!("{shared}{number}").into())).collect();
        let texts = texts_of(&keys);
        assert_eq!(texts.all().collect::<Vec<_>>(), keys);
        assert!(texts.bytes() < 5 * shared.len(), "{} bytes", texts.bytes());
    }
}
