//! Bytes that have a number each. Those of a level have most in common, and there are many: so each is kept as what it has beside
//! one that is kept whole.

use crate::storage::shared_ends;
use hashbrown::raw::RawTable;

/// Who asks has the hash, by a key that nobody who posts knows.
#[derive(Default)]
pub struct KnownBytes {
    /// Where each is among all, by its hash.
    places: RawTable<u32>,
    all: Vec<Known>,
    /// Their own bytes, one behind the other.
    own: Vec<u8>,
    /// The last one that is kept whole.
    whole: u32,
}

/// There is no room for 2^32 of them, and none is so long.
struct Known {
    hash: u64,
    number: u32,
    /// Which one it has its ends of, which is kept whole: itself where it is.
    of: u32,
    begin: u32,
    end: u32,
    /// Where its own bytes end.
    at: usize,
}

impl KnownBytes {
    #[inline]
    pub fn find(&self, hash: u64, bytes: &[u8]) -> Option<u32> {
        let place = self.places.get(hash, |place| self.is(*place, bytes))?;
        Some(self.all[*place as usize].number)
    }

    fn is(&self, place: u32, bytes: &[u8]) -> bool {
        let (known, own) = (&self.all[place as usize], self.own(place));
        if known.of == place {
            return own == bytes;
        }
        let whole = self.own(known.of);
        let (begin, end) = (&whole[..known.begin as usize], &whole[whole.len() - known.end as usize..]);
        let rest = bytes.strip_prefix(begin).and_then(|rest| rest.strip_suffix(end));
        rest.is_some_and(|rest| rest == own)
    }

    fn own(&self, place: u32) -> &[u8] {
        let begin = place.checked_sub(1).map_or(0, |before| self.all[before as usize].at);
        &self.own[begin..self.all[place as usize].at]
    }

    /// Puts what is not there yet.
    pub fn put(&mut self, hash: u64, bytes: &[u8], number: u32) {
        let place = self.all.len() as u32;
        let whole = if place == 0 { &[] } else { self.own(self.whole) };
        let (mut begin, mut end) = shared_ends(whole, bytes);
        if 2 * (begin + end) < bytes.len() {
            (begin, end, self.whole) = (0, 0, place);
        }
        self.own.extend_from_slice(&bytes[begin..bytes.len() - end]);
        let (begin, end, at) = (begin as u32, end as u32, self.own.len());
        self.all.push(Known { hash, number, of: self.whole, begin, end, at });
        self.places.insert(hash, place, |place| self.all[*place as usize].hash);
    }
}

#[cfg(test)]
mod tests;
