//! The pieces of a shard that were read or written last: reads go on in the same piece, and what was just flushed is
//! delivered.

use super::files::Bytes;
use std::collections::{HashMap, VecDeque};

/// The most bytes for a shard; a single longer piece may stay too.
const MOST: usize = 4 << 20;

#[derive(Default)]
pub struct Cache {
    pieces: HashMap<u64, Bytes>,
    /// Piece numbers, oldest first.
    order: VecDeque<u64>,
    size: usize,
}

impl Cache {
    pub fn put(&mut self, number: u64, bytes: Bytes) {
        self.size += bytes.len();
        match self.pieces.insert(number, bytes) {
            Some(same) => self.size -= same.len(), // two callers fetched the same piece
            None => self.order.push_back(number),
        }
        while self.size > MOST && self.order.len() > 1 {
            let oldest = self.order.pop_front().and_then(|oldest| self.pieces.remove(&oldest));
            self.size -= oldest.map_or(0, |oldest| oldest.len());
        }
    }

    pub fn find(&self, number: u64) -> Option<Bytes> {
        self.pieces.get(&number).cloned()
    }
}

#[cfg(test)]
mod tests {
    use super::*;
    use std::time::{Duration, Instant};

    #[test]
    fn the_last_pieces_are_found() {
        let mut cache = Cache::default();
        let piece = |length: usize| Bytes::new(vec![7; length]);
        for number in 0..9 {
            cache.put(number, piece(MOST / 4));
            cache.put(number, piece(MOST / 4)); // by a second caller that fetched it too
        }
        let found: Vec<u64> = (0..9).filter(|number| cache.find(*number).is_some()).collect();
        assert_eq!(found, [5, 6, 7, 8]);
        cache.put(9, piece(2 * MOST));
        assert!(cache.find(8).is_none() && cache.find(9).is_some(), "a long one is there alone");
        cache.put(10, piece(1));
        assert_eq!((cache.find(9), cache.size, cache.order.len()), (None, 1, 1));
    }

    /// As when a takeover reads a journal after a day of single posts: in a list, each piece would be searched for.
    #[test]
    fn short_pieces_are_found_as_fast_however_many_there_are() {
        let mut cache = Cache::default();
        let many = MOST as u64 / 64;
        (0..many).for_each(|number| cache.put(number, Bytes::new(vec![0; 64])));
        let began = Instant::now();
        assert!((0..many).all(|number| cache.find(number).is_some()));
        let took = began.elapsed();
        assert!(took < Duration::from_secs(1), "{took:?} for {many} pieces");
    }
}
