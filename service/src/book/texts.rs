//! The requests that name series, by number. Series of one post get consecutive numbers and have most of their text in
//! common, so each request is stored as its difference from an earlier one. `names` owns it.

use crate::storage::shared_ends;
use std::ops::Range;

/// The most texts that are read to put one together.
const TOGETHER: usize = 4;
/// A text refers to a longer chain only if that saves so many bytes.
const WORTH: usize = 16;

/// All texts by number. A text is never changed or removed.
#[derive(Default)]
pub(super) struct Texts {
    pieces: Vec<Piece>,
    /// The middle part of each text, one after the other.
    bytes: Vec<u8>,
    /// The last text, preceded by those that it is made of, each with its number.
    last: Vec<(u32, Vec<u8>)>,
}

/// There is no room for 2^32 texts, and no text is so long.
struct Piece {
    /// The number of the text that shares its beginning and end; its own number if there is none.
    of: u32,
    /// How many bytes at the beginning, and at the end, it shares with that text.
    begin: u32,
    end: u32,
    /// The end of its own bytes in `bytes`.
    at: usize,
}

impl Texts {
    pub fn count(&self) -> usize {
        self.pieces.len()
    }

    pub fn push(&mut self, text: &[u8]) {
        let number = self.count() as u32;
        let (made_of, (begin, end)) = self.nearest(text);
        let of = made_of.map_or(number, |place| self.last[place].0);
        self.bytes.extend_from_slice(&text[begin..text.len() - end]);
        let at = self.bytes.len();
        self.pieces.push(Piece { of, begin: begin as u32, end: end as u32, at });
        self.last.truncate(made_of.map_or(0, |place| place + 1));
        self.last.push((number, text.to_vec()));
    }

    /// The index in `last` of the text that leaves the least, and how many bytes both have in common.
    fn nearest(&self, text: &[u8]) -> (Option<usize>, (usize, usize)) {
        let mut found = (None, (0, 0));
        for (place, (_, other)) in self.last.iter().enumerate().take(TOGETHER - 1) {
            let shared = shared_ends(other, text);
            if shared.0 + shared.1 >= found.1 .0 + found.1 .1 + WORTH {
                found = (Some(place), shared);
            }
        }
        found
    }

    pub fn get(&self, number: usize) -> Option<Vec<u8>> {
        let length = self.length(number)?;
        let mut text = Vec::with_capacity(length);
        self.put(number, 0..length, &mut text);
        Some(text)
    }

    /// Appends this range of a text.
    fn put(&self, number: usize, wanted: Range<usize>, out: &mut Vec<u8>) {
        let (piece, own) = (&self.pieces[number], self.between(number));
        let (of, begin) = (piece.of as usize, piece.begin as usize);
        let end = begin + own.len();
        if wanted.start < begin {
            self.put(of, wanted.start..wanted.end.min(begin), out);
        }
        let (from, to) = (wanted.start.max(begin), wanted.end.min(end));
        out.extend_from_slice(own.get(from - begin..to.saturating_sub(begin)).unwrap_or_default());
        if wanted.end > end {
            let behind = self.length_of(of) - piece.end as usize;
            self.put(of, behind + wanted.start.max(end) - end..behind + wanted.end - end, out);
        }
    }

    pub fn length(&self, number: usize) -> Option<usize> {
        (number < self.count()).then(|| self.length_of(number))
    }

    fn length_of(&self, number: usize) -> usize {
        let piece = &self.pieces[number];
        piece.begin as usize + self.between(number).len() + piece.end as usize
    }

    fn between(&self, number: usize) -> &[u8] {
        let begin = number.checked_sub(1).map_or(0, |before| self.pieces[before].at);
        &self.bytes[begin..self.pieces[number].at]
    }
}

#[cfg(test)]
mod tests {
    use super::*;

    #[test]
    fn each_text_is_as_it_was_put() {
        let mut all: Vec<Vec<u8>> = (0..100)
            .map(|number| format!("{{\"name\":\"{number}\",\"of\":{}}}", number / 7).into())
            .collect();
        let long = |number: usize| "x".repeat(40 * (number % 5)) + &"y".repeat(30 * (number / 5 % 7));
        all.extend((0..100).map(|number| (long(number) + &long(3 * number)).into()));
        all.extend([&b""[..], b"a", b"aa", b"aaa", b"a", b"", b"b"].map(<[u8]>::to_vec));
        let mut texts = Texts::default();
        all.iter().for_each(|text| texts.push(text));
        for (number, text) in all.iter().enumerate() {
            assert_eq!(texts.get(number).as_ref(), Some(text), "{number}");
            assert_eq!(texts.length(number), Some(text.len()));
        }
        assert_eq!((texts.count(), texts.get(all.len()), texts.length(all.len())), (207, None, None));
    }

    /// Two resources with ten metrics each, of a hundred series each.
    #[test]
    fn what_texts_have_in_common_is_kept_once() {
        let mut texts = Texts::default();
        for number in 0..2000 {
            let [resource, metric] = [number / 1000, number / 100].map(|part| part.to_string().repeat(400));
            texts.push(format!("{resource},{metric},{number:04},{}", "x".repeat(400)).as_bytes());
        }
        let own = texts.bytes.len();
        assert!(own < 2000 * 4 + 20 * 1000 + 2 * 2000, "{own}");
        let made_of = |number: u32| {
            let before = |number: &u32| Some(texts.pieces[*number as usize].of).filter(|of| of != number);
            std::iter::successors(Some(number), before).count()
        };
        assert_eq!((0..2000).map(made_of).max(), Some(TOGETHER));
    }
}
