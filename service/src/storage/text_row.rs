//! Delta-codes a sequence of texts that mostly differ in little. The journal writes definitions of series in this way,
//! and the outbox keeps series keys so.
//!
//! Each text is written as the number of bytes that it shares with the start of the previous text, the number that it
//! shares with the end of the rest of that text, the length of its own bytes, and these bytes. Numbers are coded as in
//! `journal/packed`.

use crate::journal::{put_number, take_number};

/// The previous text, against which the next one is coded.
#[derive(Default)]
pub struct TextRow(Vec<u8>);

impl TextRow {
    /// Appends the next text.
    pub fn put(&mut self, out: &mut Vec<u8>, text: &[u8]) {
        let (begin, end) = shared_ends(&self.0, text);
        let own = &text[begin..text.len() - end];
        [begin, end, own.len()].iter().for_each(|number| put_number(out, *number as u64));
        out.extend_from_slice(own);
        self.0.clear();
        self.0.extend_from_slice(text);
    }

    /// Takes the next text off the front; none if there is no valid one.
    pub fn take(&mut self, bytes: &mut &[u8]) -> Option<&[u8]> {
        let mut number = || usize::try_from(take_number(bytes)?).ok();
        let (begin, end, length) = (number()?, number()?, number()?);
        let own = bytes.split_off(..length)?;
        let end = self.0.len().checked_sub(end).filter(|end| begin <= *end)?;
        self.0.splice(begin..end, own.iter().copied());
        Some(&self.0)
    }
}

/// How many bytes two texts share at the start, and how many at the end of what follows that.
pub fn shared_ends(one: &[u8], other: &[u8]) -> (usize, usize) {
    let steps = one.as_chunks::<STEP>().0.iter().zip(other.as_chunks().0);
    let begin = alike(steps) * STEP;
    let begin = begin + alike(one[begin..].iter().zip(&other[begin..]));
    let (one, other) = (&one[begin..], &other[begin..]);
    let steps = one.as_rchunks::<STEP>().1.iter().rev().zip(other.as_rchunks().1.iter().rev());
    let end = alike(steps) * STEP;
    let rest = one[..one.len() - end].iter().rev().zip(other[..other.len() - end].iter().rev());
    (begin, end + alike(rest))
}

/// How many bytes are compared at once.
const STEP: usize = 16;

fn alike<P: PartialEq>(pairs: impl Iterator<Item = (P, P)>) -> usize {
    pairs.take_while(|(one, other)| one == other).count()
}

#[cfg(test)]
mod tests {
    use super::*;

    fn written(texts: &[&[u8]]) -> Vec<u8> {
        let (mut row, mut out) = (TextRow::default(), Vec::new());
        texts.iter().for_each(|text| row.put(&mut out, text));
        out
    }

    #[test]
    fn each_text_is_read_as_it_was_written() {
        let texts: [&[u8]; 10] = [
            b"",
            b"{\"a\":1}",
            b"{\"a\":1}",
            b"{\"a\":22}",
            b"{\"a\":2}",
            "{\"\u{e4}\":2}".as_bytes(),
            "{\"\u{f6}\":2}".as_bytes(),
            b"aaa",
            b"aaaaa",
            b"a",
        ];
        let (mut row, written) = (TextRow::default(), written(&texts));
        let mut left = &written[..];
        texts.iter().for_each(|text| assert_eq!(row.take(&mut left), Some(*text)));
        assert!(left.is_empty() && row.take(&mut left).is_none());
    }

    #[test]
    fn what_a_text_shares_with_the_one_before_is_not_written_again() {
        let first = [&[32, 32, 32 + 11], &b"{\"k\":\"one\"}"[..]].concat();
        let second = [&[32 + 6, 32 + 2, 32 + 3], &b"two"[..]].concat();
        assert_eq!(written(&[b"{\"k\":\"one\"}", b"{\"k\":\"two\"}"]), [first, second].concat());
    }

    /// For texts of all lengths, compared with a search byte by byte.
    #[test]
    fn what_two_share_is_counted_once() {
        let text = |length: usize, other: usize| {
            (0..length)
                .map(|place| if place == other { b'.' } else { b'a' + (place % 3) as u8 })
                .collect::<Vec<_>>()
        };
        for (one, other) in (0..70).flat_map(|one| [(one, 7), (one, 33), (64, one), (48, one)]) {
            let (one, other) = (text(one, 20), text(other, one / 2));
            let begin = one.iter().zip(&other).take_while(|(one, other)| one == other).count();
            let ends = one[begin..].iter().rev().zip(other[begin..].iter().rev());
            let end = ends.take_while(|(one, other)| one == other).count();
            assert_eq!(shared_ends(&one, &other), (begin, end), "{one:?} {other:?}");
        }
    }

    #[test]
    fn what_shares_more_than_there_is_is_no_text() {
        for shares in [[3, 0], [0, 3], [1, 2], [2, 1]] {
            let mut row = TextRow::default();
            assert_eq!(row.take(&mut &[32, 32, 34, b'a', b'b'][..]), Some(&b"ab"[..]));
            let bytes = [32 + shares[0], 32 + shares[1], 33, b'c'];
            assert_eq!(row.take(&mut &bytes[..]), None, "{shares:?}");
        }
        let mut row = TextRow::default();
        row.take(&mut &[32, 32, 34, b'a', b'b'][..]).unwrap();
        assert_eq!(row.take(&mut &[33, 33, 33, b'c'][..]), Some(&b"acb"[..]));
        assert_eq!(row.take(&mut &[33, 33, 34, b'c'][..]), None, "it is cut");
    }
}
