//! Maps each byte of a file to the piece that has it.

use std::collections::BTreeMap;

/// By where they begin, without overlaps.
#[derive(Default)]
pub struct Extents(BTreeMap<u64, Extent>);

#[derive(Clone, Copy)]
struct Extent {
    end: u64,
    piece: u64,
    /// The offset in the piece.
    from: u64,
}

/// Bytes of a piece. Piece 0 stands for zeros.
#[derive(Debug, PartialEq, Eq)]
pub struct Part {
    pub piece: u64,
    pub from: usize,
    pub length: usize,
}

impl Extents {
    /// The file's length.
    pub fn end(&self) -> u64 {
        self.0.last_key_value().map_or(0, |(_, last)| last.end)
    }

    /// The bytes from `at` on now come from this piece.
    pub fn put(&mut self, at: u64, length: u64, piece: u64, from: u64) {
        let end = at + length;
        self.clear(at, end);
        if let Some((begin, before)) = self.0.range_mut(..at).next_back() {
            let goes_on = before.end == at && before.piece == piece && before.from + (at - begin) == from;
            if goes_on {
                before.end = end;
                return;
            }
        }
        self.0.insert(at, Extent { end, piece, from });
    }

    fn clear(&mut self, at: u64, end: u64) {
        if let Some((begin, before)) = self.0.range_mut(..at).next_back() {
            let (begin, whole) = (*begin, *before);
            before.end = whole.end.min(at);
            self.keep_behind(end, begin, whole);
        }
        while let Some((begin, inside)) = self.0.range(at..end).next() {
            let (begin, inside) = (*begin, *inside);
            self.0.remove(&begin);
            self.keep_behind(end, begin, inside);
        }
    }

    fn keep_behind(&mut self, end: u64, begin: u64, of: Extent) {
        if of.end > end {
            let from = of.from + (end - begin);
            self.0.insert(end, Extent { from, ..of });
        }
    }

    /// The parts from `at` on, up to `most` bytes.
    pub fn parts(&self, at: u64, most: u64) -> impl Iterator<Item = Part> + '_ {
        let end = self.end().min(at.saturating_add(most));
        let first = self.0.range(..=at).next_back().map_or(at, |(begin, _)| *begin);
        let mut extents = self.0.range(first..).peekable();
        let mut next = at;
        std::iter::from_fn(move || {
            while extents.peek().is_some_and(|(_, extent)| extent.end <= next) {
                extents.next();
            }
            let (begin, extent) = extents.peek().filter(|_| next < end)?;
            let (piece, from, until) = match **begin <= next {
                true => (extent.piece, extent.from + (next - **begin), extent.end),
                false => (0, 0, **begin),
            };
            let length = until.min(end) - next;
            next += length;
            Some(Part { piece, from: from as usize, length: length as usize })
        })
    }
}
