//! Requests of one point, of which most have all but the point in common with the one before. So they can be read together.

use super::metrics;
use crate::otlp::json::{plain_length, Document};
use bytes::Bytes;

/// What is around the point of a request.
pub struct Around<'t> {
    before: &'t [u8],
    behind: &'t [u8],
    is_of_sum: bool,
}

impl<'t> Around<'t> {
    /// None where the request is of another form.
    pub fn of(text: &'t [u8]) -> Option<Around<'t>> {
        let document = Document::parse(text).ok()?;
        let [sum, histogram] = metrics(&document).next()?.named(["sum", "histogram"])?;
        let point = sum.or(histogram)?.list("dataPoints").next()?.range();
        let (before, behind) = (&text[..point.start], &text[point.end..]);
        Some(Around { before, behind, is_of_sum: sum.is_some() })
    }

    /// Whether all points that have it in common say as much.
    pub fn is_of_sum(&self) -> bool {
        self.is_of_sum
    }

    /// The point of another request, where all around it is the same: whatever that says, it says nothing else of it.
    pub fn point<'o>(&self, other: &'o [u8]) -> Option<&'o [u8]> {
        let point = other.strip_prefix(self.before)?.strip_suffix(self.behind)?;
        is_one(point).then_some(point)
    }

    /// Those of the first of these, as far as all around them is the same.
    pub fn points<'o>(&self, texts: &'o [Bytes]) -> impl Iterator<Item = &'o [u8]> + use<'_, 't, 'o> {
        texts.iter().map_while(|text| self.point(text))
    }

    /// A request that has these points, in this order.
    pub fn with(&self, points: &[&[u8]]) -> Vec<u8> {
        [self.before, &points.join(&b','), self.behind].concat()
    }
}

/// Whether this is one value with brackets, where it is JSON: the first of them is closed by the last byte, and by none before.
fn is_one(text: &[u8]) -> bool {
    let (mut depth, mut at) = (0u32, 0);
    while let Some(byte) = text.get(at) {
        at += 1;
        match byte {
            b'{' | b'[' => depth += 1,
            b'}' | b']' if depth > 1 => depth -= 1,
            b'}' | b']' => return depth == 1 && at == text.len(),
            b'"' => at += text_length(&text[at..]),
            _ => {}
        }
        if depth == 0 {
            return false;
        }
    }
    false
}

/// Up to behind the quote that ends a text.
fn text_length(text: &[u8]) -> usize {
    let mut at = 0;
    loop {
        at += plain_length(&text[at..]);
        match text.get(at) {
            Some(b'\\') if at + 1 < text.len() => at += 2,
            Some(b'"') => return at + 1,
            _ => return text.len(), // no JSON
        }
    }
}

#[cfg(test)]
mod tests;
