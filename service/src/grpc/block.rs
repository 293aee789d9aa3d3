//! Checks a block of headers before h2 decodes it: a block with a `:status` is never passed on. `guard` calls it.
//!
//! A request has no `:status`, and h2 of the release used here panics at one of 1xx, which would end the process. The
//! block is decoded only as far as needed to find where its headers end and what they are called (RFC 7541, 6).

/// Flags of HEADERS frames.
const END_HEADERS: u8 = 4;
const PADDED: u8 = 8;
const PRIORITY: u8 = 32;
/// The length of the priority fields.
const PRIORITY_LENGTH: usize = 5;

/// The indexes of `:status` in HPACK's static table.
const PLACES: std::ops::RangeInclusive<usize> = 8..=14;
const NAME: &[u8] = b":status";
/// The same by the Huffman code of RFC 7541; it ends two bits before the last byte does.
const NAME_PACKED: [u8; 5] = [0xb8, 0x84, 0x8d, 0x36, 0xa3];

/// The headers block that is being received, frame by frame.
#[derive(Default)]
pub struct Block {
    bytes: Vec<u8>,
    frames: usize,
    flags: u8,
}

impl Block {
    /// Begins a block with a HEADERS frame.
    pub fn begins(&mut self, flags: u8) {
        self.bytes.clear();
        (self.frames, self.flags) = (1, flags);
    }

    /// Continues it with a CONTINUATION frame, which has neither padding nor a priority.
    pub fn goes_on(&mut self, flags: u8) {
        self.frames += 1;
        self.flags = flags & END_HEADERS;
    }

    pub fn frames(&self) -> usize {
        self.frames
    }

    pub fn length(&self) -> usize {
        self.bytes.len()
    }

    /// Adds a part of a frame.
    pub fn put(&mut self, part: &[u8]) {
        self.bytes.extend_from_slice(part);
    }

    /// Called at the end of each frame; whether h2 may read what has come so far.
    pub fn may_be_read(&mut self) -> bool {
        if self.unframe().is_none() {
            return false;
        }
        let is_whole = self.flags & END_HEADERS != 0;
        !is_whole || is_of_request(&std::mem::take(&mut self.bytes)) == Some(true)
    }

    /// Removes padding and priority from the first frame.
    fn unframe(&mut self) -> Option<()> {
        let padding = match self.flags & PADDED {
            0 => 0,
            _ => 1 + usize::from(*self.bytes.first()?),
        };
        let before = padding.min(1)
            + match self.flags & PRIORITY {
                0 => 0,
                _ => PRIORITY_LENGTH,
            };
        let end = (self.bytes.len() + padding.min(1)).checked_sub(padding)?;
        self.bytes.truncate(end);
        (before <= end).then(|| drop(self.bytes.drain(..before)))
    }
}

/// Whether a block has no `:status`; none if it can't be decoded.
fn is_of_request(block: &[u8]) -> Option<bool> {
    let mut rest = Rest(block);
    while let Some(first) = rest.0.first() {
        let (prefix, is_literal) = match first {
            128.. => (7, false),
            64..=127 => (6, true),
            32..=63 => {
                rest.number(5)?; // the size of the connection's dynamic table
                continue;
            }
            _ => (4, true),
        };
        let place = rest.number(prefix)?;
        let is_status = match (place, is_literal) {
            (0, true) => is_name(rest.text()?),
            _ => PLACES.contains(&place),
        };
        if is_status {
            return Some(false);
        }
        if is_literal {
            rest.text()?;
        }
    }
    Some(true)
}

fn is_name((is_packed, name): (bool, &[u8])) -> bool {
    let [whole @ .., last] = NAME_PACKED;
    match is_packed {
        true => name.starts_with(&whole) && name.get(whole.len()).is_some_and(|byte| byte >> 2 == last >> 2),
        false => name == NAME,
    }
}

/// The part of the block that is not decoded yet.
struct Rest<'a>(&'a [u8]);

impl<'a> Rest<'a> {
    fn byte(&mut self) -> Option<u8> {
        let (byte, rest) = self.0.split_first()?;
        self.0 = rest;
        Some(*byte)
    }

    /// Decodes an integer with a prefix of so many bits. It may have as many bytes as h2 accepts.
    fn number(&mut self, prefix: u32) -> Option<usize> {
        let most = (1 << prefix) - 1;
        let first = usize::from(self.byte()?) & most;
        if first < most {
            return Some(first);
        }
        let mut number = most;
        for place in 0..4 {
            let byte = self.byte()?;
            number += usize::from(byte & 127) << (7 * place);
            if byte < 128 {
                return Some(number);
            }
        }
        None
    }

    /// A string literal: whether it is Huffman-coded, and its bytes.
    fn text(&mut self) -> Option<(bool, &'a [u8])> {
        let is_packed = *self.0.first()? >= 128;
        let length = self.number(7)?;
        if length > self.0.len() {
            return None;
        }
        let (text, rest) = self.0.split_at(length);
        self.0 = rest;
        Some((is_packed, text))
    }
}

#[cfg(test)]
mod tests {
    use super::*;

    fn text(text: &[u8], packed: u8) -> Vec<u8> {
        [&[packed | text.len() as u8][..], text].concat()
    }

    /// The header `a: b`, in the representation that `first` selects.
    fn other(first: u8) -> Vec<u8> {
        [vec![first], text(b"a", 0), text(b"b", 0)].concat()
    }

    #[test]
    fn a_status_is_seen_however_it_is_written() {
        let method = vec![0x83];
        let long = [vec![0x0f, 0x80 | 46, 0], text(b"x", 0)].concat(); // index 61 as the name
        let sound = [vec![0x3f, 0xe1, 31], method, other(0), other(0x10), other(0x40), long].concat();
        assert_eq!(is_of_request(&sound), Some(true));
        let literal = |first: u8, name: Vec<u8>| [vec![first], name, text(b"100", 0)].concat();
        let mut statuses = vec![vec![0x88], vec![0x8e]];
        for (first, place) in [(0, 8), (0, 14), (0x10, 9), (0x40, 8)] {
            statuses.push([vec![first | place], text(b"100", 0)].concat());
        }
        for first in [0, 0x10, 0x40] {
            statuses.push(literal(first, text(NAME, 0)));
            statuses.push(literal(first, text(&NAME_PACKED, 128)));
        }
        for status in statuses {
            assert_eq!(is_of_request(&status), Some(false), "{status:?}");
            let behind = [&sound[..], &status, &other(0)].concat();
            assert_eq!(is_of_request(&behind), Some(false), "{status:?}");
        }
    }

    #[test]
    fn what_can_not_be_read_is_not_passed_on() {
        let whole = other(0);
        for end in 1..whole.len() {
            assert_eq!(is_of_request(&whole[..end]), None, "{end}");
        }
        assert_eq!(is_of_request(&[0x7f, 0xff, 0xff, 0xff, 0xff, 0]), None);
    }

    #[test]
    fn what_is_around_headers_is_left_out() {
        let read = |flags: u8, bytes: &[u8]| {
            let mut block = Block::default();
            block.begins(flags | END_HEADERS);
            block.put(bytes);
            block.may_be_read()
        };
        assert!(read(0, &[0x83]) && !read(0, &[0x88]));
        assert!(read(PADDED, &[1, 0x83, 0x88]) && !read(PADDED, &[1, 0x88, 0x83]));
        assert!(
            read(PRIORITY, &[0x88, 0x88, 0x88, 0x88, 0x88, 0x83]) && !read(PRIORITY, &[0, 0, 0, 0, 0, 0x88])
        );
        assert!(read(PADDED | PRIORITY, &[1, 0, 0, 0, 0, 0, 0x83, 0x88]));
        assert!(read(PADDED, &[0]) && !read(PADDED, &[1]) && !read(PADDED, &[]) && !read(PRIORITY, &[0; 4]));
    }

    #[test]
    fn a_block_of_several_frames_is_one() {
        let status = [vec![0], text(NAME, 0), text(b"100", 0)].concat();
        for cut in 0..status.len() {
            let mut block = Block::default();
            block.begins(0);
            block.put(&status[..cut]);
            assert!(block.may_be_read(), "{cut}");
            block.goes_on(END_HEADERS);
            block.put(&status[cut..]);
            assert!(!block.may_be_read(), "{cut}");
        }
    }
}
