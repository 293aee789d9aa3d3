//! A batch as it is written: each piece is packed if that makes it shorter.

use super::files::{Batch, Bytes, Piece};
use crate::work::locked;
use flate2::read::DeflateDecoder;
use flate2::{Compress, Compression, FlushCompress, Status};
use std::io::{self, Read};
use std::sync::Mutex;

/// For shorter pieces, such as a few posts of the journal, packing saves less than a tenth.
const LEAST: usize = 128;
/// How many idle packers are kept; each takes 300 KB.
const MOST_PACKERS: usize = 8;

/// Idle packers: making one takes several times as long as packing something short.
static PACKERS: Mutex<Vec<Compress>> = Mutex::new(Vec::new());

pub struct Packed {
    pub gone: Vec<i64>,
    pub named: Vec<(i64, String)>,
    pub pieces: Vec<PackedPiece>,
    /// The bytes of all pieces.
    pub size: usize,
}

pub struct PackedPiece {
    pub number: i64,
    pub file: i64,
    pub place: i64,
    /// The length before packing; it differs from the length of `bytes` if the piece is packed.
    pub length: i32,
    pub bytes: Bytes,
}

impl Packed {
    /// Numbers stay below 2^63, as terms stay below 2^23.
    pub fn of(batch: &Batch) -> Packed {
        let pieces = batch.pieces.iter().map(|(number, piece)| PackedPiece::of(*number, piece));
        let pieces: Vec<PackedPiece> = pieces.collect();
        Packed {
            gone: batch.gone.iter().map(|number| *number as i64).collect(),
            named: batch.named.iter().map(|(number, name)| (*number as i64, name.clone())).collect(),
            size: pieces.iter().map(|piece| piece.bytes.len()).sum(),
            pieces,
        }
    }

    /// Whether it has no names and no deletions.
    pub fn only_appends(&self) -> bool {
        self.gone.is_empty() && self.named.is_empty()
    }
}

impl PackedPiece {
    fn of(number: u64, piece: &Piece) -> PackedPiece {
        PackedPiece {
            number: number as i64,
            file: piece.file as i64,
            place: piece.at as i64,
            length: piece.bytes.len() as i32,
            bytes: pack(&piece.bytes),
        }
    }
}

/// Packs the bytes if that makes them shorter.
fn pack(bytes: &Bytes) -> Bytes {
    if bytes.len() < LEAST {
        return bytes.clone();
    }
    let kept = locked(&PACKERS).pop();
    let mut packer = kept.unwrap_or_else(|| Compress::new(Compression::fast(), false));
    packer.reset();
    // The buffer has no room for a longer result.
    let mut packed = Vec::with_capacity(bytes.len());
    let done = packer.compress_vec(bytes, &mut packed, FlushCompress::Finish);
    let mut packers = locked(&PACKERS);
    if packers.len() < MOST_PACKERS {
        packers.push(packer);
    }
    match done {
        Ok(Status::StreamEnd) if packed.len() < bytes.len() => packed.into(),
        _ => bytes.clone(),
    }
}

/// Unpacks a piece that has this length unpacked.
pub fn unpacked(bytes: &[u8], length: usize) -> io::Result<Vec<u8>> {
    if bytes.len() == length {
        return Ok(bytes.into());
    }
    let mut whole = Vec::with_capacity(length);
    DeflateDecoder::new(bytes).take(length as u64 + 1).read_to_end(&mut whole)?;
    match whole.len() == length {
        true => Ok(whole),
        false => Err(io::ErrorKind::InvalidData.into()),
    }
}

#[cfg(test)]
mod tests {
    use super::*;
    use crate::storage::test_random::TestRandom;
    use std::sync::Arc;

    fn of(length: usize, different: u64, chance: &mut TestRandom) -> Bytes {
        Arc::new((0..length).map(|_| chance.below(different) as u8).collect())
    }

    #[test]
    fn what_is_short_or_gets_no_shorter_stays_as_it_is_and_the_rest_comes_back() {
        let mut chance = TestRandom(1);
        for length in [0, 1, LEAST - 1, LEAST, 300, 5_000, 200_000] {
            for different in [1, 4, 256] {
                let bytes = of(length, different, &mut chance);
                let packed = pack(&bytes);
                let is_packed = packed.len() < length;
                assert_eq!(is_packed, length >= LEAST && different < 256, "{length} {different}");
                assert!(is_packed || Arc::ptr_eq(&packed, &bytes));
                assert_eq!(unpacked(&packed, length).unwrap(), *bytes);
            }
        }
    }

    /// What a packer has packed before does not influence its output.
    #[test]
    fn a_packer_is_kept_and_packs_as_a_new_one_does() {
        let mut chance = TestRandom(2);
        for length in (LEAST..3_000).step_by(97) {
            let bytes = of(length, 8, &mut chance);
            let mut new = Vec::with_capacity(length);
            let done = Compress::new(Compression::fast(), false).compress_vec(
                &bytes,
                &mut new,
                FlushCompress::Finish,
            );
            assert_eq!(done.unwrap(), Status::StreamEnd);
            assert_eq!(*pack(&bytes), new);
        }
        assert!((1..=MOST_PACKERS).contains(&locked(&PACKERS).len()));
    }
}
