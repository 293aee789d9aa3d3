//! Tells a torn record from a changed one.
//!
//! A crash tears only what was not durable: it cuts the end of the file, or leaves whole sectors with the zeros that
//! they had before. So a record is *changed* if a later watermark says that it was durable, or if whole records follow
//! it and none of its sectors up to the next record is zero. Any other broken record is *torn*: no sender was told that
//! it is durable, and a start drops it. `journal` and `outbox` ask this before they drop anything.

use super::disk::{io_fault, Disk};
use super::records::{self, END, HEAD, HEADER, LAST, MARK, MARK_LENGTHS, OWN};
use super::Fault;
use std::path::Path;

const SECTOR: u64 = 512;
/// How many bytes it checksums in search of whole records. Watermarks are searched for in all of the file.
const EFFORT: usize = 1 << 30;

pub const CHANGED: &str =
    "a record was changed after it was written, and records follow it. Nothing was deleted: restore this file from a copy, \
     or move the folder away and start with an empty one";

/// Fails if the bytes from `at` on, in the last file of its kind, were changed and not torn.
pub fn check_torn(disk: &Disk, path: &Path, at: u64) -> Result<(), Fault> {
    let rest = disk.open(path)?.read_from(at).map_err(io_fault(path))?;
    if was_changed(at, &rest) {
        return Err(Fault::Damaged { path: path.into(), at, what: CHANGED.into() });
    }
    Ok(())
}

fn was_changed(at: u64, rest: &[u8]) -> bool {
    let Some(last) = rest.iter().rposition(|byte| *byte != 0) else {
        return false;
    };
    let mut effort = EFFORT;
    let mut first = None;
    let mut here = 1;
    while here <= last {
        match whole_record(&rest[here..], &mut effort) {
            None => here += 1,
            Some((kind, length)) => {
                first = first.or(Some(here));
                let mut number = &rest[here + HEAD..here + length];
                let durable = records::take_number(&mut number).unwrap_or(0);
                if matches!(kind, MARK | END) && durable > at {
                    return true;
                }
                here += length;
            }
        }
    }
    first.is_some_and(|next| !has_lost_sector(at, &rest[..next]))
}

/// The kind and length of the whole record at the front.
fn whole_record(bytes: &[u8], effort: &mut usize) -> Option<(u8, usize)> {
    let head = bytes.first_chunk::<HEAD>()?;
    let length = records::whole_length(head).filter(|length| *length <= bytes.len())?;
    match head[8] {
        MARK | END if MARK_LENGTHS.contains(&length) => {}
        HEADER | OWN..=LAST if *effort >= length => *effort -= length,
        _ => return None,
    }
    records::is_sound(head, &bytes[HEAD..length]).then_some((head[8], length))
}

fn has_lost_sector(at: u64, bytes: &[u8]) -> bool {
    let end = at + bytes.len() as u64;
    (at / SECTOR..end / SECTOR).any(|sector| {
        let from = (sector * SECTOR).max(at);
        let lost = &bytes[(from - at) as usize..((sector + 1) * SECTOR - at) as usize];
        lost.iter().all(|byte| *byte == 0)
    })
}

#[cfg(test)]
mod tests {
    use super::*;

    fn record(kind: u8, length: usize) -> Vec<u8> {
        let mut out = Vec::new();
        records::put(&mut out, kind, &[&vec![b'x'; length]]);
        out
    }

    #[test]
    fn a_record_is_changed_where_a_later_mark_calls_it_durable() {
        let mut rest = vec![0; 2000];
        records::put(&mut rest, MARK, &[&99u64.to_le_bytes()]);
        assert!(!was_changed(99, &rest), "the mark ends before it");
        assert!(was_changed(98, &rest));
    }

    #[test]
    fn a_record_is_changed_where_whole_ones_follow_and_no_sector_is_lost() {
        let mut rest = record(OWN, 1500);
        rest[100] ^= 1;
        assert!(!was_changed(300, &rest), "nothing follows");
        rest.extend(record(OWN, 20));
        assert!(was_changed(300, &rest));
        rest[212..724].fill(0);
        assert!(!was_changed(300, &rest), "bytes 512 to 1024 of the file were lost");
        assert!(was_changed(301, &rest), "no whole sector was");
    }

    #[test]
    fn a_changed_length_is_found_too() {
        let mut rest = [record(OWN, 40), record(OWN + 1, 30)].concat();
        rest[1] = 0x77;
        assert!(was_changed(0, &rest));
        rest[0..4].fill(0xff);
        assert!(was_changed(0, &rest));
    }

    #[test]
    fn zeros_and_cut_records_are_torn() {
        assert!(!was_changed(0, &[]));
        assert!(!was_changed(7, &[0; 5000]));
        let whole = record(OWN, 700);
        (0..whole.len()).for_each(|cut| assert!(!was_changed(41, &whole[..cut])));
    }
}
