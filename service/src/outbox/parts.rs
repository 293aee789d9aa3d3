//! Splits a snapshot or a commit that is longer than a record may be: everything but its end is in part records before
//! it. A snapshot of over 2 GiB has for example 100,000 series with keys of 40 KB that share little.

use super::rows::PART;
use crate::storage::records::{put, Next, Reader, LARGEST};
use crate::storage::Fault;

/// The bytes that one record has room for.
const ROOM: usize = if cfg!(test) { 200 } else { LARGEST - 1 };

/// Appends a record, with parts before it if it is too long.
pub fn put_long(out: &mut Vec<u8>, kind: u8, mut bytes: &[u8]) {
    while let Some((part, rest)) = bytes.split_at_checked(ROOM).filter(|(_, rest)| !rest.is_empty()) {
        put(out, PART, &[part]);
        bytes = rest;
    }
    put(out, kind, &[bytes]);
}

/// The next record, with the parts before it. If the file stops or ends after parts alone, the caller gets just that.
pub fn next(reader: &mut Reader) -> Result<Next, Fault> {
    let mut whole = Vec::new();
    loop {
        match reader.next()? {
            Next::Record { kind: PART, mut bytes, .. } => whole.append(&mut bytes),
            Next::Record { at, kind, mut bytes } if !whole.is_empty() => {
                whole.append(&mut bytes);
                return Ok(Next::Record { at, kind, bytes: whole });
            }
            next => return Ok(next),
        }
    }
}
