//! Keeps a copy of the bytes that a start drops from a file.

use crate::storage::disk::{io_fault, Disk};
use crate::storage::torn_tail::CHANGED;
use crate::storage::Fault;
use std::path::{Path, PathBuf};

/// Bytes that a start dropped from a file. No sender was told that they are durable.
#[derive(Clone, Debug, PartialEq, Eq)]
pub struct Dropped {
    pub file: PathBuf,
    /// The offset of the first byte, and how many bytes there are up to the last that is not zero.
    pub at: u64,
    pub bytes: u64,
    pub kept: PathBuf,
}

impl std::fmt::Display for Dropped {
    fn fmt(&self, out: &mut std::fmt::Formatter<'_>) -> std::fmt::Result {
        let (file, kept) = (self.file.display(), self.kept.display());
        let (at, bytes) = (self.at, self.bytes);
        write!(
            out,
            "{file}, byte {at}: {bytes} bytes of an incomplete record were dropped, as after a loss of power; a copy is in \
             {kept}"
        )
    }
}

/// Copies the bytes from `at` on, without zeros at the end, durably into a file beside this one. In a shard store,
/// which tears nothing, such bytes are a fault.
pub fn keep_aside(disk: &Disk, path: &Path, at: u64) -> Result<Option<Dropped>, Fault> {
    let mut rest = disk.open(path)?.read_from(at).map_err(io_fault(path))?;
    let Some(last) = rest.iter().rposition(|byte| *byte != 0) else {
        return Ok(None);
    };
    if disk.keeps_order() {
        let (path, what) = (path.into(), CHANGED.into());
        return Err(Fault::Damaged { path, at, what });
    }
    rest.truncate(last + 1);
    let stem = path.file_stem().unwrap_or_default().to_string_lossy();
    let mut kept = path.with_file_name(format!("{stem}-{at}.torn"));
    let mut number = 1;
    // An earlier start may have kept the same bytes, and then ended.
    while is_other(disk, &kept, &rest)? {
        number += 1;
        kept = path.with_file_name(format!("{stem}-{at}-{number}.torn"));
    }
    if !disk.has(&kept)? {
        disk.put_file(&kept, &rest)?;
    }
    let dropped = Dropped { file: path.into(), at, bytes: rest.len() as u64, kept };
    let (file, kept) = (dropped.file.display(), dropped.kept.display());
    tracing::warn!(
        %file,
        offset = at,
        bytes = dropped.bytes,
        %kept,
        "bytes of an incomplete record were dropped, as after a loss of power; a copy is kept"
    );
    Ok(Some(dropped))
}

/// Whether there is a file with other bytes.
fn is_other(disk: &Disk, path: &Path, bytes: &[u8]) -> Result<bool, Fault> {
    let Some(file) = disk.find(path)? else {
        return Ok(false);
    };
    Ok(file.read_from(0).is_ok_and(|there| there != bytes))
}
