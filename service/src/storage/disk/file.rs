//! A file in a folder or in a shard store.

use super::owned::Owned;
use std::io::{self, ErrorKind, Read, Seek, SeekFrom};
use std::os::unix::fs::FileExt;
use std::sync::Arc;

/// It has no position: each read says where it begins.
pub enum File {
    OfFolder(std::fs::File),
    OfShardStore(Arc<Owned>, u64),
}

impl File {
    /// Returns how many bytes were read: 0 only at the end of the file.
    pub fn read_at(&self, bytes: &mut [u8], at: u64) -> io::Result<usize> {
        match self {
            File::OfFolder(file) => file.read_at(bytes, at),
            File::OfShardStore(owned, number) => {
                owned.call(|shard_store| shard_store.read_at(*number, bytes, at))
            }
        }
    }

    pub fn length(&self) -> io::Result<u64> {
        match self {
            File::OfFolder(file) => Ok(file.metadata()?.len()),
            File::OfShardStore(owned, number) => owned.call(|shard_store| shard_store.length(*number)),
        }
    }

    pub fn read_exact_at(&self, bytes: &mut [u8], at: u64) -> io::Result<()> {
        let mut read = 0;
        while read < bytes.len() {
            match self.read_at(&mut bytes[read..], at + read as u64) {
                Ok(0) => return Err(ErrorKind::UnexpectedEof.into()),
                Err(error) if error.kind() == ErrorKind::Interrupted => {}
                more => read += more?,
            }
        }
        Ok(())
    }

    /// The bytes from `at` to the end.
    pub fn read_from(&self, at: u64) -> io::Result<Vec<u8>> {
        let left = self.length()?.saturating_sub(at);
        let mut bytes = vec![0; left as usize];
        self.read_exact_at(&mut bytes, at)?;
        Ok(bytes)
    }
}

/// Reads a file from `at` on, for `std::io`.
pub struct Cursor {
    pub file: File,
    pub at: u64,
}

impl Read for Cursor {
    fn read(&mut self, bytes: &mut [u8]) -> io::Result<usize> {
        let length = self.file.read_at(bytes, self.at)?;
        self.at += length as u64;
        Ok(length)
    }
}

impl Seek for Cursor {
    fn seek(&mut self, to: SeekFrom) -> io::Result<u64> {
        let at = match to {
            SeekFrom::Start(at) => Some(at),
            SeekFrom::Current(by) => self.at.checked_add_signed(by),
            SeekFrom::End(by) => self.file.length()?.checked_add_signed(by),
        };
        self.at = at.ok_or(ErrorKind::InvalidInput)?;
        Ok(self.at)
    }
}
