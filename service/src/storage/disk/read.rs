//! Calls that read the disk.

use super::{io_fault, Disk, File};
use crate::storage::Fault;
use std::ffi::OsString;
use std::fs::OpenOptions;
use std::io::{self, ErrorKind};
use std::path::Path;
use std::time::SystemTime;

impl Disk {
    /// The names in a folder.
    pub fn names(&self, folder: &Path) -> Result<Vec<OsString>, Fault> {
        let names = match &self.shard_store {
            None => {
                std::fs::read_dir(folder).and_then(|all| all.map(|entry| Ok(entry?.file_name())).collect())
            }
            Some(owned) => owned.call(|shard_store| shard_store.list(folder)),
        };
        names.map_err(io_fault(folder))
    }

    /// Opens a file for reading only.
    pub fn open(&self, path: &Path) -> Result<File, Fault> {
        self.open_with(path, OpenOptions::new().read(true)).map_err(io_fault(path))
    }

    /// Opens a file for reading; none if there is none.
    pub fn find(&self, path: &Path) -> Result<Option<File>, Fault> {
        match self.open_with(path, OpenOptions::new().read(true)) {
            Err(error) if error.kind() == ErrorKind::NotFound => Ok(None),
            file => file.map(Some).map_err(io_fault(path)),
        }
    }

    pub fn open_to_write(&self, path: &Path) -> Result<File, Fault> {
        self.open_with(path, OpenOptions::new().read(true).write(true)).map_err(io_fault(path))
    }

    fn open_with(&self, path: &Path, how: &OpenOptions) -> io::Result<File> {
        match &self.shard_store {
            None => Ok(File::OfFolder(how.open(path)?)),
            Some(owned) => {
                let number = owned.call(|shard_store| shard_store.open(path))?;
                Ok(File::OfShardStore(owned.clone(), number))
            }
        }
    }

    /// Whether the file is there. In a folder, "no" may also mean that we can't see it: making the file then fails.
    pub fn has(&self, path: &Path) -> Result<bool, Fault> {
        match &self.shard_store {
            None => Ok(path.exists()),
            Some(_) => Ok(self.find(path)?.is_some()),
        }
    }

    /// The length of a file; none if there is none.
    pub fn length(&self, path: &Path) -> Result<Option<u64>, Fault> {
        let length = match &self.shard_store {
            None => std::fs::metadata(path).map(|about| about.len()),
            Some(owned) => owned.call(|shard_store| shard_store.length(shard_store.open(path)?)),
        };
        match length {
            Err(error) if error.kind() == ErrorKind::NotFound => Ok(None),
            length => length.map(Some).map_err(io_fault(path)),
        }
    }

    /// When the file was last written, if that is known.
    pub fn written(&self, path: &Path) -> Option<SystemTime> {
        match &self.shard_store {
            None => std::fs::metadata(path).ok()?.modified().ok(),
            Some(_) => None,
        }
    }
}
