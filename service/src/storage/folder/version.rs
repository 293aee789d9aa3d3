//! The contents of the file `version`. `folder` replaces the whole file at each change.

use super::{io_fault, Fault, FolderFault, KnownSink};
use serde::{Deserialize, Serialize};
use std::fs::File;
use std::os::unix::fs::MetadataExt;
use std::path::Path;
use std::time::UNIX_EPOCH;

/// The version of the folder's layout: which files it has, and where.
const VERSION: u32 = 1;
const UNREADABLE: &str = "is not a valid version file of totxegun: restore it from a copy";
/// The first bytes of each earlier version, which was lines of text.
const LINES: &[u8] = b"totxegun ";
const OF_LINES: &str =
    "was written by an earlier build of totxegun, which this one can't read: use that build, or give another --data";

/// One JSON object.
#[derive(Clone, Serialize, Deserialize)]
pub struct Version {
    totxegun: u32,
    pub epoch: String,
    pub lock: Identity,
    /// The journal segment that the last start began: by then the shard's files were durable.
    pub begun: Option<u64>,
    pub sink: Option<KnownSink>,
    /// The address of the store that has all of the folder, without its password, on one line.
    pub moved: Option<String>,
}

/// The part that each version of the file has.
#[derive(Deserialize)]
struct OfAny {
    totxegun: u32,
}

/// Distinguishes a file from its copies.
#[derive(Clone, Copy, Default, Serialize, Deserialize)]
pub struct Identity {
    pub inode: u64,
    /// Nanoseconds since 1970; a copy of the file has another. None if the file system doesn't record birth times.
    pub born: Option<u64>,
}

impl Identity {
    pub fn of(file: &File) -> std::io::Result<Identity> {
        let about = file.metadata()?;
        let born = about.created().ok().and_then(|at| at.duration_since(UNIX_EPOCH).ok());
        let born = born.and_then(|since| u64::try_from(since.as_nanos()).ok());
        Ok(Identity { inode: about.ino(), born })
    }

    pub fn may_be(self, other: Identity) -> bool {
        let born_apart = self.born.zip(other.born).is_some_and(|(one, other)| one != other);
        self.inode == other.inode && !born_apart
    }
}

impl Default for Version {
    fn default() -> Version {
        let (epoch, lock) = (String::new(), Identity::default());
        Version { totxegun: VERSION, epoch, lock, begun: None, sink: None, moved: None }
    }
}

impl Version {
    pub fn read(folder: &Path) -> Result<Option<Version>, Fault> {
        let path = folder.join("version");
        let text = match std::fs::read(&path) {
            Err(error) if error.kind() == std::io::ErrorKind::NotFound => return Ok(None),
            text => text.map_err(io_fault(&path))?,
        };
        let of_any = serde_json::from_slice(&text).map(|OfAny { totxegun }| totxegun);
        let what = match (of_any, serde_json::from_slice::<Version>(&text)) {
            (Ok(VERSION), Ok(version)) if version.has_epoch() => return Ok(Some(version)),
            (Ok(number), _) if number != VERSION => format!(
                "the folder has format version {number}, and this totxegun reads only {VERSION}: use the totxegun that \
                 wrote it, or give another --data"
            ),
            _ if text.starts_with(LINES) => OF_LINES.into(),
            _ => UNREADABLE.into(),
        };
        Err(Fault::Damaged { path, at: 0, what })
    }

    fn has_epoch(&self) -> bool {
        self.epoch.len() == 16 && self.epoch.bytes().all(|byte| byte.is_ascii_hexdigit())
    }

    pub fn check_here(&self, path: &Path) -> Result<(), FolderFault> {
        let Version { epoch, moved, .. } = self;
        match moved.clone() {
            None => Ok(()),
            Some(store) => Err(FolderFault::Moved { path: path.into(), epoch: epoch.clone(), store }),
        }
    }
}
