//! The service's data folder: its lock, its format version, its epoch, and whether the disk has room.
//!
//! The service opens it at a start, and commands that work on a folder do too. Only one process has a folder at a time.
//!
//! | file | what it is |
//! |---|---|
//! | `lock` | locked by the service that has the folder |
//! | `version` | JSON: `totxegun`, the format's version; `epoch`, 16 hexadecimal digits; `lock`, the inode of the lock file and its birth time, in nanoseconds since 1970, if the file system knows it; `begun`, the journal segment that the last start began; `sink`, its kind, address and id; `moved`, the store that has all of it: then no service starts on it |
//! | `shard-0/journal`, `shard-0/outbox` | segments |
//! | `dead-letters/` | a file for each request that the sink refused for good |
//!
//! If a folder was copied, or restored from a copy, its lock file has another inode, or the same inode and another
//! birth time. Then a start draws a new epoch, so new requests have other keys than those of the original folder.
//! Requests that wait in the outbox keep their keys, since they are the same bytes. A copy of the whole disk can't be
//! told from the original.

mod sink;
mod usable;
mod version;

use super::disk::{io_fault, Disk};
use super::free_space::FreeSpace;
use crate::dead_letters::DeadLetters;
use crate::journal::Journal;
use crate::journal::{Expected, Left};
use crate::outbox::Outbox;
use crate::storage::{segment, Durability, Fault};
use crate::work::locked;
use nix::errno::Errno;
use nix::fcntl::{flock, FlockArg};
use std::fs::{File, OpenOptions};
use std::io::{self, ErrorKind, Read};
use std::os::fd::AsRawFd;
use std::os::unix::fs::OpenOptionsExt;
use std::path::{Path, PathBuf};
use std::sync::{Arc, Mutex};
use std::time::{Duration, Instant};

pub use sink::KnownSink;
use version::{Identity, Version};

/// The folder of the journal and the outbox. A shard store has several shards; a folder has only this one.
const SHARD: &str = "shard-0";
const LOST_SHARD: &str =
    "has no segments, although this folder is not new. Nothing was deleted: restore all of the shard's folder, or move the \
     folder away and start with an empty one";
/// How long to wait for a lock.
const PATIENCE: Duration = Duration::from_secs(1);

#[derive(Debug, thiserror::Error)]
pub enum FolderFault {
    #[error("{0} is in use by another service: end it, or give another --data")]
    InUse(PathBuf),
    /// The contents are fine, and nothing was changed.
    #[error("{} {what}", path.display())]
    Unusable { path: PathBuf, what: String },
    /// The store recognises the folder by `epoch`.
    #[error(
        "{0} was moved into the store {store}: start with --store {store}. If that move was interrupted, call `totxegun \
         store move --from {0} {store}` again",
        path.display()
    )]
    Moved { path: PathBuf, epoch: String, store: String },
    #[error(transparent)]
    Fault(#[from] Fault),
}

/// A folder that only this process has, until it ends.
pub struct Folder {
    disk: Disk,
    path: PathBuf,
    durability: Durability,
    free_space: Arc<FreeSpace>,
    version: Mutex<Version>,
    locks: Arc<Locks>,
}

/// Held as long as anything may still write to the folder.
pub struct Locks {
    file: File,
    /// The folder itself, locked too: if somebody deletes the lock file, a second service would make and lock a new
    /// one.
    _itself: File,
}

impl Folder {
    /// Makes the folder if there is none, locks it, and reads its version.
    pub fn open(path: &Path, durability: Durability) -> Result<Folder, FolderFault> {
        Folder::open_on(Disk::default(), path, durability)
    }

    pub(crate) fn open_on(disk: Disk, path: &Path, durability: Durability) -> Result<Folder, FolderFault> {
        usable::look_at(path)?;
        // If this file is there, an earlier start has made the folder completely.
        if !path.join("version").exists() {
            disk.make_lasting_folder(path).map_err(|fault| usable::named(fault, path))?;
        }
        let locks = Arc::new(locks_of(path)?);
        let free_space = Arc::new(FreeSpace::new(path)?);
        let known = find(&disk, path)?;
        let folder = Folder {
            disk: disk.locked(&locks),
            path: path.into(),
            durability,
            free_space,
            version: Mutex::new(known.clone().unwrap_or_default()),
            locks,
        };
        let found = folder.identity()?;
        match known {
            Some(known) if known.lock.may_be(found) => {}
            known => {
                let epoch = folder.renew_epoch()?;
                if known.is_some() {
                    tracing::warn!(
                        folder = %path.display(),
                        epoch,
                        "the folder was copied or restored, so it has a new epoch"
                    );
                }
            }
        }
        Ok(folder)
    }

    /// Whether a start would take the folder for a copy, or for one whose lock file was deleted, and draw a new epoch.
    /// False if there is no folder, or its version can't be read.
    pub fn is_moved(path: &Path) -> bool {
        let Ok(Some(version)) = Version::read(path) else {
            return false;
        };
        let found = File::open(path.join("lock")).and_then(|lock| Identity::of(&lock));
        !found.is_ok_and(|found| version.lock.may_be(found))
    }

    /// Fails if no service can start on the folder: it was moved into a store, or has another version. Takes no lock.
    pub fn check_usable(path: &Path) -> Result<(), FolderFault> {
        find(&Disk::default(), path).map(drop)
    }

    /// Records that `store` has everything: from then on no service starts on the folder. On success this is durable;
    /// on failure it is not done.
    pub fn set_moved(&self, store: &str) -> Result<(), Fault> {
        self.change(|version| version.moved = Some(store.into()))
    }

    /// Distinguishes the keys of this folder's requests, and the folder that a store took over, from those of copies.
    pub fn epoch(&self) -> String {
        locked(&self.version).epoch.clone()
    }

    /// Whether the folder has never kept anything.
    pub fn is_empty(&self) -> bool {
        let has = |name: &str| self.path.join(name).exists();
        locked(&self.version).begun.is_none() && !has(SHARD) && !has("dead-letters")
    }

    /// Draws a new epoch, for a folder that was restored in a way that a start can't detect. Shards that are opened
    /// later use it; requests that wait in an outbox keep their own.
    pub fn renew_epoch(&self) -> Result<String, Fault> {
        let source = Path::new("/dev/urandom");
        let mut random = [0; 8];
        File::open(source).and_then(|mut file| file.read_exact(&mut random)).map_err(io_fault(source))?;
        let epoch = format!("{:016x}", u64::from_le_bytes(random));
        let lock = self.identity()?;
        self.change(|version| (version.epoch, version.lock) = (epoch.clone(), lock))?;
        Ok(epoch)
    }

    fn change(&self, make: impl FnOnce(&mut Version)) -> Result<(), Fault> {
        let mut version = locked(&self.version);
        let mut changed = version.clone();
        make(&mut changed);
        let path = self.path.join("version");
        let text = serde_json::to_vec(&changed).map_err(io::Error::from).map_err(io_fault(&path))?;
        self.disk.put_file(&path, &text)?;
        *version = changed;
        Ok(())
    }

    fn identity(&self) -> Result<Identity, Fault> {
        Identity::of(&self.locks.file).map_err(io_fault(&self.path.join("lock")))
    }

    /// A folder whose disk has the room that a test says.
    #[cfg(test)]
    pub(crate) fn in_room(mut self, look: impl Fn() -> u64 + Send + Sync + 'static) -> Folder {
        self.free_space = Arc::new(FreeSpace::of(move || Ok((look(), 1 << 40, 1000))));
        self
    }

    /// Opens the journal and the outbox, after syncing what an earlier run wrote.
    pub fn shard(&self) -> Result<(Journal, Outbox), Fault> {
        let (outbox, left) = self.begin_shard()?;
        Ok((self.journal(&outbox, left)?, outbox))
    }

    /// Reads the outbox, which is not begun yet, and what an earlier run left in the journal, without changing the
    /// journal.
    pub fn begin_shard(&self) -> Result<(Outbox, Left), Fault> {
        let folder = self.path.join(SHARD).join("journal");
        // In parallel: reading the journal needs nothing from the outbox.
        let (outbox, left) = std::thread::scope(|scope| {
            let left = scope.spawn(|| match folder.exists() {
                true => Left::read(&self.disk, &folder),
                false => Ok(Left::default()),
            });
            (self.read_outbox(), left.join())
        });
        let outbox = outbox?;
        Ok((outbox, left.unwrap_or_else(|panic| std::panic::resume_unwind(panic))?))
    }

    /// Begins the outbox, then opens the journal to continue after what was left in it.
    pub fn journal(&self, outbox: &Outbox, left: Left) -> Result<Journal, Fault> {
        outbox.begin()?;
        let begun = locked(&self.version).begun;
        let journal = Journal::go_on(
            &self.disk,
            &self.path.join(SHARD).join("journal"),
            self.durability,
            self.free_space.clone(),
            &Expected { reach: outbox.journal(), begun, by: outbox.ended() },
            left,
        )?;
        if begun != Some(journal.begun()) {
            self.change(|version| version.begun = Some(journal.begun()))?;
        }
        Ok(journal)
    }

    fn read_outbox(&self) -> Result<Outbox, Fault> {
        let shard = self.path.join(SHARD);
        let (journal, outbox) = (shard.join("journal"), shard.join("outbox"));
        let was_made = outbox.exists() && !segment::numbers(&self.disk, &outbox)?.is_empty();
        if !was_made && locked(&self.version).begun.is_some() {
            return Err(Fault::Damaged { path: outbox, at: 0, what: LOST_SHARD.into() });
        }
        for path in [&shard, &journal, &outbox] {
            self.disk.make_folder(path)?;
        }
        self.disk.sync_folder(&shard)?;
        self.disk.sync_folder(&self.path)?;
        Outbox::read(&self.disk, &outbox, &self.epoch(), self.free_space.clone())
    }

    pub fn dead(&self) -> Result<DeadLetters, Fault> {
        let dead = DeadLetters::open(&self.disk, &self.path.join("dead-letters"), self.free_space.clone())?;
        self.disk.sync_folder(&self.path)?;
        Ok(dead)
    }
}

/// The kernel releases the locks when the process ends, however it ends. Child processes don't inherit them: the
/// standard library opens files close-on-exec.
fn locks_of(folder: &Path) -> Result<Locks, FolderFault> {
    let path = folder.join("lock");
    let mut options = OpenOptions::new();
    options.read(true).write(true).mode(0o600);
    // Only a file that we made changes its owner: a link here could lead to any file of root's.
    let made = options.clone().create_new(true).open(&path);
    let made = made.inspect(|made| super::disk::give_to_owner(made, &path));
    let file = match made {
        Err(error) if error.kind() == ErrorKind::AlreadyExists => options.open(&path),
        made => made,
    };
    let file = file.map_err(io_fault(&path))?;
    match take_lock(&file) {
        Ok(()) => {}
        Err(Errno::EWOULDBLOCK) => return Err(FolderFault::InUse(folder.into())),
        Err(error) => return Err(io_fault(&path)(error.into()).into()),
    }
    let itself = File::open(folder).map_err(io_fault(folder))?;
    match take_lock(&itself) {
        Err(Errno::EWOULDBLOCK) => Err(FolderFault::InUse(folder.into())),
        // Not every file system can lock folders.
        Ok(()) | Err(_) => Ok(Locks { file, _itself: itself }),
    }
}

fn take_lock(file: &File) -> Result<(), Errno> {
    // A process that was just forked has the file open for a moment, even if its parent has ended.
    let began = Instant::now();
    loop {
        match flock(file.as_raw_fd(), FlockArg::LockExclusiveNonblock) {
            Err(Errno::EWOULDBLOCK) if began.elapsed() < PATIENCE => std::thread::sleep(PATIENCE / 50),
            tried => return tried,
        }
    }
}

/// The version of a folder on which a service may start; none for a new folder.
fn find(disk: &Disk, folder: &Path) -> Result<Option<Version>, FolderFault> {
    let version = Version::read(folder)?;
    match &version {
        Some(version) => version.check_here(folder)?,
        None => check_new(disk, folder)?,
    }
    Ok(version)
}

/// A folder without a version file must not have a shard either.
fn check_new(disk: &Disk, folder: &Path) -> Result<(), Fault> {
    for name in disk.names(folder)? {
        if name.to_str().is_some_and(|name| name.starts_with("shard-") || name == "dead-letters") {
            let what = "this file is missing, although the folder is not new: restore it from a copy".into();
            return Err(Fault::Damaged { path: folder.join("version"), at: 0, what });
        }
    }
    Ok(())
}

#[cfg(test)]
mod tests;
