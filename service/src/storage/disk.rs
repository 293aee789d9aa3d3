//! All access to files: those of a folder, or those of a shard in a shard store.
//!
//! The journal, the outbox and the dead letters use files only through it, and a test can let each changing call fail.
//! A shard store keeps changes in order and never tears a file. So `order`, the barrier between two steps, syncs only
//! in a folder; and one `sync` of a shard store makes all of its files durable.

mod file;
mod owned;
mod read;
mod under_way;

use super::shard_store::{is_fenced, Fenced, ShardStore};
use super::Fault;
pub use file::{Cursor, File};
use nix::fcntl::{fallocate, FallocateFlags, OFlag};
use owned::Owned;
use std::fs::{DirBuilder, OpenOptions};
use std::io;
use std::os::fd::AsRawFd;
use std::os::unix::fs::{fchown, DirBuilderExt, FileExt, MetadataExt, OpenOptionsExt};
use std::path::Path;
use std::sync::Arc;
use std::time::Duration;
pub use under_way::UnderWay;

#[derive(Clone, Copy, Debug, PartialEq, Eq)]
pub enum Call {
    MakeFolder,
    Create,
    Write,
    Sync,
    SyncFolder,
    Rename,
    Remove,
}

type Hook = dyn Fn(Call, &Path) -> io::Result<()> + Send + Sync;
type End = dyn Fn(&Fault) + Send + Sync;

/// The disk, with a test's hooks if there are any.
#[derive(Clone, Default)]
pub struct Disk {
    /// The shard store; none if the files are in a folder.
    shard_store: Option<Arc<Owned>>,
    /// Keeps the folder locked as long as anything may still write to it.
    _locks: Option<Arc<super::folder::Locks>>,
    hook: Option<Arc<Hook>>,
    end: Option<Arc<End>>,
    under_way: Arc<UnderWay>,
}

/// Exit status after a disk fault.
pub const FAILED: i32 = 70;

pub fn io_fault(path: &Path) -> impl FnOnce(io::Error) -> Fault + '_ {
    move |source| match is_fenced(&source) {
        true => Fault::Fenced(Fenced),
        false => Fault::Io { path: path.into(), source },
    }
}

impl Disk {
    /// The files of a shard that was just taken.
    pub fn of_shard_store(shard_store: Arc<dyn ShardStore>) -> Disk {
        Disk { shard_store: Some(Arc::new(Owned::new(shard_store))), ..Disk::default() }
    }

    /// The same disk, holding the locks of its folder.
    pub fn locked(&self, locks: &Arc<super::folder::Locks>) -> Disk {
        Disk { _locks: Some(locks.clone()), ..self.clone() }
    }

    /// Calls `hook` before each changing call.
    #[cfg(test)]
    pub fn failing(hook: impl Fn(Call, &Path) -> io::Result<()> + Send + Sync + 'static) -> Disk {
        Disk { hook: Some(Arc::new(hook)), ..Disk::default() }
    }

    /// Blocks each sync until `open` is true.
    #[cfg(test)]
    pub fn held(open: Arc<std::sync::atomic::AtomicBool>) -> Disk {
        Disk::failing(move |call, _| {
            while call == Call::Sync && !open.load(std::sync::atomic::Ordering::SeqCst) {
                std::thread::sleep(std::time::Duration::from_millis(1));
            }
            Ok(())
        })
    }

    /// Passes the fault that would have ended the process to `end`; the thread that met the fault stays blocked.
    #[cfg(test)]
    pub fn ending(mut self, end: impl Fn(&Fault) + Send + Sync + 'static) -> Disk {
        self.end = Some(Arc::new(end));
        self
    }

    /// The same disk, with calls that `under_way` measures apart from the others'.
    pub fn of_its_own(&self) -> Disk {
        Disk { under_way: Arc::default(), ..self.clone() }
    }

    /// How long the oldest running call has taken; zero if none is running.
    pub fn under_way(&self) -> Duration {
        let of_shard_store = self.shard_store.as_ref().map_or(Duration::ZERO, |owned| owned.under_way());
        self.under_way.longest().max(of_shard_store)
    }

    /// Whether changes take effect in order without a sync between them, and are never torn: true of a shard store.
    pub fn keeps_order(&self) -> bool {
        self.shard_store.is_some()
    }

    /// Whether there are changes that are not durable, even if no caller waits for them.
    pub fn is_behind(&self) -> bool {
        self.shard_store.as_ref().is_some_and(|owned| owned.is_behind())
    }

    /// How long ago a sync last proved that we own the shard. Zero for a folder, which is ours until the process ends.
    pub fn ours_before(&self) -> Duration {
        self.shard_store.as_ref().map_or(Duration::ZERO, |owned| owned.ours_before())
    }

    /// The term under which we own the shard.
    pub fn term(&self) -> Option<u64> {
        self.shard_store.as_ref()?.term()
    }

    pub fn is_fenced(&self) -> bool {
        self.shard_store.as_ref().is_some_and(|owned| owned.is_fenced())
    }

    /// Returns after the shard was fenced; never for a folder.
    pub async fn fenced(&self) -> Fenced {
        match &self.shard_store {
            None => std::future::pending().await,
            Some(owned) => owned.fenced().await,
        }
    }

    /// Reacts to a fault: ends only the shard if a shard store keeps the files, and otherwise the process.
    pub fn fail(&self, fault: Fault) -> Fenced {
        match fault {
            Fault::Fenced(lost) => lost,
            fault if self.close(&fault.to_string()) => Fenced,
            fault => self.end(&fault),
        }
    }

    /// Ends the shard for this reason: no call changes its files any more. Returns false for a folder, and does
    /// nothing.
    pub fn close(&self, why: &str) -> bool {
        if let Some(owned) = &self.shard_store {
            owned.close(why);
        }
        self.shard_store.is_some()
    }

    /// Why the shard was closed.
    pub fn failure(&self) -> Option<&str> {
        self.shard_store.as_ref()?.failure()
    }

    /// Ends the process: nobody knows what is on disk after a fault, and a start reads it afresh.
    pub fn end(&self, fault: &Fault) -> ! {
        match &self.end {
            None => {
                crate::complain(format_args!("the disk failed, so the service ends: {fault}"));
                std::process::exit(FAILED)
            }
            Some(end) => {
                end(fault);
                loop {
                    std::thread::park();
                }
            }
        }
    }
}

/// Calls that change the disk.
impl Disk {
    fn call<T>(&self, call: Call, path: &Path, does: impl FnOnce() -> io::Result<T>) -> Result<T, Fault> {
        let _noted = self.under_way.note();
        let asked = self.hook.as_ref().map_or(Ok(()), |hook| hook(call, path));
        asked.and_then(|()| does()).map_err(io_fault(path))
    }

    /// Does nothing in a shard store, which has no folders.
    pub fn make_folder(&self, path: &Path) -> Result<(), Fault> {
        if self.shard_store.is_some() {
            return Ok(());
        }
        self.call(Call::MakeFolder, path, || {
            let is_new = !path.exists();
            DirBuilder::new().recursive(true).mode(0o700).create(path)?;
            if is_new {
                // The owner of the parent folder may have put a link here.
                let itself = (OFlag::O_NOFOLLOW | OFlag::O_DIRECTORY).bits();
                let made = OpenOptions::new().read(true).custom_flags(itself).open(path)?;
                give_to_owner(&made, path);
            }
            Ok(())
        })
    }

    /// Makes the folder and syncs its parents, so that its name is durable.
    pub fn make_lasting_folder(&self, path: &Path) -> Result<(), Fault> {
        let made = path.ancestors().take_while(|folder| !folder.exists()).count();
        self.make_folder(path)?;
        for (number, folder) in path.ancestors().skip(1).enumerate() {
            let synced = self.sync_folder(folder);
            // An earlier start may have ended before it synced them. Folders that others made may be unreadable to us.
            if number < made {
                synced?;
            }
        }
        Ok(())
    }

    /// Makes a file; fails if there is one.
    pub fn create(&self, path: &Path) -> Result<File, Fault> {
        let mut how = OpenOptions::new();
        how.read(true).write(true).create_new(true).mode(0o600);
        self.call(Call::Create, path, || match &self.shard_store {
            None => {
                let file = how.open(path)?;
                give_to_owner(&file, path);
                Ok(File::OfFolder(file))
            }
            Some(owned) => {
                let number = owned.call(|shard_store| shard_store.create(path))?;
                Ok(File::OfShardStore(owned.clone(), number))
            }
        })
    }

    /// Makes a file, and replaces one that an earlier start may have left.
    pub fn create_anew(&self, path: &Path) -> Result<File, Fault> {
        if self.has(path)? {
            self.remove(path)?;
        }
        self.create(path)
    }

    /// Writes the bytes, normally by one call.
    pub fn write_at(&self, file: &File, path: &Path, bytes: &[u8], at: u64) -> Result<(), Fault> {
        self.call(Call::Write, path, || match file {
            File::OfFolder(file) => file.write_all_at(bytes, at),
            File::OfShardStore(owned, number) => {
                owned.call(|shard_store| shard_store.write_at(*number, bytes, at))
            }
        })
    }

    /// Allocates blocks ahead of writes and leaves the file's length. A failure is ignored: the writes will report it.
    pub fn take_blocks(&self, file: &File, at: u64, length: u64) {
        if let File::OfFolder(file) = file {
            let _noted = self.under_way.note();
            let keep_size = FallocateFlags::FALLOC_FL_KEEP_SIZE;
            let _ = fallocate(file.as_raw_fd(), keep_size, at as i64, length as i64);
        }
    }

    /// Makes the file durable; in a shard store, all changes.
    pub fn sync(&self, file: &File, path: &Path) -> Result<(), Fault> {
        self.call(Call::Sync, path, || match file {
            File::OfFolder(file) => file.sync_data(),
            File::OfShardStore(owned, _) => owned.sync(),
        })
    }

    /// The number of changes so far; none for a folder.
    pub fn changes(&self) -> Option<u64> {
        self.shard_store.as_ref().map(|owned| owned.changes())
    }

    /// Counts one more change: only a sync that begins later makes it durable. None for a folder.
    pub fn touch(&self) -> Option<u64> {
        self.shard_store.as_ref().map(|owned| owned.touch())
    }

    /// The number of changes that are durable; none for a folder.
    pub fn durable(&self) -> Option<u64> {
        self.shard_store.as_ref().map(|owned| owned.durable())
    }

    /// Makes the names in a folder durable; in a shard store, all changes.
    pub fn sync_folder(&self, path: &Path) -> Result<(), Fault> {
        self.call(Call::SyncFolder, path, || match &self.shard_store {
            None => std::fs::File::open(path)?.sync_all(),
            Some(owned) => owned.sync(),
        })
    }

    /// A barrier: nothing that is written later becomes durable before this file.
    pub fn barrier(&self, file: &File, path: &Path) -> Result<(), Fault> {
        match self.keeps_order() {
            true => Ok(()),
            false => self.sync(file, path),
        }
    }

    /// A barrier for the names in a folder.
    pub fn order_folder(&self, path: &Path) -> Result<(), Fault> {
        match self.keeps_order() {
            true => Ok(()),
            false => self.sync_folder(path),
        }
    }

    pub fn rename(&self, from: &Path, to: &Path) -> Result<(), Fault> {
        self.call(Call::Rename, to, || match &self.shard_store {
            None => std::fs::rename(from, to),
            Some(owned) => owned.call(|shard_store| shard_store.rename(from, to)),
        })
    }

    pub fn remove(&self, path: &Path) -> Result<(), Fault> {
        self.call(Call::Remove, path, || match &self.shard_store {
            None => std::fs::remove_file(path),
            Some(owned) => owned.call(|shard_store| shard_store.remove(path)),
        })
    }

    /// Removes a file that nothing needs, if it can. A shard store keeps it.
    pub fn discard(&self, path: &Path) {
        if self.shard_store.is_none() {
            let _ = std::fs::remove_file(path);
        }
    }

    /// Writes a whole file in place of one that may be there. The file is durable when this returns, and never half
    /// written.
    pub fn put_file(&self, path: &Path, bytes: &[u8]) -> Result<(), Fault> {
        let draft = path.with_extension("draft");
        let file = self.create_anew(&draft)?;
        self.write_at(&file, &draft, bytes, 0)?;
        self.barrier(&file, &draft)?;
        self.rename(&draft, path)?;
        path.parent().map_or(Ok(()), |folder| self.sync_folder(folder))
    }
}

/// Gives a new file or folder to the owner of its parent folder. So what a command of root makes stays readable for the
/// service's user. Any other user lacks the right, and the file stays its own.
pub(super) fn give_to_owner(file: &std::fs::File, path: &Path) {
    let folder = path.parent().and_then(|folder| std::fs::metadata(folder).ok());
    let is_other = |folder: &std::fs::Metadata| file.metadata().is_ok_and(|own| own.uid() != folder.uid());
    if let Some(folder) = folder.filter(is_other) {
        let _ = fchown(file, Some(folder.uid()), Some(folder.gid())); // if not permitted, a start names what the service can't read
    }
}
