//! A shard store in memory, for tests: the files of one shard as of the last sync, and its owner's term.

use super::{fenced, ShardStore};
use crate::storage::disk::UnderWay;
use crate::work::locked;
use std::collections::{BTreeMap, HashMap};
use std::ffi::OsString;
use std::io::{self, ErrorKind};
use std::path::{Path, PathBuf};
use std::sync::{Arc, Mutex};
use std::time::Duration;

type Bytes = Arc<Vec<u8>>;

/// What outlives owners. A new owner sees only what was synced; the one before it fails with `Fenced` at its next sync.
#[derive(Default)]
pub(crate) struct Store(Mutex<Kept>);

#[derive(Default)]
struct Kept {
    term: u64,
    files: BTreeMap<PathBuf, Bytes>,
}

/// A call of the store, or a moment within one.
#[derive(Clone, Copy, Debug, PartialEq, Eq)]
pub(crate) enum Step {
    Create,
    Open,
    List,
    Length,
    Read,
    Write,
    Rename,
    Remove,
    /// A sync has begun and is not committed yet.
    Sync,
    /// The sync is committed, and its answer may still get lost.
    Committed,
}

/// A test's hook, called before each step: it may take the shard, let the call fail, or block.
type Hook = dyn Fn(Step) -> io::Result<()> + Send + Sync;

/// The shard's files, as one owner has them under its term.
pub(crate) struct Owner {
    store: Arc<Store>,
    term: u64,
    hook: Box<Hook>,
    view: Mutex<View>,
    /// Held for a whole sync, so that an older view never replaces a later one.
    syncing: Mutex<()>,
    waiting: UnderWay,
}

/// The files with this owner's changes, synced or not.
#[derive(Default)]
struct View {
    names: BTreeMap<PathBuf, u64>,
    files: HashMap<u64, Bytes>,
    last: u64,
    changes: u64,
}

impl Store {
    pub fn take(self: &Arc<Self>) -> Arc<Owner> {
        self.take_with(|_| Ok(()))
    }

    pub fn take_with(
        self: &Arc<Self>,
        hook: impl Fn(Step) -> io::Result<()> + Send + Sync + 'static,
    ) -> Arc<Owner> {
        let mut kept = locked(&self.0);
        kept.term += 1;
        let mut view = View::default();
        for (name, bytes) in &kept.files {
            view.put(name, bytes.clone());
        }
        Arc::new(Owner {
            store: self.clone(),
            term: kept.term,
            hook: Box::new(hook),
            view: Mutex::new(view),
            syncing: Mutex::new(()),
            waiting: UnderWay::default(),
        })
    }

    /// The names that the next owner will find.
    pub fn names(&self) -> Vec<PathBuf> {
        locked(&self.0).files.keys().cloned().collect()
    }

    /// Changes a file as the next owner will find it, and removes it if the change empties it.
    pub fn change(&self, name: &Path, change: impl FnOnce(&mut Vec<u8>)) {
        let mut kept = locked(&self.0);
        let bytes = Arc::make_mut(kept.files.get_mut(name).unwrap());
        change(bytes);
        if bytes.is_empty() {
            kept.files.remove(name);
        }
    }
}

impl View {
    fn put(&mut self, name: &Path, bytes: Bytes) -> u64 {
        self.changes += 1;
        self.last += 1;
        self.names.insert(name.into(), self.last);
        self.files.insert(self.last, bytes);
        self.last
    }

    fn number(&self, name: &Path) -> io::Result<u64> {
        self.names.get(name).copied().ok_or(ErrorKind::NotFound.into())
    }

    fn file(&self, number: u64) -> io::Result<&Bytes> {
        self.files.get(&number).ok_or(ErrorKind::NotFound.into())
    }

    fn remove(&mut self, name: &Path) -> io::Result<()> {
        let number = self.number(name)?;
        self.changes += 1;
        self.names.remove(name);
        self.files.remove(&number);
        Ok(())
    }
}

impl ShardStore for Owner {
    fn create(&self, name: &Path) -> io::Result<u64> {
        (self.hook)(Step::Create)?;
        let mut view = locked(&self.view);
        match view.names.contains_key(name) {
            true => Err(ErrorKind::AlreadyExists.into()),
            false => Ok(view.put(name, Bytes::default())),
        }
    }

    fn open(&self, name: &Path) -> io::Result<u64> {
        (self.hook)(Step::Open)?;
        locked(&self.view).number(name)
    }

    fn list(&self, folder: &Path) -> io::Result<Vec<OsString>> {
        (self.hook)(Step::List)?;
        let view = locked(&self.view);
        let inside = view.names.keys().filter(|name| name.parent() == Some(folder));
        Ok(inside.filter_map(|name| Some(name.file_name()?.into())).collect())
    }

    fn length(&self, file: u64) -> io::Result<u64> {
        (self.hook)(Step::Length)?;
        Ok(locked(&self.view).file(file)?.len() as u64)
    }

    fn read_at(&self, file: u64, bytes: &mut [u8], at: u64) -> io::Result<usize> {
        (self.hook)(Step::Read)?;
        let view = locked(&self.view);
        let rest = view.file(file)?.get(at as usize..).unwrap_or_default();
        let length = rest.len().min(bytes.len());
        bytes[..length].copy_from_slice(&rest[..length]);
        Ok(length)
    }

    fn write_at(&self, file: u64, bytes: &[u8], at: u64) -> io::Result<()> {
        (self.hook)(Step::Write)?;
        let mut view = locked(&self.view);
        view.changes += 1;
        let there = view.files.get_mut(&file).ok_or(ErrorKind::NotFound)?;
        let (there, at) = (Arc::make_mut(there), at as usize);
        assert!(at <= there.len(), "a hole before {at}, behind {}", there.len());
        let over = bytes.len().min(there.len() - at);
        there[at..at + over].copy_from_slice(&bytes[..over]);
        there.extend_from_slice(&bytes[over..]);
        Ok(())
    }

    fn rename(&self, from: &Path, to: &Path) -> io::Result<()> {
        (self.hook)(Step::Rename)?;
        let mut view = locked(&self.view);
        let number = view.number(from)?;
        view.changes += 1;
        let _ = view.remove(to); // fails if `to` is a new name
        view.names.remove(from);
        view.names.insert(to.into(), number);
        Ok(())
    }

    fn remove(&self, name: &Path) -> io::Result<()> {
        (self.hook)(Step::Remove)?;
        locked(&self.view).remove(name)
    }

    fn changes(&self) -> u64 {
        locked(&self.view).changes
    }

    fn touch(&self) -> u64 {
        let mut view = locked(&self.view);
        view.changes += 1;
        view.changes
    }

    fn sync(&self) -> io::Result<u64> {
        let _noted = self.waiting.note();
        self.commit()
    }

    fn under_way(&self) -> Duration {
        self.waiting.longest()
    }

    fn owned_under(&self) -> Option<u64> {
        Some(self.term)
    }
}

impl Owner {
    fn commit(&self) -> io::Result<u64> {
        (self.hook)(Step::Sync)?;
        let _one = locked(&self.syncing);
        let (now, changes): (BTreeMap<_, _>, u64) = {
            let view = locked(&self.view);
            let file = |(name, number): (&PathBuf, &u64)| (name.clone(), view.files[number].clone());
            (view.names.iter().map(file).collect(), view.changes)
        };
        {
            let mut kept = locked(&self.store.0);
            if kept.term != self.term {
                return Err(fenced());
            }
            kept.files = now;
        }
        (self.hook)(Step::Committed).map(|()| changes)
    }
}

#[cfg(test)]
mod tests {
    use super::*;
    use crate::storage::shard_store::is_fenced;

    #[test]
    fn the_next_owner_has_what_was_synced_and_the_one_before_is_lost() {
        let (store, name) = (Arc::new(Store::default()), Path::new("journal/1"));
        let first = store.take();
        let file = first.create(name).unwrap();
        first.write_at(file, b"abcd", 0).unwrap();
        first.sync().unwrap();
        first.write_at(file, b"xyz", 3).unwrap();
        first.rename(name, Path::new("journal/2")).unwrap();
        let second = store.take();
        assert_eq!(second.list(Path::new("journal")).unwrap(), ["1"]);
        let mut bytes = [0; 9];
        let there = second.read_at(second.open(name).unwrap(), &mut bytes, 1).unwrap();
        assert_eq!(&bytes[..there], b"bcd");
        assert!(is_fenced(&first.sync().unwrap_err()));
        assert_eq!(first.length(file).unwrap(), 6, "it sees what it wrote");
        second.sync().unwrap();
        assert_eq!(store.names(), [name]);
    }

    #[test]
    fn a_commit_whose_answer_is_lost_is_there() {
        let (store, name) = (Arc::new(Store::default()), Path::new("a"));
        let first = store.take_with(|step| match step {
            Step::Committed => Err(fenced()),
            _ => Ok(()),
        });
        first.create(name).unwrap();
        assert!(is_fenced(&first.sync().unwrap_err()));
        assert!(store.take().open(name).is_ok());
    }
}
