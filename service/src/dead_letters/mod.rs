//! `dead-letters/`, the dead letters: requests that the sink refused for good, kept until an operator decides what to do with
//! them.
//!
//! Each dead letter is a file `KEY.json`: a first line of JSON, then the body as it was sent. If another request comes
//! under the same key, it gets a file of its own, `KEY_2.json`. `sink/delivery` adds letters, and `admin/dead_letters`
//! lists, resends and drops them. No letter ever replaces another one.

mod gone;

use crate::storage::disk::{io_fault, Cursor, Disk};
use crate::storage::free_space::FreeSpace;
use crate::storage::{seconds, Fault};
use crate::work::locked;
pub use gone::Became;
use std::collections::BTreeSet;
use std::ffi::OsString;
use std::io::{self, BufRead, BufReader, Read};
use std::path::{Path, PathBuf};
use std::sync::atomic::{AtomicU64, Ordering::Relaxed};
use std::sync::{Arc, Mutex, MutexGuard};
use std::time::{SystemTime, UNIX_EPOCH};

/// A dead letter.
#[derive(Clone, Debug, PartialEq, Eq, serde::Serialize, serde::Deserialize)]
pub struct DeadLetter {
    pub key: String,
    /// When it was kept, in seconds since 1970.
    pub since: u64,
    /// The sink's status or error.
    pub reason: String,
    pub bytes: u64,
}

pub struct DeadLetters {
    disk: Disk,
    folder: PathBuf,
    free_space: Arc<FreeSpace>,
    /// Held by each call that changes the folder.
    known: Mutex<Known>,
    count: AtomicU64,
}

/// The dead letters in the folder.
#[derive(Default)]
struct Known {
    names: BTreeSet<String>,
    /// When the folder was last written; none in a shard store, where nobody changes files by hand.
    written: Option<SystemTime>,
}

/// The most characters of a reason that are kept.
const REASON: usize = 4096;
const LONGEST_HEAD: u64 = 64 << 10;

/// Whether a key is safe as a file name, and can't lead out of the folder.
fn is_key(key: &str) -> bool {
    let sound = |byte: u8| byte.is_ascii_alphanumeric() || byte == b'-' || byte == b'_';
    (1..=128).contains(&key.len()) && key.bytes().all(sound)
}

/// The key under which the request was sent: the name without the number of a second letter.
pub fn sent_as(name: &str) -> &str {
    match name.rsplit_once('_') {
        Some((key, number)) if number.parse().is_ok_and(|number: u64| number > 1) => key,
        _ => name,
    }
}

impl DeadLetters {
    pub(crate) fn open(disk: &Disk, folder: &Path, free_space: Arc<FreeSpace>) -> Result<DeadLetters, Fault> {
        disk.make_folder(folder)?;
        disk.order_folder(folder)?;
        let (disk, folder) = (disk.clone(), folder.into());
        let dead =
            DeadLetters { disk, folder, free_space, known: Mutex::default(), count: AtomicU64::new(0) };
        dead.look(&mut locked(&dead.known))?;
        Ok(dead)
    }

    fn path(&self, key: &str) -> PathBuf {
        self.folder.join(format!("{key}.json"))
    }

    /// Locks the list after making sure that it is up to date. The folder is listed again only after someone else
    /// changed it: operators move letters out of it, and back, by hand.
    fn known(&self) -> Result<MutexGuard<'_, Known>, Fault> {
        let mut known = locked(&self.known);
        if known.written != self.disk.written(&self.folder) {
            self.look(&mut known)?;
        }
        Ok(known)
    }

    fn look(&self, known: &mut Known) -> Result<(), Fault> {
        known.written = self.disk.written(&self.folder);
        let names = self.disk.names(&self.folder)?.into_iter();
        let key = |name: OsString| Some(name.to_str()?.strip_suffix(".json")?.to_string());
        known.names = names.filter_map(key).filter(|key| is_key(key)).collect();
        self.count.store(known.names.len() as u64, Relaxed);
        Ok(())
    }

    /// Only this call has changed the folder.
    fn note(&self, known: &mut Known) {
        known.written = self.disk.written(&self.folder);
        self.count.store(known.names.len() as u64, Relaxed);
    }

    /// Keeps a request. It is durable when this returns, and is kept once, however often this is called with the same
    /// key and body.
    pub fn keep(&self, key: &str, reason: &str, body: &[u8]) -> Result<(), Fault> {
        if !is_key(key) {
            let what = format!("{key:?} is not the key of a request");
            let source = io::Error::new(io::ErrorKind::InvalidInput, what);
            return Err(io_fault(&self.folder)(source));
        }
        let mut known = self.known()?;
        if known.of(key).any(|name| self.has(name, body)) {
            // An earlier run may have ended before the name was durable.
            return self.disk.sync_folder(&self.folder);
        }
        let (mut name, mut number) = (key.to_string(), 1);
        while known.names.contains(&name) || self.disk.has(&self.path(&name))? {
            number += 1;
            name = format!("{key}_{number}");
        }
        self.write(&name, reason, body)?;
        known.names.insert(name);
        self.note(&mut known);
        Ok(())
    }

    /// Keeps the request if the disk has room for it; returns whether it has.
    pub fn keep_in_room(&self, key: &str, reason: &str, body: &[u8]) -> Result<bool, Fault> {
        let Some(_reserved) = self.free_space.reserve_for_letter(body.len()) else {
            return Ok(false);
        };
        self.keep(key, reason, body).map(|()| true)
    }

    fn write(&self, name: &str, reason: &str, body: &[u8]) -> Result<(), Fault> {
        let path = self.path(name);
        let letter = DeadLetter {
            key: name.into(),
            since: seconds(),
            reason: reason.chars().take(REASON).collect(),
            bytes: body.len() as u64,
        };
        let mut bytes = serde_json::to_vec(&letter).map_err(io::Error::from).map_err(io_fault(&path))?;
        bytes.push(b'\n');
        bytes.extend_from_slice(body);
        self.free_space.use_up(bytes.len() as u64);
        self.disk.put_file(&path, &bytes)
    }

    /// A letter that can't be read counts as another one: it stays as it is, and the new one gets its own file.
    fn has(&self, name: &str, body: &[u8]) -> bool {
        self.body(name).is_ok_and(|found| found.as_deref() == Some(body))
    }

    /// Removes the letter with this key and body, since the sink has the request now. Letters with other bodies stay.
    pub fn let_go(&self, key: &str, body: &[u8]) -> Result<(), Fault> {
        if self.count() == 0 {
            return Ok(());
        }
        let mut known = self.known()?;
        let taken: Vec<String> = known.of(key).filter(|name| self.has(name, body)).cloned().collect();
        taken.iter().try_for_each(|name| self.remove(&mut known, name, Became::Taken))
    }

    /// All letters, oldest first. A letter that can't be read has the error as its reason.
    pub fn list(&self) -> Result<Vec<DeadLetter>, Fault> {
        let mut letters = Vec::new();
        for key in self.names()? {
            letters.extend(match self.read(&key) {
                Ok(read) => read.map(|(letter, _)| letter),
                Err(fault) => Some(self.unreadable(key, &fault)),
            });
        }
        letters.sort_by(|one, other| (one.since, &one.key).cmp(&(other.since, &other.key)));
        Ok(letters)
    }

    /// Lists the folder again: the caller may have just moved letters by hand.
    fn names(&self) -> Result<BTreeSet<String>, Fault> {
        let mut known = locked(&self.known);
        self.look(&mut known)?;
        Ok(known.names.clone())
    }

    /// What is known of a letter without reading its content.
    fn unreadable(&self, key: String, fault: &Fault) -> DeadLetter {
        let path = self.path(&key);
        let written = self.disk.written(&path);
        let since = written.and_then(|time| time.duration_since(UNIX_EPOCH).ok());
        DeadLetter {
            key,
            since: since.map_or(0, |since| since.as_secs()),
            reason: fault.to_string(),
            bytes: self.disk.length(&path).ok().flatten().unwrap_or(0),
        }
    }

    pub fn body(&self, key: &str) -> Result<Option<Vec<u8>>, Fault> {
        let Some((letter, mut file)) = self.read(key)? else {
            return Ok(None);
        };
        let path = self.path(key);
        let mut body = Vec::new();
        file.read_to_end(&mut body).map_err(io_fault(&path))?;
        if body.len() as u64 != letter.bytes {
            return Err(damaged(path));
        }
        Ok(Some(body))
    }

    /// The head of a letter, and the file positioned after it.
    fn read(&self, key: &str) -> Result<Option<(DeadLetter, BufReader<Cursor>)>, Fault> {
        if !is_key(key) {
            return Ok(None);
        }
        let path = self.path(key);
        let Some(file) = self.disk.find(&path)? else {
            return Ok(None);
        };
        let mut file = BufReader::new(Cursor { file, at: 0 });
        let mut head = Vec::new();
        file.by_ref().take(LONGEST_HEAD).read_until(b'\n', &mut head).map_err(io_fault(&path))?;
        let letter: DeadLetter = serde_json::from_slice(&head).map_err(|_| damaged(path.clone()))?;
        if letter.key != key {
            return Err(damaged(path));
        }
        Ok(Some((letter, file)))
    }

    /// Removes a letter and records what became of it; false if there is none.
    pub fn end(&self, key: &str, became: Became) -> Result<bool, Fault> {
        let mut known = self.known()?;
        if !is_key(key) || !self.disk.has(&self.path(key))? {
            return Ok(false);
        }
        self.remove(&mut known, key, became)?;
        Ok(true)
    }

    fn remove(&self, known: &mut Known, name: &str, became: Became) -> Result<(), Fault> {
        self.note_gone(name, became)?;
        self.disk.remove(&self.path(name))?;
        self.disk.sync_folder(&self.folder)?;
        known.names.remove(name);
        self.note(known);
        Ok(())
    }

    /// Passes each letter to `each` as its file has it, even if it can't be parsed.
    pub fn each(&self, mut each: impl FnMut(&str, Vec<u8>) -> Result<(), Fault>) -> Result<(), Fault> {
        for key in self.names()? {
            let path = self.path(&key);
            let bytes = self.disk.open(&path)?.read_from(0).map_err(io_fault(&path))?;
            each(&key, bytes)?;
        }
        Ok(())
    }

    /// Copies a letter from another folder. Durable when this returns.
    pub fn put(&self, key: &str, bytes: &[u8]) -> Result<(), Fault> {
        let mut known = self.known()?;
        self.disk.put_file(&self.path(key), bytes)?;
        known.names.insert(key.into());
        self.note(&mut known);
        Ok(())
    }

    pub fn count(&self) -> u64 {
        self.count.load(Relaxed)
    }
}

impl Known {
    /// The names of the letters with this key.
    fn of<'a>(&'a self, key: &'a str) -> impl Iterator<Item = &'a String> {
        let beside = format!("{key}_");
        let others = self.names.range(beside.clone()..).take_while(move |name| name.starts_with(&beside));
        self.names.get(key).into_iter().chain(others.filter(move |name| sent_as(name) == key))
    }
}

fn damaged(path: PathBuf) -> Fault {
    let what = "is not a valid dead letter: restore it from a copy, or move it out of this folder";
    Fault::Damaged { path, at: 0, what: what.into() }
}

#[cfg(test)]
mod tests;
