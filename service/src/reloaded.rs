//! Files that are reloaded when they change: certificates, tokens, settings. Each group of files has a thread of its
//! own that looks at them, so a file system that does not answer blocks nobody else.
//!
//! If changed files can't be used, their last valid contents stay in use.

use crate::log::seconds;
use crate::metrics::Metrics;
use anyhow::{anyhow, Context};
use prometheus::IntGauge;
use sha2::{Digest, Sha256};
use std::fs::File;
use std::io::Read;
use std::os::unix::fs::MetadataExt;
use std::path::{Path, PathBuf};
use std::sync::{Arc, PoisonError, RwLock, Weak};
use std::time::Duration;

/// How often files are looked at. A change is used once two looks have found the same contents, so not while a file is
/// being written, nor if a certificate is there and its key is not yet.
const LOOK: Duration = Duration::from_millis(250);

/// After this time the next change of a file gives it other times, also on a file system with coarse timestamps.
const STEADY: Duration = Duration::from_secs(2);

/// The longest file, in bytes.
const MOST: u64 = 4 << 20;

/// Converts the contents of files, or says what is wrong with them and what to do.
pub type Reading<T> = Box<dyn Fn(&[Vec<u8>]) -> Result<T, String> + Send>;

/// How the contents of files are converted.
pub struct Reader<T> {
    pub read: Reading<T>,
    /// Says why the contents let nobody in, and what to do. A start with such files fails. If files become so later
    /// they are used: whoever removed the last entry wanted that.
    pub shut: fn(&T) -> Option<&'static str>,
}

impl<T> Reader<T> {
    fn at_start(&self, contents: &[Vec<u8>]) -> Result<T, String> {
        let new = (self.read)(contents)?;
        match (self.shut)(&new) {
            Some(why) => Err(why.into()),
            None => Ok(new),
        }
    }
}

/// The last valid contents of the files, converted.
pub struct Reloaded<T>(RwLock<Arc<T>>);

impl<T: Send + Sync + 'static> Reloaded<T> {
    /// Reads files that are used together, each with its option, and reloads them until the returned value is dropped.
    /// The first option stands for all of them in metrics.
    pub fn open(
        files: Vec<(&'static str, PathBuf)>,
        reader: Reader<T>,
        metrics: &Metrics,
    ) -> anyhow::Result<Arc<Reloaded<T>>> {
        let option = files.first().map_or("", |(option, _)| *option);
        let contents = all_contents(&files);
        let seen = digests(&contents);
        let first = all(contents).and_then(|contents| reader.at_start(&contents));
        let first = first.map_err(|why| anyhow!("{option} can't be used: {why}"))?;
        let reloaded = Arc::new(Reloaded(RwLock::new(Arc::new(first))));
        let (judged, into) = (seen.clone(), Arc::downgrade(&reloaded));
        let stale = metrics.stale_files.with_label_values(&[option]);
        let mut files = Files { files, reader, judged, seen, read_at: None, stale, into };
        std::thread::Builder::new()
            .name(option.trim_matches('-').to_string())
            .spawn(move || while files.look() {})
            .context("no thread could be started")?;
        Ok(reloaded)
    }

    /// The current contents.
    pub fn now(&self) -> Arc<T> {
        self.0.read().unwrap_or_else(PoisonError::into_inner).clone() // any value of it is consistent
    }

    fn set(&self, new: T) {
        *self.0.write().unwrap_or_else(PoisonError::into_inner) = Arc::new(new);
    }
}

/// The contents of each file, or why it can't be read.
type Contents = Vec<Result<Vec<u8>, String>>;
type Digests = Vec<Result<[u8; 32], String>>;

/// Files that are used together, each with its option.
struct Files<T> {
    files: Vec<(&'static str, PathBuf)>,
    reader: Reader<T>,
    /// The digests of what was last used or refused.
    judged: Digests,
    /// The digests of what the last look found.
    seen: Digests,
    /// The times of the files when they were last read, if any later change is sure to show in them.
    read_at: Option<Vec<Stamp>>,
    stale: IntGauge,
    into: Weak<Reloaded<T>>,
}

impl<T: Send + Sync + 'static> Files<T> {
    /// Looks at the files once; false if nobody needs them any more.
    fn look(&mut self) -> bool {
        std::thread::sleep(LOOK);
        let Some(into) = self.into.upgrade() else {
            return false;
        };
        let now = stamps(&self.files);
        if now.is_some() && now == self.read_at {
            return true; // unchanged, and judged before
        }
        let contents = all_contents(&self.files);
        let found = digests(&contents);
        let is_settled = found == self.seen;
        self.seen = found;
        if is_settled && self.seen != self.judged {
            let changed = self.changed();
            self.judged = self.seen.clone();
            self.judge(contents, &changed, &into);
        }
        self.read_at = now.filter(|stamps| is_settled && stamps.iter().all(Stamp::is_steady));
        true
    }

    /// The options whose files differ from what was last used or refused.
    fn changed(&self) -> String {
        let found = self.files.iter().zip(self.seen.iter().zip(&self.judged));
        let changed = found.filter(|(_, (seen, judged))| seen != judged);
        let options: Vec<&str> = changed.map(|((option, _), _)| *option).collect();
        options.join(", ")
    }

    /// Uses the changed contents if they are valid; logs the result.
    fn judge(&self, contents: Contents, option: &str, into: &Reloaded<T>) {
        match all(contents).and_then(|contents| (self.reader.read)(&contents)) {
            Ok(new) => {
                match (self.reader.shut)(&new) {
                    None => tracing::info!(option, "the changed file of an option was reloaded"),
                    Some(reason) => {
                        tracing::warn!(option, reason, "the changed file of an option was reloaded")
                    }
                }
                into.set(new);
                self.stale.set(0);
            }
            Err(reason) => {
                self.stale.set(1);
                tracing::warn!(
                    option,
                    reason,
                    "the changed file of an option is not valid, so its former content stays in use"
                );
            }
        }
    }
}

/// The identity, size and times of a file. `changed` differs after each change, even if `modified` was set back.
#[derive(PartialEq, Eq)]
struct Stamp {
    device: u64,
    inode: u64,
    size: u64,
    modified: (i64, i64),
    changed: (i64, i64),
}

impl Stamp {
    fn of(path: &Path) -> Option<Stamp> {
        let found = std::fs::metadata(path).ok()?;
        Some(Stamp {
            device: found.dev(),
            inode: found.ino(),
            size: found.size(),
            modified: (found.mtime(), found.mtime_nsec()),
            changed: (found.ctime(), found.ctime_nsec()),
        })
    }

    /// Whether any later change will have another time.
    fn is_steady(&self) -> bool {
        self.changed.0 + (STEADY.as_secs() as i64) < seconds() as i64
    }
}

/// None if one of the files is missing.
fn stamps(files: &[(&str, PathBuf)]) -> Option<Vec<Stamp>> {
    files.iter().map(|(_, path)| Stamp::of(path)).collect()
}

fn all_contents(files: &[(&str, PathBuf)]) -> Contents {
    files.iter().map(|(_, path)| contents(path)).collect()
}

/// The contents of all files, or why the first unreadable one can't be read.
fn all(contents: Contents) -> Result<Vec<Vec<u8>>, String> {
    contents.into_iter().collect()
}

fn contents(path: &Path) -> Result<Vec<u8>, String> {
    let mut bytes = Vec::new();
    let read = File::open(path).and_then(|file| file.take(MOST + 1).read_to_end(&mut bytes));
    read.map_err(|error| format!("{} can't be read: {error}", path.display()))?;
    match bytes.len() as u64 <= MOST {
        true => Ok(bytes),
        false => Err(format!("{} is longer than 4 MiB: name another file", path.display())),
    }
}

fn digests(contents: &Contents) -> Digests {
    let digest = |bytes: &Vec<u8>| Sha256::digest(bytes).into();
    let one = |read: &Result<Vec<u8>, String>| read.as_ref().map(digest).map_err(String::clone);
    contents.iter().map(one).collect()
}

#[cfg(test)]
mod tests {
    use super::*;
    use std::time::Instant;

    /// A file with a number.
    fn number(path: &Path, metrics: &Metrics) -> anyhow::Result<Arc<Reloaded<u64>>> {
        let read = |contents: &[Vec<u8>]| {
            let text = String::from_utf8_lossy(&contents[0]);
            text.parse().map_err(|_| "write a number".to_string())
        };
        let reader = Reader {
            read: Box::new(read),
            shut: |number| (*number == 0).then_some("0 is none: write another number"),
        };
        Reloaded::open(vec![("--number", path.into())], reader, metrics)
    }

    /// Files that were never looked at, whose contents are used as they are.
    fn files(paths: Vec<(&'static str, PathBuf)>) -> Files<Vec<u8>> {
        let metrics = Metrics::new().unwrap();
        Files {
            files: paths,
            reader: Reader { read: Box::new(|contents| Ok(contents.concat())), shut: |_| None },
            judged: Vec::new(),
            seen: Vec::new(),
            read_at: None,
            stale: metrics.stale_files.with_label_values(&["--number"]),
            into: Weak::new(),
        }
    }

    fn is_within(time: Duration, is_so: impl Fn() -> bool) -> bool {
        let begun = Instant::now();
        while !is_so() {
            if begun.elapsed() > time {
                return false;
            }
            std::thread::sleep(Duration::from_millis(5));
        }
        true
    }

    #[test]
    fn what_changes_is_used_within_a_second_and_what_is_broken_is_not() {
        let at = tempfile::tempdir().unwrap();
        let (path, metrics) = (at.path().join("number"), Metrics::new().unwrap());
        assert!(number(&path, &metrics).err().unwrap().to_string().starts_with("--number can't be used: "));
        std::fs::write(&path, "x").unwrap();
        let refused = number(&path, &metrics).err().unwrap().to_string();
        assert_eq!(refused, "--number can't be used: write a number");
        std::fs::write(&path, "1").unwrap();
        let reloaded = number(&path, &metrics).unwrap();
        let stale = metrics.stale_files.with_label_values(&["--number"]);
        let second = Duration::from_secs(1);
        assert_eq!((*reloaded.now(), stale.get()), (1, 0));
        std::fs::write(&path, "2").unwrap();
        assert!(is_within(second, || *reloaded.now() == 2));
        std::fs::write(&path, "two").unwrap();
        assert!(is_within(second, || stale.get() == 1));
        assert_eq!(*reloaded.now(), 2);
        std::fs::remove_file(&path).unwrap();
        std::thread::sleep(4 * LOOK);
        assert_eq!((*reloaded.now(), stale.get()), (2, 1));
        std::fs::write(&path, "2").unwrap();
        assert!(is_within(second, || stale.get() == 0));
    }

    #[test]
    fn what_lets_nobody_in_is_used_but_for_a_start() {
        let at = tempfile::tempdir().unwrap();
        let (path, metrics) = (at.path().join("number"), Metrics::new().unwrap());
        std::fs::write(&path, "0").unwrap();
        let refused = number(&path, &metrics).err().unwrap().to_string();
        assert_eq!(refused, "--number can't be used: 0 is none: write another number");
        std::fs::write(&path, "1").unwrap();
        let reloaded = number(&path, &metrics).unwrap();
        std::fs::write(&path, "0").unwrap();
        assert!(is_within(Duration::from_secs(1), || *reloaded.now() == 0));
    }

    #[test]
    fn what_goes_on_changing_is_not_used() {
        let at = tempfile::tempdir().unwrap();
        let path = at.path().join("number");
        std::fs::write(&path, "1").unwrap();
        let mut files = files(vec![("--number", path.clone())]);
        let reloaded = Arc::new(Reloaded(RwLock::new(Arc::new(b"0".to_vec()))));
        files.into = Arc::downgrade(&reloaded);
        for text in ["12", "123", "1234"] {
            assert!(files.look());
            assert_eq!(*reloaded.now(), b"0");
            std::fs::write(&path, text).unwrap();
        }
        assert!(files.look() && files.look());
        assert_eq!(*reloaded.now(), b"1234");
        drop(reloaded);
        assert!(!files.look());
    }

    /// How many bytes this thread has read so far, as Linux counts them.
    fn bytes_read() -> u64 {
        let account = std::fs::read_to_string("/proc/thread-self/io").unwrap();
        let all = account.lines().find_map(|line| line.strip_prefix("rchar: ")?.parse().ok());
        all.unwrap()
    }

    /// Otherwise all files would be read and hashed four times a second.
    #[test]
    fn a_file_that_stays_as_it_is_is_not_read_again() {
        let at = tempfile::tempdir().unwrap();
        let path = at.path().join("number");
        let length = 1 << 20;
        std::fs::write(&path, vec![b'1'; length]).unwrap();
        std::thread::sleep(STEADY + Duration::from_secs(1)); // a file that was just written may be written again without another time
        let mut files = files(vec![("--number", path.clone())]);
        let reloaded = Arc::new(Reloaded(RwLock::new(Arc::new(Vec::new()))));
        files.into = Arc::downgrade(&reloaded);
        assert!(files.look() && files.look());
        assert_eq!(reloaded.now().len(), length);
        let before = bytes_read();
        assert!(files.look() && files.look() && files.look());
        assert!(bytes_read() - before < length as u64, "{}", bytes_read() - before);
        // With the same length, and the old modification time.
        let old = std::fs::metadata(&path).unwrap().modified().unwrap();
        std::fs::write(&path, vec![b'2'; length]).unwrap();
        std::fs::File::options().write(true).open(&path).unwrap().set_modified(old).unwrap();
        assert!(files.look() && files.look());
        assert_eq!(reloaded.now()[0], b'2');
    }

    /// Otherwise whoever renews a certificate would be told that another file has changed.
    #[test]
    fn the_file_that_has_changed_is_named() {
        let at = tempfile::tempdir().unwrap();
        let options = ["--tls-cert", "--tls-key", "--client-ca"];
        let paths: Vec<_> = options.map(|option| (option, at.path().join(option))).into();
        for (_, path) in &paths {
            std::fs::write(path, "1").unwrap();
        }
        let mut files = files(paths);
        files.judged = digests(&all_contents(&files.files));
        let mut changed = |what: &dyn Fn(&Path)| {
            what(at.path());
            files.seen = digests(&all_contents(&files.files));
            let changed = files.changed();
            files.judged = files.seen.clone();
            changed
        };
        let write = |at: &Path, name: &str| std::fs::write(at.join(name), "2").unwrap();
        assert_eq!(changed(&|at| write(at, "--client-ca")), "--client-ca");
        let pair = changed(&|at| ["--tls-cert", "--tls-key"].iter().for_each(|name| write(at, name)));
        assert_eq!(pair, "--tls-cert, --tls-key");
        let gone = changed(&|at| std::fs::remove_file(at.join("--tls-key")).unwrap());
        assert_eq!(gone, "--tls-key");
    }
}
