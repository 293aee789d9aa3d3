//! `totxegun check`: says what a start would find in a folder, and changes nothing in it.
//!
//! The files are copied, and the copy is opened by the same code as at a start, so what is said is what a start would
//! do. Meanwhile the folder is locked.

mod copy;
mod posts;

use super::table::Table;
use super::{json, values, Ended, Form};
use crate::journal::{Journal, Replayed};
use crate::log::shown;
use crate::outbox::{Outbox, UnitOfMetric};
use crate::post_reports::SERIES_SHOWN;
use crate::service::is_made;
use crate::storage::{Dropped, Durability, Fault, Folder};
use anyhow::{bail, Context};
use clap::Args;
use copy::{interrupts, remove_at, Copy};
use nix::fcntl::{flock, FlockArg};
use serde::Serialize;
use std::collections::{BTreeSet, HashSet};
use std::fs::File;
use std::io::ErrorKind;
use std::os::fd::AsRawFd;
use std::path::{Path, PathBuf};
use std::time::Duration;

/// How often the folder's lock is tried, and the pause between two tries.
const TRIES: u32 = 50;
const PAUSE: Duration = Duration::from_millis(20);

#[derive(Args)]
pub struct Options {
    /// The service's folder; the service must not be running
    #[arg(value_name = "DIR")]
    data: PathBuf,
    /// Where to copy the files to while they are read [default: the system's folder for temporary files]
    #[arg(long, value_name = "DIR")]
    temporary: Option<PathBuf>,
    /// Prints each post that is in no group of the outbox as a line of JSON, instead of the summary
    #[arg(long)]
    posts: bool,
    #[command(flatten)]
    form: Form,
}

/// What a start would find.
#[derive(Debug, Default, PartialEq, Eq, Serialize)]
struct CheckReport {
    /// The sink of the last start.
    sink: Option<String>,
    segments: u64,
    journal_bytes: u64,
    /// Posts that are in no group: a start gives them to the book.
    posts: u64,
    post_bytes: u64,
    senders: usize,
    /// Requests that the sink does not have.
    waiting: u64,
    outbox_bytes: u64,
    series: usize,
    quarantined: Vec<String>,
    /// Metrics, each with a unit that a rule of `--integer-unit` brought beside a finer one: no other of its name is taken in it.
    beside: BTreeSet<UnitOfMetric>,
    /// Those of the posts that are parked, in files of quarantined senders.
    parked_posts: u64,
    parked_bytes: u64,
    dead_letters: u64,
    /// Whether requests made after a start get keys of a new epoch: the folder was copied, or its lock is gone.
    new_epoch: bool,
    /// What a start leaves out of a file, and keeps in a file beside it.
    dropped: Vec<String>,
    /// A fault for each changed request. A start stops the delivery of its shard there; everything else goes on.
    faults: Vec<String>,
}

impl Options {
    pub fn run(self) -> Result<Vec<u8>, Ended> {
        let _kept_still = lock(&self.data)?;
        Folder::check_usable(&self.data)?;
        let temporary = self.temporary.clone().unwrap_or_else(std::env::temp_dir);
        let interrupts = interrupts().context("signals can't be received")?;
        let copy = Copy::made(&temporary)?;
        remove_at(interrupts, copy.0.clone()).context("no thread could be started")?;
        copy.fill(&self.data, &temporary)?;
        let in_data = |failure| in_the_original(failure, &copy.0, &self.data);
        if self.posts {
            return posts::print(&copy.0).map(|()| Vec::new()).map_err(in_data);
        }
        let found = found(&copy.0).map_err(in_data)?;
        show_found(found, &copy.0, &self.data, self.form)
    }
}

/// Prints what was found. If a request was changed, the first fault also ends the command.
fn show_found(mut found: CheckReport, copy: &Path, data: &Path, form: Form) -> Result<Vec<u8>, Ended> {
    found.new_epoch = Folder::is_moved(data);
    let (inner, outer) = (copy.display().to_string(), data.display().to_string());
    for text in found.dropped.iter_mut().chain(&mut found.faults) {
        *text = text.replace(&inner, &outer);
    }
    let shown = match form.json {
        true => json(&found)?,
        false => text(&found, data).into(),
    };
    match &found.faults[..] {
        [] => Ok(shown),
        [first, ..] => {
            super::show(&shown)?;
            Err(Ended::Changed(first.clone()))
        }
    }
}

/// Keeps a service from starting on the folder while it is copied. Nothing is written: if the lock file was deleted,
/// the folder itself is locked instead.
fn lock(data: &Path) -> anyhow::Result<File> {
    look_at(data)?;
    if let Some(place) = in_store(data) {
        bail!(
            "{place} has no folder of shards to read: an instance has them in its --store, and checks each when it takes it. \
             `totxegun status` shows them, its log what is wrong with one, and `totxegun store check` whether a store counts. \
             Without --store a start would begin anew there"
        );
    }
    if !is_made(data) {
        bail!(
            "{} is no folder of totxegun: there is no {}. A start would begin a new one there",
            data.display(),
            data.join("version").display()
        );
    }
    let lock = data.join("lock");
    let path = if lock.exists() { lock } else { data.to_path_buf() };
    let file = File::open(&path).with_context(|| format!("{} can't be read", path.display()))?;
    // A process that is being forked holds the file open for a moment, even if its parent has ended already.
    let is_free = |try_number: u32| {
        std::thread::sleep(PAUSE * try_number.min(1));
        flock(file.as_raw_fd(), FlockArg::LockSharedNonblock).is_ok()
    };
    if !(0..TRIES).any(is_free) {
        bail!("{} is in use by a running service: `totxegun status` shows how it is", data.display());
    }
    Ok(file)
}

/// Refuses what a start would refuse. Nothing is written, since the folder may be a read-only backup.
fn look_at(data: &Path) -> anyhow::Result<()> {
    match std::fs::read_dir(data) {
        Err(error) if error.kind() != ErrorKind::NotFound => {
            return Err(error).with_context(|| format!("{} can't be read as a folder", data.display()));
        }
        _ => {}
    }
    let files = ["lock", "version"].map(|name| data.join(name));
    match files.iter().find(|file| file.is_dir()) {
        Some(file) => bail!("{} is a folder, but has to be a file: remove it", file.display()),
        None => Ok(()),
    }
}

/// What messages call a place that has no shards: a store, or the folder of an instance, which has only its socket and
/// its audit log. None for other places.
fn in_store(data: &Path) -> Option<String> {
    let text = data.to_string_lossy().to_ascii_lowercase();
    if text.starts_with("postgres:") || text.starts_with("postgresql:") {
        return Some("a store".into()); // the address may have a password
    }
    let has = |name: &str| data.join(name).exists();
    let is_of_instance = (has("acts.jsonl") || has(values::SOCKET_NAME)) && !is_made(data);
    is_of_instance.then(|| data.display().to_string())
}

fn found(copy: &Path) -> Result<CheckReport, Ended> {
    let folder = Folder::open(copy, Durability::Process)?;
    let mut found = CheckReport {
        sink: folder.sink().map(|sink| sink.to_string()),
        dead_letters: folder.dead()?.count(),
        ..CheckReport::default()
    };
    found.segments = segments(&copy.join("shard-0/journal"));
    let (journal, outbox) = folder.shard()?;
    found.journal_bytes = journal.size().0;
    let held = journal.held();
    (found.parked_posts, found.parked_bytes) = (held.posts, held.bytes);
    found.dropped.extend(journal.dropped().iter().map(Dropped::to_string));
    found.add(&outbox)?;
    count_posts(&journal, &outbox, &mut found)?;
    Ok(found)
}

impl CheckReport {
    /// Adds what the outbox has, as a start finds it.
    fn add(&mut self, outbox: &Outbox) -> Result<(), Fault> {
        (self.waiting, self.outbox_bytes, _) = outbox.waiting();
        self.series = outbox.series_count();
        self.quarantined.extend(outbox.quarantined());
        self.beside = outbox.beside();
        self.dropped.extend(outbox.dropped().iter().map(Dropped::to_string));
        self.faults.extend(outbox.find_changed()?.iter().map(Fault::to_string));
        Ok(())
    }
}

fn count_posts(journal: &Journal, outbox: &Outbox, found: &mut CheckReport) -> Result<(), Fault> {
    let (end, _) = journal.roll();
    let mut senders = HashSet::new();
    journal.posts(outbox.journal(), end, |Replayed { post, .. }| {
        found.posts += 1;
        found.post_bytes += post.body.bytes();
        senders.insert(post.sender);
        true
    })?;
    found.senders = senders.len();
    Ok(())
}

fn segments(folder: &Path) -> u64 {
    let entries = std::fs::read_dir(folder).into_iter().flatten().flatten();
    let is_segment = |path: PathBuf| path.extension().is_some_and(|extension| extension == "seg");
    entries.filter(|entry| is_segment(entry.path())).count() as u64
}

/// Has a fault name the file in the folder that was given, not in the copy.
fn in_the_original(failure: Ended, copy: &Path, data: &Path) -> Ended {
    let original = |path: PathBuf| path.strip_prefix(copy).map(|rest| data.join(rest)).unwrap_or(path);
    match failure {
        Ended::Disk(Fault::Io { path, source }) => Ended::Disk(Fault::Io { path: original(path), source }),
        Ended::Disk(Fault::Damaged { path, at, what }) => {
            Ended::Disk(Fault::Damaged { path: original(path), at, what })
        }
        other => other,
    }
}

fn text(found: &CheckReport, data: &Path) -> String {
    let mut table = Table::new(&["folder".to_string(), data.display().to_string()]);
    let mut row = |name: &str, text: String| table.row(&[name, text.as_str()]);
    let (bytes, counted) = (values::bytes_shown, values::counted);
    row("sink", found.sink.clone().unwrap_or_else(|| "none yet".into()));
    row("journal", format!("{}, {}", counted(found.segments, "segment"), bytes(found.journal_bytes)));
    row(
        "posts not flushed",
        format!(
            "{} of {}, {}",
            found.posts,
            counted(found.senders as u64, "sender"),
            bytes(found.post_bytes)
        ),
    );
    row("requests for the sink", format!("{}, {}", found.waiting, bytes(found.outbox_bytes)));
    row("series", found.series.to_string());
    row("quarantined", values::senders_shown(&found.quarantined));
    row("held back", format!("{}, {}", counted(found.parked_posts, "post"), bytes(found.parked_bytes)));
    row("refused for good", counted(found.dead_letters, "request"));
    for (metric, unit) in &found.beside {
        row("by a rule alone", format!("{unit} of {}", shown(metric, SERIES_SHOWN)));
    }
    if found.new_epoch {
        row("keys", "new ones from a start on: this folder was copied, or its lock is gone".into());
    }
    for dropped in &found.dropped {
        row("left out", dropped.clone());
    }
    for fault in &found.faults {
        row(
            "fault",
            format!("{fault}. A start goes on, but delivers no request of this shard from there on"),
        );
    }
    if found.faults.is_empty() {
        row("faults", "none".into());
    }
    let posts = found.posts;
    format!("{table}\nA start tells the book its series, gives it the posts ({posts} in all), and delivers the requests in order.\n")
}

#[cfg(test)]
mod tests;
