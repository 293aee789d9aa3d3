//! The copy of a folder that `check` reads. It is removed however the check ends.

use crate::service::is_kept;
use anyhow::Context;
use nix::sys::signal::{SigSet, Signal};
use std::fs::{DirBuilder, File};
use std::io::ErrorKind;
use std::os::unix::fs::DirBuilderExt;
use std::path::{Path, PathBuf};

/// How often the removal of a copy is tried.
const REMOVALS: usize = 100;

/// The signals that interrupt a command. From here on only the thread that waits for them gets them.
pub(super) fn interrupts() -> nix::Result<SigSet> {
    let mut signals = SigSet::empty();
    signals.add(Signal::SIGINT);
    signals.add(Signal::SIGTERM);
    signals.thread_block()?;
    Ok(signals)
}

/// Has these signals remove the copy before they end the process, since it may have gigabytes of what senders sent. The
/// exit status is the one that shells give such an end.
pub(super) fn remove_at(interrupts: SigSet, copy: PathBuf) -> std::io::Result<()> {
    let ended = move || {
        if let Ok(signal) = interrupts.wait() {
            remove(&copy);
            std::process::exit(128 + signal as i32);
        }
    };
    std::thread::Builder::new().name("interrupt".into()).spawn(ended)?;
    Ok(())
}

/// Removes the copy, even while files in it are still being made: hence several tries.
fn remove(copy: &Path) {
    let mut fault = None;
    for _ in 0..REMOVALS {
        match std::fs::remove_dir_all(copy) {
            Err(error) if error.kind() != ErrorKind::NotFound => fault = Some(error),
            _ => return,
        }
    }
    if let Some(error) = fault {
        crate::complain(format_args!("{} could not be removed: {error}", copy.display()));
    }
}

/// A copy of the journal, the outbox and the dead letters. It is removed when it is dropped.
pub(super) struct Copy(pub PathBuf);

impl Copy {
    /// An empty copy.
    pub fn made(temporary: &Path) -> anyhow::Result<Copy> {
        let place = temporary.join(format!("totxegun-check-{}", std::process::id()));
        DirBuilder::new()
            .mode(0o700)
            .create(&place)
            .with_context(|| format!("{} can't be made", place.display()))?;
        Ok(Copy(place)) // not before: a folder that was there already must not be removed
    }

    pub fn fill(&self, data: &Path, temporary: &Path) -> anyhow::Result<()> {
        for entry in std::fs::read_dir(data)? {
            let name = entry?.file_name();
            if is_kept(&name) {
                let to = format!("can't be copied to {}: give --temporary", temporary.display());
                copy_all(&data.join(&name), &self.0.join(&name), &to)?;
            }
        }
        Ok(())
    }
}

impl Drop for Copy {
    fn drop(&mut self) {
        remove(&self.0);
    }
}

/// Copies a file, or a folder with everything in it. The copies are writable even if the originals are not.
fn copy_all(from: &Path, to: &Path, why: &str) -> anyhow::Result<()> {
    let unread = || format!("{} can't be read", from.display());
    let uncopied = || format!("{} {why}", from.display());
    if !from.is_dir() {
        let mut file = File::open(from).with_context(unread)?;
        let copied = File::create(to).and_then(|mut copy| std::io::copy(&mut file, &mut copy));
        return copied.map(drop).with_context(uncopied);
    }
    std::fs::create_dir(to).with_context(uncopied)?;
    for entry in std::fs::read_dir(from).with_context(unread)? {
        let name = entry.with_context(unread)?.file_name();
        copy_all(&from.join(&name), &to.join(&name), why)?;
    }
    Ok(())
}
