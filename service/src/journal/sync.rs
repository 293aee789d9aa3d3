//! The threads of the journal. The sync thread makes everything durable that callers wait for, with one `fdatasync` for
//! all. With `--durability process`, the writer thread writes for callers that are not on serving threads; serving
//! threads write themselves.

use super::watermark::Wanted;
use super::{locked, Journal, Shared};
use crate::storage::shard_store::Fenced;
use crate::storage::Fault;
use std::sync::Arc;
use std::time::Duration;

/// How long appended posts stay unsynced if no caller waits: the most that a loss of power takes with `--durability
/// process`.
const IDLE: Duration = Duration::from_secs(1);
/// How long no caller must have waited before the last record gets its watermark.
const QUIET: Duration = Duration::from_millis(100);

/// The next job of the sync thread.
enum Due {
    Sync,
    Mark,
    End,
}

impl Shared {
    /// Makes everything appended so far durable. A failure ends the process before any other thread can sync: after a
    /// failed sync, the next one reports success for bytes that the disk does not have.
    pub fn sync(&self) {
        let _one = locked(&self.syncing);
        if let Err(fault) = self.try_sync() {
            let Fenced = self.disk.fail(fault);
            self.durable.give_up();
        }
    }

    /// `sync` for a caller that has the journal alone, and handles the fault itself.
    pub(super) fn try_sync(&self) -> Result<(), Fault> {
        let (ended, file, path, number, at, named, ticket) = self.written(|place| {
            let segment = &place.segment;
            (
                std::mem::take(&mut place.ended),
                segment.file.clone(),
                segment.path.clone(),
                segment.number,
                segment.at,
                place.named,
                place.ticket,
            )
        })?;
        let length = locked(&self.place).segment.length(); // of the segment above; if it has rolled since, the length is not noted
        for (file, path) in &ended {
            self.disk.barrier(file, path)?;
        }
        match named {
            true => self.disk.sync(&file, &path)?,
            false => {
                self.disk.barrier(&file, &path)?;
                self.disk.sync_folder(&self.folder)?;
            }
        }
        {
            let mut place = locked(&self.place);
            if place.segment.number == number {
                place.segment.note_durable(at, length);
                place.named = true;
            }
        }
        // In a shard store, everything up to the moment when the commit began, which includes what was appended after
        // `ticket`.
        self.durable.reach(self.disk.durable().unwrap_or(ticket));
        Ok(())
    }

    /// Returns when there is a job.
    fn wait(&self) -> Due {
        let mut waited = Duration::ZERO;
        loop {
            let pause = if waited < IDLE { QUIET } else { IDLE };
            match self.durable.wanted(pause) {
                _ if self.disk.is_fenced() => return Due::End,
                Wanted::End => return Due::End,
                Wanted::Now => return Due::Sync,
                Wanted::Nobody => waited += pause,
            }
            // If a writer holds the lock, this thread does not wait for it.
            let Ok(place) = self.place.try_lock() else {
                continue;
            };
            let is_behind = !self.durable.has(place.ticket) || self.disk.is_behind();
            if waited >= IDLE && is_behind {
                return Due::Sync;
            }
            if place.segment.needs_mark() {
                return Due::Mark;
            }
        }
    }

    /// Writes a watermark after the last record. The watermark itself need not be durable.
    fn mark_last(&self) {
        self.alone(|place| {
            if let Err(fault) = place.segment.mark_last() {
                let Fenced = self.disk.fail(fault);
            }
        });
    }

    /// Makes the next segment in advance, so that a roll only has to name it. In a shard store, making one never
    /// blocks.
    fn prepare(&self) {
        if self.disk.keeps_order() {
            return;
        }
        let (number, forgotten) = {
            let place = locked(&self.place);
            (place.segment.number + 1, place.segment.forgotten())
        };
        let mut next = locked(&self.next);
        if next.as_ref().is_some_and(|next| next.number >= number) {
            return;
        }
        match super::prepare(&self.disk, &self.folder, number, self.durability, forgotten) {
            Ok(made) => *next = Some(made),
            Err(fault) => self.disk.end(&fault),
        }
    }

    pub fn run(self: Arc<Self>) {
        loop {
            match self.wait() {
                Due::Sync => {
                    self.sync();
                    self.prepare();
                }
                Due::Mark => self.mark_last(),
                Due::End => {
                    if self.disk.is_fenced() {
                        self.durable.give_up(); // later callers get the error before they wait
                    }
                    return;
                }
            }
        }
    }

    /// Writes for all callers that wait.
    pub fn run_writer(self: Arc<Self>) {
        loop {
            match self.written.wanted(IDLE) {
                // A failure ends the process, since only a folder has this thread.
                Wanted::Now => drop(self.written(|_| ())),
                Wanted::Nobody => {}
                Wanted::End => return,
            }
        }
    }
}

/// Ends the segment, so that the next start can tell a changed record from a torn one everywhere in it. A shard store
/// tears nothing, and everything that was answered is durable there, so nothing is left to do.
impl Drop for Journal {
    fn drop(&mut self) {
        self.shared.durable.end();
        self.shared.written.end();
        if self.shared.disk.keeps_order() {
            return;
        }
        for thread in self.threads.drain(..) {
            let _ = thread.join();
        }
        if let Some(next) = locked(&self.shared.next).take() {
            self.shared.disk.discard(&next.path); // otherwise the next start removes it
        }
        self.shared.sync();
        let ended = self.shared.alone(|place| place.segment.end());
        if let Err(fault) = ended {
            self.shared.disk.end(&fault);
        }
        self.shared.sync();
    }
}
