//! A sink that is a SQLite file: a row for each series, a row for each interval, exact totals, and each key once.
//!
//! One thread has the connection, since calls of SQLite wait for the disk. It opens the file when it has to, and again
//! after a fault. Whatever is wrong with the file is a reason to retry, so no request is lost by it.

mod cached;
mod fault;
mod hours;
mod periods;
pub(super) mod reading;
mod schema;
mod series_row;
mod store;
mod total;
mod upkeep;
mod wide_integers;
mod writing;

#[cfg(test)]
mod tests;

use super::periods::{PeriodAction, PeriodOutcome};
use super::sql::{NotTaken, Sent};
use super::{Answer, DeliveryOutcome, Forwarded, Keys, Memory, Owners, Retention, Sink};
use crate::book::give_back_of_thread;
use crate::storage::Tenure;
use anyhow::Context;
use fault::Fault;
use std::path::{Path, PathBuf};
use std::slice::from_ref;
use std::sync::mpsc::{self, RecvTimeoutError};
use std::sync::Arc;
use std::thread::JoinHandle;
use std::time::{Duration, SystemTime, UNIX_EPOCH};
use store::{FileState, Store};
use tokio::sync::oneshot;
use upkeep::Upkeep;

/// How often the thread checks that the log is still there, while nothing is written.
const LOOK: Duration = Duration::from_secs(1);
/// How long other processes may have the file between two steps of its upkeep.
const PAUSE: Duration = Duration::from_millis(10);

pub struct SqliteSink {
    path: PathBuf,
    /// None once this is dropped. A shard sends one request at a time, so no more jobs wait than there are shards.
    jobs: Option<mpsc::Sender<Job>>,
    thread: Option<JoinHandle<()>>,
    keys: Keys,
    owners: Arc<Owners>,
}

type Job = Box<dyn FnOnce(&mut Writer) + Send>;

impl SqliteSink {
    /// Opens the file, and makes it if there is none. A file that can't be opened now is opened at a later delivery.
    /// One that must not be written (of a later version, of another program, or another than is remembered) is an
    /// error.
    pub fn open(path: &Path, retention: Retention, memory: Arc<dyn Memory>) -> anyhow::Result<SqliteSink> {
        let owners = Arc::<Owners>::default();
        let mut writer = Writer {
            path: path.into(),
            store: None,
            memory,
            owners: owners.clone(),
            upkeep: Upkeep::new(retention),
            was_replaced: false,
            is_told: false,
            is_kept: true,
        };
        if let Err(fault) = writer.store() {
            if fault.is_lasting() {
                return Err(fault.at(path));
            }
            let reason = fault.at(path).to_string();
            tracing::warn!(reason, "the sink can't be used: each delivery opens it again");
        }
        let (jobs, received) = mpsc::channel::<Job>();
        let write = move || writer.run(&received);
        let thread = std::thread::Builder::new().name("sqlite".into()).spawn(write);
        let thread =
            thread.with_context(|| format!("the thread that writes {} can't be started", path.display()))?;
        let keys = Keys::default();
        Ok(SqliteSink { path: path.into(), jobs: Some(jobs), thread: Some(thread), keys, owners })
    }

    fn send<'a>(&'a self, all: &[Forwarded], sent: Sent) -> Answer<'a, DeliveryOutcome> {
        let all = all.to_vec();
        let fate = self.ask(move |writer| writer.take(&all, sent));
        Box::pin(async { fate.await.unwrap_or_else(DeliveryOutcome::away) })
    }

    /// Has the thread do a job, and returns its answer.
    async fn ask<T: Send + 'static>(
        &self,
        job: impl FnOnce(&mut Writer) -> T + Send + 'static,
    ) -> Result<T, String> {
        let ended = || format!("{}: the thread that writes it has ended", self.path.display());
        let (done, answer) = oneshot::channel();
        let jobs = self.jobs.as_ref().ok_or_else(ended)?;
        let job = |writer: &mut Writer| drop(done.send(job(writer)));
        jobs.send(Box::new(job)).map_err(|_| ended())?;
        answer.await.map_err(|_| ended())
    }
}

impl Sink for SqliteSink {
    fn deliver<'a>(&'a self, request: &'a Forwarded) -> Answer<'a, DeliveryOutcome> {
        self.send(from_ref(request), Sent::ByHand)
    }

    fn deliver_of<'a>(
        &'a self,
        request: &'a Forwarded,
        _tenure: Option<&'a Tenure>,
    ) -> Answer<'a, DeliveryOutcome> {
        self.send(from_ref(request), Sent::InOrder)
    }

    fn most_together(&self) -> usize {
        super::TOGETHER
    }

    fn deliver_together<'a>(&'a self, all: &'a [Forwarded], _tenure: Option<&'a Tenure>) -> Answer<'a, bool> {
        let fate = self.send(all, Sent::InOrder);
        Box::pin(async { fate.await == DeliveryOutcome::Taken })
    }

    fn apply<'a>(&'a self, who: &'a str, deed: &'a PeriodAction) -> Answer<'a, PeriodOutcome> {
        let (who, deed) = (who.to_string(), deed.clone());
        let told = self.ask(move |writer| writer.apply(&who, &deed));
        Box::pin(async { told.await.unwrap_or_else(PeriodOutcome::Later) })
    }

    fn name(&self) -> String {
        format!("sqlite {}", self.path.display())
    }

    fn keys(&self) -> &Keys {
        &self.keys
    }

    fn owners(&self) -> Option<&Owners> {
        Some(&self.owners)
    }
}

/// Waits for the request that is being written, and leaves the file closed.
impl Drop for SqliteSink {
    fn drop(&mut self) {
        self.jobs = None;
        if let Some(thread) = self.thread.take() {
            let _ = thread.join();
        }
    }
}

/// The state of the thread.
struct Writer {
    path: PathBuf,
    store: Option<Store>,
    memory: Arc<dyn Memory>,
    owners: Arc<Owners>,
    upkeep: Upkeep,
    /// Whether the open file was found replaced, and none was opened since.
    was_replaced: bool,
    /// Whether the log says already that the content of a deleted -wal can't be saved.
    is_told: bool,
    /// Whether the last step of the upkeep succeeded.
    is_kept: bool,
}

impl Writer {
    fn store(&mut self) -> Result<&mut Store, Fault> {
        let open = match self.store.take() {
            Some(store) => self.sound(store)?,
            None => None,
        };
        let store = match open {
            Some(store) => store,
            None => Store::open(&self.path, &|id| self.memory.admit(id, self.was_replaced))?,
        };
        self.was_replaced = false;
        Ok(self.store.insert(store))
    }

    /// Returns the open file, unless rows that are written to it would be lost. If its -wal was deleted, what only that
    /// has is copied into the file first; until that succeeds the file stays open.
    fn sound(&mut self, store: Store) -> Result<Option<Store>, Fault> {
        let path = self.path.display();
        match store.file_state() {
            FileState::Intact => return Ok(Some(store)),
            FileState::Gone => {
                tracing::error!(
                    %path,
                    "the sink's file was deleted or replaced: the file with this name lacks everything that was delivered \
                     so far"
                );
                self.was_replaced = true;
            }
            FileState::WithoutLog => match store.copy_log() {
                Ok(()) => tracing::error!(
                    %path,
                    "the -wal or -shm of the sink's file was deleted or replaced: its content was copied into the file"
                ),
                Err(fault) => {
                    self.store = Some(store);
                    return Err(fault);
                }
            },
        }
        Ok(None)
    }

    /// Saves the content of a deleted -wal. If the file itself is gone, a new one is made only when there is something
    /// to write, since somebody may be moving the file.
    fn look(&mut self) {
        if !self.is(FileState::WithoutLog) {
            return;
        }
        let fault = self.store().err();
        if let Some(fault) = fault.filter(|_| !self.is_told).map(|fault| fault.at(&self.path)) {
            let reason = fault.to_string();
            tracing::error!(reason, "the -wal of the sink's file was deleted, and can't be saved");
        }
        self.is_told = self.is(FileState::WithoutLog);
    }

    /// Runs until nobody can send any more. If the service ends, nobody waits for the answer: the key says the next
    /// time that the request was taken.
    fn run(&mut self, received: &mpsc::Receiver<Job>) {
        let (mut wait, mut before) = (LOOK, None);
        loop {
            match received.recv_timeout(wait) {
                Ok(job) => job(self),
                Err(RecvTimeoutError::Timeout) => {
                    self.look();
                    before = give_back_of_thread(before);
                }
                Err(RecvTimeoutError::Disconnected) => return,
            }
            wait = if self.keep_up() { PAUSE } else { LOOK };
        }
    }

    /// Does a step of the upkeep if the file is open. Returns whether there is another step.
    fn keep_up(&mut self) -> bool {
        let is_to_go_on =
            |store: &&mut Store| self.upkeep.is_due() && store.file_state() == FileState::Intact;
        let Some(store) = self.store.as_mut().filter(is_to_go_on) else {
            return false;
        };
        let now = SystemTime::now().duration_since(UNIX_EPOCH).unwrap_or_default();
        let now = u64::try_from(now.as_nanos()).unwrap_or(u64::MAX);
        match self.upkeep.go_on(&mut store.connection, now).map_err(Fault::from) {
            Ok(more) => {
                self.is_kept = true;
                more
            }
            Err(fault) => {
                self.close_after(&fault);
                if std::mem::replace(&mut self.is_kept, false) {
                    let reason = fault.at(&self.path).to_string();
                    tracing::warn!(reason, "old rows of the sink could not be deleted: retried later");
                }
                false
            }
        }
    }

    fn close_after(&mut self, fault: &Fault) {
        if !fault.leaves_the_file_whole() && !self.is(FileState::WithoutLog) {
            self.store = None;
        }
    }

    fn is(&self, state: FileState) -> bool {
        self.store.as_ref().is_some_and(|store| store.file_state() == state)
    }

    /// Takes one request, or several, which are all taken or none of them.
    fn take(&mut self, all: &[Forwarded], sent: Sent) -> DeliveryOutcome {
        let Some(first) = all.first() else { return DeliveryOutcome::Taken };
        let owners = self.owners.of(first);
        match self.store().map_err(NotTaken::from).and_then(|store| store.take(all, sent, owners)) {
            // The rows went where nobody will read them. The request comes again, and its key shows whether it is
            // there.
            Ok(_) if !self.is(FileState::Intact) => DeliveryOutcome::away(format!(
                "{} or its -wal was deleted meanwhile: it is opened again",
                self.path.display()
            )),
            Ok(left) => left.fate(&first.body),
            Err(NotTaken::Refused(reason)) => DeliveryOutcome::refused(reason),
            Err(NotTaken::Failed(fault) | NotTaken::Fault(fault)) => {
                self.close_after(&fault);
                DeliveryOutcome::away(fault.at(&self.path).to_string())
            }
        }
    }

    /// If the file is opened again meanwhile, the outcome is unknown, and the operator may ask again.
    fn apply(&mut self, who: &str, deed: &PeriodAction) -> PeriodOutcome {
        match self.store().and_then(|store| store.apply(who, deed)) {
            Ok(_) if !self.is(FileState::Intact) => {
                PeriodOutcome::Later(format!("{} or its -wal was deleted meanwhile", self.path.display()))
            }
            Ok(told) => told,
            Err(fault) => {
                self.close_after(&fault);
                PeriodOutcome::Later(fault.at(&self.path).to_string())
            }
        }
    }
}
