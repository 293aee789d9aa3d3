//! The open file. A request is one transaction, whole or not at all.

use super::cached;
use super::fault::Fault;
use super::periods::Periods;
use super::schema;
use super::series_row::SeriesIds;
use super::writing::Writing;
use crate::otlp::series::Digest;
use crate::sink::left_out::LeftOut;
use crate::sink::periods::{PeriodAction, PeriodOutcome};
use crate::sink::sql::{self, Content, Request, Sent};
use crate::sink::{Forwarded, KnowsOwners};
use rusqlite::{Connection, OpenFlags, TransactionBehavior};
use std::collections::HashMap;
use std::fs::OpenOptions;
use std::future::Future;
use std::os::unix::fs::{MetadataExt, OpenOptionsExt, PermissionsExt};
use std::path::{Path, PathBuf};
use std::pin::pin;
use std::sync::Arc;
use std::task::{Context, Poll, Waker};
use std::time::Duration;

type NotTaken = sql::NotTaken<Fault>;

/// How long a delivery waits for another process' lock before it is given up for now.
const PATIENCE: Duration = Duration::from_secs(2);
/// More than there are, so that each is prepared once.
const STATEMENTS: usize = 64;
/// How many series' row numbers are cached. After that they are read again.
const CACHED: usize = 100_000;

pub(super) struct Store {
    path: PathBuf,
    pub(super) connection: Connection,
    /// The device and the inode number of the file.
    place: (u64, u64),
    /// The same of the files beside it while it is open: its log, and the memory that its readers share.
    beside: [Option<(u64, u64)>; 2],
    /// The row numbers of series. Only what is committed is in it.
    series: HashMap<Digest, SeriesIds>,
    /// SQLite changes it when another process has written.
    data_version: i64,
}

impl Store {
    /// `admit` is asked with the file's id, and without one before a file is made.
    pub(super) fn open(
        path: &Path,
        admit: &dyn Fn(Option<&str>) -> Result<(), String>,
    ) -> Result<Store, Fault> {
        let flags = OpenFlags::SQLITE_OPEN_READ_WRITE
            | OpenFlags::SQLITE_OPEN_CREATE
            | OpenFlags::SQLITE_OPEN_NO_MUTEX;
        if !path.exists() {
            admit(None).map_err(Fault::Another)?;
        }
        make_private(path);
        let mut connection = Connection::open_with_flags(path, flags)?;
        connection.busy_timeout(PATIENCE)?;
        connection.set_prepared_statement_cache_capacity(STATEMENTS);
        // Before anything is changed, since the file may be another program's.
        let id = schema::check(&connection)?.then(|| schema::id(&connection)).transpose()?;
        admit(id.as_deref()).map_err(Fault::Another)?;
        let mode: String = connection.query_row("pragma journal_mode = wal", [], |row| row.get(0))?;
        if mode != "wal" {
            return Err(Fault::told("its file system has no write-ahead log: name a file on a local disk"));
        }
        connection.execute_batch("pragma synchronous = full; pragma foreign_keys = on")?;
        schema::make(&mut connection)?;
        copy_log(&connection)?;
        admit(Some(&schema::id(&connection)?)).map_err(Fault::Another)?;
        let place = place(path).ok_or_else(|| Fault::told("it was deleted while it was opened"))?;
        Ok(Store {
            path: path.into(),
            connection,
            place,
            beside: beside(path),
            series: HashMap::new(),
            data_version: 0,
        })
    }

    /// Whether the names still lead to the files that are open.
    pub(super) fn file_state(&self) -> FileState {
        match place(&self.path) == Some(self.place) {
            true if beside(&self.path) == self.beside => FileState::Intact,
            true => FileState::WithoutLog,
            false => FileState::Gone,
        }
    }

    /// Copies the log into the file. The log may have no name any more.
    pub(super) fn copy_log(&self) -> Result<(), Fault> {
        copy_log(&self.connection)
    }

    /// Takes one request without points that begin too early, which are returned; or several whole.
    pub(super) fn take(
        &mut self,
        all: &[Forwarded],
        sent: Sent,
        owners: Option<Arc<dyn KnowsOwners>>,
    ) -> Result<LeftOut, NotTaken> {
        let read = |one| Ok(Request::with(one, sent, Content::read(&one.body)?));
        let requests = all.iter().map(read).collect::<Result<_, NotTaken>>()?;
        let mut writing = self.begin(owners)?;
        let outcome = at_once(sql::take(&mut writing, requests))?;
        let new = writing.commit()?;
        self.series.extend(new);
        outcome.left()
    }

    /// Closes or reopens a period, or makes an adjustment.
    pub(super) fn apply(&mut self, who: &str, deed: &PeriodAction) -> Result<PeriodOutcome, Fault> {
        let transaction = self.connection.transaction_with_behavior(TransactionBehavior::Immediate)?;
        let mut periods = Periods(transaction);
        let told = at_once(sql::apply(&mut periods, who, deed))?;
        periods.0.commit()?;
        Ok(told)
    }

    fn begin(&mut self, owners: Option<Arc<dyn KnowsOwners>>) -> Result<Writing<'_>, NotTaken> {
        let transaction = self.connection.transaction_with_behavior(TransactionBehavior::Immediate)?;
        let version: i64 = cached::one(&transaction, "pragma data_version", [], |row| row.get(0))?;
        if version != self.data_version || self.series.len() > CACHED {
            self.series.clear();
            self.data_version = version;
        }
        Ok(Writing { transaction, owners, known: &self.series, new: HashMap::new() })
    }
}

/// Runs a future that never waits: calls of SQLite block until they are done.
fn at_once<T>(work: impl Future<Output = T>) -> T {
    match pin!(work).poll(&mut Context::from_waker(Waker::noop())) {
        Poll::Ready(done) => done,
        Poll::Pending => unreachable!("a call of SQLite ends before it returns"),
    }
}

/// Makes an empty file if there is none, since one that SQLite makes is as open as the umask leaves it. Only the owner
/// may read it; but in a folder that passes its group on to new files, the group may too. SQLite gives its log the mode
/// of the file.
fn make_private(path: &Path) {
    let mut options = OpenOptions::new();
    let made = options.write(true).create_new(true).mode(0o600).open(path);
    // SQLite meets the same errors, and reports them better.
    if let (Ok(file), true) = (made, is_of_a_group(path)) {
        let _ = file.set_permissions(PermissionsExt::from_mode(0o640));
    }
}

/// Whether new files get the group of the folder (setgid), and the group may enter the folder.
fn is_of_a_group(path: &Path) -> bool {
    const HANDS_ON_AND_LETS_IN: u32 = 0o2050;
    let folder = path.parent().and_then(|folder| folder.metadata().ok());
    folder.is_some_and(|folder| folder.permissions().mode() & HANDS_ON_AND_LETS_IN == HANDS_ON_AND_LETS_IN)
}

/// Copies the log into the file, and syncs it. What an earlier run wrote and did not sync may be read and yet not be on
/// the disk. A key that is read is acknowledged, and its request leaves the outbox. So nothing is believed before it
/// was written again.
fn copy_log(connection: &Connection) -> Result<(), Fault> {
    let (busy, log, copied): (i64, i64, i64) =
        connection.query_row("pragma wal_checkpoint(full)", [], |row| {
            Ok((row.get(0)?, row.get(1)?, row.get(2)?))
        })?;
    if busy != 0 || log != copied {
        let what = "another process has read it for long, so its log can't be made sure: end what reads it";
        return Err(Fault::told(what));
    }
    Ok(())
}

/// What is found under the names of the open files.
#[derive(Clone, Copy, Debug, PartialEq, Eq)]
pub(super) enum FileState {
    Intact,
    /// A file beside the database was deleted or replaced. Rows would go into a log that nobody reads.
    WithoutLog,
    /// The database itself was. Rows would go into a file without a name.
    Gone,
}

fn beside(path: &Path) -> [Option<(u64, u64)>; 2] {
    ["-wal", "-shm"].map(|end| {
        let mut name = path.as_os_str().to_os_string();
        name.push(end);
        place(Path::new(&name))
    })
}

fn place(path: &Path) -> Option<(u64, u64)> {
    std::fs::metadata(path).ok().map(|found| (found.dev(), found.ino()))
}
