//! The connections of a process to a store. They watch each other: after one breaks, the others to the same server may
//! be useless too, and are replaced.

use super::copies::Copies;
use super::counts::Counts;
use super::session::{within, Owned, Session, ShardRow};
use super::unknown_outcome::{Backoff, UnknownOutcome};
use crate::log::RateLimit;
use crate::postgres::{self, Driver, Server};
use std::future::Future;
use std::sync::atomic::{AtomicU64, AtomicUsize, Ordering::Relaxed};
use std::sync::Arc;
use std::time::Duration;
use tokio::runtime::Handle;
use tokio::sync::{watch, Mutex};
use tokio_postgres::{Client, Config};

/// How long connecting to a host may take, and preparing the statements.
pub(super) const CONNECT: Duration = Duration::from_secs(5);
/// A commit that is reported is on the server's disk, and on those of its synchronous standbys. Warnings arrive
/// whatever the role's own settings are.
const SETTINGS: &str =
    "set client_min_messages = 'warning'; set default_transaction_isolation = 'read committed';
    set statement_timeout = '20s'; set lock_timeout = '10s'; set idle_in_transaction_session_timeout = '10s';
    select set_config('synchronous_commit', 'on', false)
    where current_setting('synchronous_commit') not in ('on', 'remote_apply')";

/// Rows of a shard are always looked up by key, even while the tables are small.
const PLANS: &str =
    "set jit = off; set enable_seqscan = off; set enable_hashjoin = off; set enable_mergejoin = off;
    set plan_cache_mode = 'force_generic_plan'";

static IN_DOUBT: RateLimit = RateLimit::every(Duration::from_secs(10));

/// What all connections of a process to a store share.
pub(super) struct Connections {
    pub server: Server,
    /// How many copies the server must keep.
    pub copies: Copies,
    pub counts: Arc<Counts>,
    /// The runtime of all connections, whichever thread uses them.
    pub threads: Handle,
    /// How many connections have been made.
    made: AtomicU64,
    /// Connections up to this number may lead to a server that is useless by now.
    suspect: watch::Sender<u64>,
}

/// A connection, opened when it is needed, and again after a fault.
pub(super) struct Connection {
    pub all: Arc<Connections>,
    session: Mutex<Option<Arc<Session>>>,
}

/// A piece as the store has it.
pub(super) struct Stored {
    pub number: u64,
    /// The length before packing.
    pub length: usize,
    pub bytes: Vec<u8>,
}

impl Connections {
    pub fn to(server: &Server, copies: Copies, counts: &Arc<Counts>, threads: &Handle) -> Arc<Connections> {
        Arc::new(Connections {
            server: server.clone(),
            copies,
            counts: counts.clone(),
            threads: threads.clone(),
            made: AtomicU64::new(0),
            suspect: watch::channel(0).0,
        })
    }

    /// The number of a new connection.
    pub fn draw(&self) -> u64 {
        self.made.fetch_add(1, Relaxed) + 1
    }

    /// Waits for an answer on connection `number`, and gives up when another connection to its server breaks.
    async fn watched<T>(
        &self,
        number: u64,
        asking: impl Future<Output = Result<T, UnknownOutcome>>,
    ) -> Result<T, UnknownOutcome> {
        let mut suspect = self.suspect.subscribe();
        let is_suspect = async {
            while *suspect.borrow_and_update() < number {
                if suspect.changed().await.is_err() {
                    std::future::pending::<()>().await; // can't happen while we hold `self`
                }
            }
        };
        tokio::select! {
            biased;
            answer = asking => answer,
            () = is_suspect => Err(UnknownOutcome::NotConnected("another connection to this server broke".into())),
        }
    }

    /// Notes a failure of this connection: the others to its server become suspect.
    fn note(&self, number: u64, doubt: &UnknownOutcome) {
        if doubt.is_of_server() {
            self.suspect.send_if_modified(|suspect| {
                // If it was suspect already, its failure says nothing about connections made since.
                let is_new = number > *suspect;
                if is_new {
                    *suspect = self.made.load(Relaxed);
                }
                is_new
            });
        }
    }

    pub fn tell(&self, whose: &str, doubt: &UnknownOutcome) {
        self.counts.doubts.fetch_add(1, Relaxed);
        if IN_DOUBT.is_due() {
            let reason = doubt.to_string();
            tracing::warn!(whose, reason, "the outcome of a call to the store is unknown, retrying");
        }
    }

    /// Repeats a call until its outcome is known; the call must be repeatable.
    pub async fn until_known<T, F: Future<Output = Result<T, UnknownOutcome>>>(
        &self,
        whose: &str,
        ask: impl Fn() -> F,
    ) -> T {
        let mut backoff = Backoff::default();
        loop {
            match ask().await {
                Ok(known) => return known,
                Err(doubt) => self.tell(whose, &doubt),
            }
            backoff.wait().await;
        }
    }
}

impl Connection {
    pub fn of(all: &Arc<Connections>) -> Connection {
        Connection { all: all.clone(), session: Mutex::new(None) }
    }

    pub async fn session(&self) -> Result<Arc<Session>, UnknownOutcome> {
        let mut place = self.session.lock().await;
        let is_sound = |session: &&Arc<Session>| {
            !session.client.is_closed() && session.number > *self.all.suspect.borrow()
        };
        if let Some(session) = place.as_ref().filter(is_sound) {
            return Ok(session.clone());
        }
        let session = Session::open(&self.all).await?;
        *place = Some(session.clone());
        Ok(session)
    }

    /// Tries until a session is open, since nothing can be written before.
    pub async fn ready(&self) -> Arc<Session> {
        self.all.until_known("the store", || self.session()).await
    }

    /// The outcome of a call on this session. Closes the session if it may be at fault, or if another one to the same
    /// server was.
    pub async fn heard<T>(
        &self,
        session: &Arc<Session>,
        asking: impl Future<Output = Result<T, UnknownOutcome>>,
    ) -> Result<T, UnknownOutcome> {
        let answer = self.all.watched(session.number, asking).await;
        if let Err(doubt) = &answer {
            self.all.note(session.number, doubt);
            self.leave_after(session, doubt).await;
        }
        answer
    }

    pub async fn leave_after(&self, session: &Arc<Session>, doubt: &UnknownOutcome) {
        if session.is_left_after(doubt) {
            self.session.lock().await.take_if(|now| Arc::ptr_eq(now, session));
        }
    }

    /// The pieces among these that the store has.
    pub async fn pieces(
        &self,
        shard: i32,
        file: u64,
        numbers: &[u64],
    ) -> Result<Vec<Stored>, UnknownOutcome> {
        let session = self.session().await?;
        self.heard(&session, session.pieces(shard, file, numbers)).await
    }

    /// Reads after a committed write under the term, which raises the shard's connection epoch. None if another
    /// instance owns the shard.
    pub async fn behind_a_write<T>(
        &self,
        of: &Owned<'_>,
        read: impl AsyncFnOnce(&Session, ShardRow) -> Result<T, UnknownOutcome>,
    ) -> Result<Option<T>, UnknownOutcome> {
        let session = self.session().await?;
        let reading = async {
            match session.raise_link(of).await? {
                Some(row) => read(&session, row).await.map(Some),
                None => Ok(None),
            }
        };
        self.heard(&session, reading).await
    }
}

/// Each attempt begins with another host: so a host that accepts writes but never completes them can't hold us forever.
static FIRST: AtomicUsize = AtomicUsize::new(0);

/// Opens a connection with our settings to a host that accepts writes.
pub(super) async fn connect(server: &Server) -> Result<(Client, Driver), UnknownOutcome> {
    let (client, driver, _) = connect_to_one(server).await?;
    Ok((client, driver))
}

/// The same, and to which host it is.
pub(super) async fn connect_to_one(server: &Server) -> Result<(Client, Driver, Config), UnknownOutcome> {
    let (mut told, mut may_pass) = (Vec::new(), true);
    let mut hosts = server.each_host();
    let first = FIRST.fetch_add(1, Relaxed) % hosts.len().max(1);
    hosts.rotate_left(first);
    for host in hosts {
        match connect_to(server, &host).await {
            Ok((client, driver)) => return Ok((client, driver, host)),
            Err(doubt) => {
                may_pass &= doubt.may_pass();
                told.push(doubt.to_string());
            }
        }
    }
    told.dedup();
    let told = format!("{server}: {}", told.join("; "));
    Err(match may_pass {
        true => UnknownOutcome::NotConnected(told),
        false => UnknownOutcome::Refused(told),
    })
}

async fn connect_to(server: &Server, host: &Config) -> Result<(Client, Driver), UnknownOutcome> {
    let (client, driver) = postgres::connect(server, host, SETTINGS, CONNECT).await?;
    // Other engines may not have these settings.
    let _ = within(CONNECT, client.batch_execute(PLANS)).await;
    Ok((client, driver))
}
