//! The service as one process: opens all parts, runs them, and ends them. `command/serve` calls `run`.
//!
//! If any part ends, the process ends with its cause; only a shard of a store ends alone. The files are valid at any
//! time, and the next start reads them.

mod instance;
mod leftovers;
mod open_shard;
mod open_shards;
mod operators;
mod parts;
mod peers;
mod remembered_sink;
mod running;
mod senders;
mod supervisor;
mod waiting;

pub use instance::StoreSettings;
pub(crate) use leftovers::{is_kept, is_made};
pub use operators::AdminAddresses;

use crate::admin::{LocalShards, Times};
use crate::book::FlushWindow;
use crate::identity::Door;
use crate::metrics::Metrics;
use crate::otlp::{Clock, Reading};
use crate::passthrough::Passthrough;
use crate::post_reports::ReportOptions;
use crate::quota::Quota;
use crate::runs;
use crate::sink::{Address, Retention};
use crate::storage::{Durability, Fault, Folder, FolderFault};
use crate::store::moving::address_of;
use crate::work::blocking;
use crate::worker::{Settings as Keeping, WorkerError};
use anyhow::{anyhow, Context};
use instance::Joining;
use operators::{Operators, Readers};
use parts::Parts;
use peers::Peers;
use running::LiveSettings;
use senders::Senders;
use std::path::PathBuf;
use std::sync::{Arc, OnceLock};
use std::time::Duration;
use supervisor::Supervisor;
use tokio::signal::unix::{signal, Signal, SignalKind};

/// The settings of `totxegun serve`.
pub struct Settings {
    pub data: PathBuf,
    /// None if a folder keeps everything.
    pub store: Option<StoreSettings>,
    pub listen: String,
    /// Where senders call gRPC, if they may.
    pub listen_grpc: Option<String>,
    pub operate: AdminAddresses,
    /// TLS and host names at the senders' addresses.
    pub door: Door,
    /// Other machines may reach these addresses although strangers could post there: a proxy is in front.
    pub behind_proxy: bool,
    pub sink: Address,
    /// How long the sink keeps what it has.
    pub retention: Retention,
    /// The sink may be another one than the folder remembers.
    pub new_sink: bool,
    pub durability: Durability,
    pub every: Duration,
    pub forget: Option<Duration>,
    pub reading: Reading,
    /// How far from the service's clock points may end.
    pub clock: Clock,
    /// The window (hour or day) that a forwarded point never leaves.
    pub across: FlushWindow,
    pub runs: runs::Options,
    pub live: Live,
    /// Reads the live settings again and logs which changes need a restart. None if the new ones can't be used.
    pub reload: Box<dyn Fn() -> Option<Live> + Send + Sync>,
    /// Where points outside the profile are forwarded.
    pub pass: Option<Arc<Passthrough>>,
    pub max_bytes: usize,
    /// The most bytes of all files of late data together.
    pub max_late: u64,
    pub max_connections: usize,
    /// How many threads serve senders.
    pub threads: usize,
    /// How many series fit.
    pub max_series: usize,
    /// What time the samples of `/totals` have.
    pub totals_times: Times,
    pub metrics: Arc<Metrics>,
}

/// Settings that may change while the service runs.
#[derive(Clone, Default)]
pub struct Live {
    /// The quota of a sender without one of its own.
    pub of_each: Quota,
    pub report_options: ReportOptions,
}

impl Settings {
    /// The folder or database that keeps everything.
    fn place(&self) -> String {
        let folder = || self.data.display().to_string();
        self.store.as_ref().map_or_else(folder, |of| of.database.to_string())
    }

    fn keeping(&self) -> Keeping {
        Keeping { every: self.every, forget: self.forget }
    }
}

/// Why the service did not start, or ended without being told to; also why a command failed.
#[derive(Debug, thiserror::Error)]
pub enum Ended {
    /// A disk fault, or damaged files.
    #[error("{0}")]
    Disk(#[from] Fault),
    /// Damaged files that do not keep the service from starting.
    #[error("{0}")]
    Changed(String),
    /// What was taken of the book can't be written.
    #[error("{0}")]
    NoMemory(String),
    /// Options that contradict each other or would let strangers post, or another instance's name: trying again does
    /// not help.
    #[error("{0:#}")]
    Line(anyhow::Error),
    /// The text says what is wrong and what to do.
    #[error("{0:#}")]
    Other(#[from] anyhow::Error),
}

impl From<WorkerError> for Ended {
    fn from(trouble: WorkerError) -> Ended {
        match trouble {
            WorkerError::File(fault) => Ended::Disk(fault),
            WorkerError::NoMemory => Ended::NoMemory(trouble.to_string()),
            WorkerError::Broken(_)
            | WorkerError::NotFilled(_)
            | WorkerError::NoMemoryToFill(_)
            | WorkerError::Fenced(_) => Ended::Other(anyhow!("{trouble}")),
        }
    }
}

impl From<FolderFault> for Ended {
    fn from(fault: FolderFault) -> Ended {
        match fault {
            FolderFault::Fault(fault) => Ended::Disk(fault),
            of_the_operator => Ended::Other(of_the_operator.into()),
        }
    }
}

/// Runs the service until it is told to end; by then everything it took is in the outbox or in the journal.
pub async fn run(settings: Settings) -> Result<(), Ended> {
    let mut signals = Signals::new()?;
    // A SIGHUP during the start is handled after it.
    let hangup = received(SignalKind::hangup())?;
    let supervisor = Supervisor::from_environment();
    let senders = Senders::bind(&settings).await?;
    let readers = Readers::bind(&settings).await?;
    let open_shards = Arc::new(OnceLock::<Arc<LocalShards>>::new());
    let begun = open_shards.clone();
    // Before the files are opened: that may take longer than a supervisor waits.
    let is_ready = move || begun.get().is_some_and(|open_shards| open_shards.are_ready());
    let watched = tokio::spawn(supervisor.clone().watch(is_ready));
    let opened = match &settings.store {
        None => Some(of_folder(&settings, senders, readers).await?),
        Some(of) => of_store(&settings, of, senders, readers, &mut signals).await?,
    };
    let Some((parts, senders, operators)) = opened else {
        return Ok(());
    };
    let settings = Arc::new(settings);
    let (place, sink) = (settings.place(), parts.sink.name());
    tracing::info!(place, sink, "the place of the data, and the sink");
    tracing::info!("{}", settings.door);
    tracing::info!(
        senders = senders.shown(),
        operators = operators.shown(),
        "the addresses for senders and operators"
    );
    let mut running = parts.start(&settings, senders, operators).await?;
    open_shards.get_or_init(|| running.shard_tasks.open_shards().clone());
    let reloading = tokio::spawn(reload(hangup, settings, running.live.clone()));
    let ended = tokio::select! {
        cause = running.ended() => Err(cause),
        () = signals.ending() => Ok(()),
    };
    watched.abort();
    reloading.abort();
    supervisor.stopping(running.ends_within());
    ended?;
    running.stop().await
}

/// Reads the settings again at each SIGHUP, on another thread, because their file may be on a disk that stalls.
async fn reload(mut hangup: Signal, settings: Arc<Settings>, running: LiveSettings) {
    while hangup.recv().await.is_some() {
        let settings = settings.clone();
        if let Some(live) = blocking(move || (settings.reload)()).await {
            running.set(live);
        }
    }
}

/// All parts, and the addresses.
type Opened = (Parts, Senders, Operators);

async fn of_folder(settings: &Settings, senders: Senders, readers: Readers) -> Result<Opened, Ended> {
    let folder = Arc::new(Folder::open(&settings.data, settings.durability)?);
    let operators = readers.and_socket(&settings.operate).await?;
    Ok((Parts::of_folder(folder, settings)?, senders, operators))
}

/// None if it was told to end in the meantime.
async fn of_store(
    settings: &Settings,
    of: &StoreSettings,
    senders: Senders,
    readers: Readers,
    signals: &mut Signals,
) -> Result<Option<Opened>, Ended> {
    let peers = Peers::bind(of, &settings.metrics).await?;
    let folder = settings.data.display();
    leftovers::look_at(&settings.data, &address_of(&of.database))?;
    std::fs::create_dir_all(&settings.data).with_context(|| format!("the folder {folder} can't be made"))?;
    let operators = readers.and_socket(&settings.operate).await?;
    let before = (senders.clone(), operators.clone());
    match waiting::store(settings, of, before, signals.ending()).await? {
        Some(store) => {
            let joining = Joining::new(of, peers, store, settings)?;
            let store = joining.store.clone();
            let parts = Parts::of_store(joining, settings)?;
            // After the sink was checked: an instance whose sink is refused must not set rules for the others.
            store.agree(&of.reading).context("the store can't be used")?;
            Ok(Some((parts, senders, operators)))
        }
        None => Ok(None),
    }
}

fn received(kind: SignalKind) -> Result<Signal, Ended> {
    Ok(signal(kind).context("signals can't be received")?)
}

/// The signals that end the service.
struct Signals {
    terminate: Signal,
    interrupt: Signal,
}

impl Signals {
    fn new() -> Result<Signals, Ended> {
        Ok(Signals {
            terminate: received(SignalKind::terminate())?,
            interrupt: received(SignalKind::interrupt())?,
        })
    }

    /// Returns after one of them has arrived.
    async fn ending(&mut self) {
        let name = tokio::select! {
            _ = self.terminate.recv() => "SIGTERM",
            _ = self.interrupt.recv() => "SIGINT",
        };
        tracing::info!(signal = name, "ending");
    }
}
