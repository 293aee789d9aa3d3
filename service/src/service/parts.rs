//! Opens all parts of the service and connects them.

use super::instance::Joining;
use super::open_shard::{Files, Opened};
use super::open_shards::{OpenShards, ShardTasks};
use super::operators::Operators;
use super::remembered_sink::{InFolder, InStore, Remembers, SinkChoice};
use super::running::{LiveSettings, Running};
use super::senders::Senders;
use super::{Ended, Settings};
use crate::admin::{self, AdminApi, AuditLog, Pulse, Totals};
use crate::ingest::connections::Limits;
use crate::ingest::{Budget, Ingest, Threads};
use crate::late::{self, LateData};
use crate::post_reports::{Reporter, SenderActivity};
use crate::quota::Rules;
use crate::shard::{Shards, Shared};
use crate::sink::Sink;
use crate::storage::Folder;
use anyhow::Context;
use std::sync::Arc;
use std::time::{Duration, Instant};
use tokio::sync::watch;

/// How long a request's head may take, and how long an idle connection is kept.
const HEAD: Duration = Duration::from_secs(60);
const IDLE: Duration = Duration::from_secs(600);

/// The most connections of operators.
const OPERATORS: usize = 64;

/// All parts, open but not running.
pub(super) struct Parts {
    of: Of,
    shared: Arc<Shared>,
    acts: Arc<AuditLog>,
    pub sink: Arc<dyn Sink>,
    budget: Arc<Budget>,
    threads: Arc<Threads>,
}

/// What keeps the shards.
enum Of {
    /// A folder, with its single shard.
    Folder(Opened),
    /// A store, of which this instance owns no shard yet.
    Store(Box<Joining>),
}

impl Parts {
    /// Opens a folder's files before anything else runs, and before the sink, which may be declared a new one.
    pub fn of_folder(folder: Arc<Folder>, settings: &Settings) -> Result<Parts, Ended> {
        let shared = shared(settings)?;
        let opened = Files::of_folder(&folder)?.open(1, settings, &shared)?;
        let place = InFolder { folder, outbox: opened.shard.outbox.clone() };
        Parts::new(Of::Folder(opened), shared, Box::new(place), settings)
    }

    /// The shards of a store are opened after takeovers.
    pub fn of_store(joining: Joining, settings: &Settings) -> Result<Parts, Ended> {
        let place = InStore::open(joining.store.clone()).context("the store can't be used")?;
        Parts::new(Of::Store(Box::new(joining)), shared(settings)?, Box::new(place), settings)
    }

    /// Opens the sink as `place` remembers it.
    fn new(
        of: Of,
        shared: Arc<Shared>,
        place: Box<dyn Remembers>,
        settings: &Settings,
    ) -> Result<Parts, Ended> {
        let acts = Arc::new(AuditLog::in_folder(&settings.data));
        let told = SinkChoice {
            address: &settings.sink,
            retention: settings.retention,
            takes_new: settings.new_sink,
            acts: acts.clone(),
        };
        Ok(Parts {
            of,
            shared,
            acts,
            sink: told.open(place)?,
            budget: Budget::new(settings.max_bytes),
            threads: Arc::new(Threads::new(settings.threads).context("no threads could be started")?),
        })
    }

    /// Starts all parts; the shard of a folder first.
    pub async fn start(
        self,
        settings: &Arc<Settings>,
        senders: Senders,
        operators: Operators,
    ) -> Result<Running, Ended> {
        let (stop_ingest, ingest_stopped) = watch::channel(false);
        let (stop_operate, operate_stopped) = watch::channel(false);
        let shards = match &self.of {
            Of::Folder(_) => Shards::one(None),
            Of::Store(joining) => super::instance::shards(joining, settings),
        };
        let local = admin::LocalShards::of(shards.count());
        let (shard_tasks, ends) = ShardTasks::new(local.clone());
        let (metrics, activity) = (settings.metrics.clone(), Arc::<SenderActivity>::default());
        let reporter = Reporter::new(
            settings.live.report_options.clone(),
            metrics.clone(),
            activity.clone(),
            settings.pass.clone(),
        );
        let open_shards = OpenShards {
            settings: settings.clone(),
            shared: self.shared.clone(),
            sink: self.sink.clone(),
            reporter: reporter.clone(),
            shards: shards.clone(),
            shard_tasks: shard_tasks.clone(),
        };
        let mut joining = match self.of {
            Of::Folder(opened) => {
                open_shards.begin(opened);
                None
            }
            Of::Store(joining) => Some(joining),
        };
        // After the folder's shard, so that the series it knows are counted.
        self.shared.quotas.begin(Rules {
            max_series: settings.max_series as u64,
            of_each: settings.live.of_each.into(),
            tokens: settings.door.tokens(),
            profile: settings.reading.profile,
            owned: Box::new(local.clone()),
            flush_interval: settings.every,
        });
        let of_operators = Limits { connections: OPERATORS, ..limits(settings) };
        if let Some(pass) = &settings.pass {
            tracing::info!(url = pass.url(), "points outside the profile are forwarded");
            tokio::spawn(pass.clone().run());
        }
        let reading = Arc::new(settings.reading.clone());
        let ingest = Ingest::of(shards, reporter.clone(), reading, self.budget.clone(), metrics.clone());
        let ingest = Arc::new(ingest);
        let others = joining.as_mut().zip(settings.store.as_ref());
        let admin = AdminApi {
            open_shards: local,
            others: others.and_then(|(joining, of)| joining.others(of)),
            quotas: self.shared.quotas.clone(),
            acts: self.acts,
            sink: self.sink,
            totals: Totals::of(&settings.sink, settings.totals_times),
            pulse: Pulse::begin(metrics.clone()),
            metrics,
            budget: self.budget,
            activity,
            late: self.shared.late.clone(),
            listen: senders.shown(),
            operate: settings.operate.tcp.clone().unwrap_or_default(),
            is_local: operators.is_local(),
            data: settings.data.display().to_string(),
            max_series: settings.max_series,
            begun: Instant::now(),
        };
        let admin = Arc::new(admin);
        let of_health = Arc::downgrade(&admin);
        ingest.set_available(move || of_health.upgrade().is_some_and(|admin| admin.is_available()));
        let live = LiveSettings { reporter, quotas: self.shared.quotas.clone() };
        let joined = joining.zip(settings.store.as_ref());
        let joined =
            joined.map(|(joining, of)| joining.join(settings, of, open_shards, &ingest, admin.clone()));
        let threads = self.threads;
        Ok(Running {
            ingest: tokio::spawn(senders.serve(limits(settings), ingest, threads.clone(), ingest_stopped)),
            operate: tokio::spawn(operators.serve(of_operators, admin, operate_stopped)),
            stop_ingest,
            stop_operate,
            shard_tasks,
            ends,
            joined,
            live,
            _threads: threads,
        })
    }
}

fn shared(settings: &Settings) -> Result<Arc<Shared>, Ended> {
    let (folder, metrics) = (settings.data.join(late::FOLDER), settings.metrics.clone());
    let late = LateData::begin(folder, settings.max_late, metrics.clone());
    let late = late.context("no thread could be started for late data")?;
    Ok(Arc::new(Shared::new(metrics, settings.clock).with_late(late)))
}

pub(super) fn limits(settings: &Settings) -> Limits {
    Limits { connections: settings.max_connections, head: HEAD, idle: IDLE }
}
