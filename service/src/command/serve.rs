//! `totxegun serve`: its options, and the run of the service.
//!
//! `Options::settings` turns the options into `Settings`, for a start, for `config check` and for SIGHUP; so it must
//! change nothing.

use super::book_options::BookOptions;
use super::config::{self, unknown_setting};
use super::reading_options::ReadingOptions;
use super::receiver_options::{PassthroughOptions, SinkOptions};
use super::retention_options::RetentionOptions;
use super::sender_options::SenderOptions;
use super::store_options::StoreOptions;
use super::values::{
    operator, orders_at, place, place_or_off, size_from, time, time_or, MayBeNone, MayBePlace, SOCKET,
};
use super::version::Versions;
use super::Ended;
use crate::admin::Times;
use crate::book::{self, FlushWindow};
use crate::identity;
use crate::log;
use crate::metrics::Metrics;
use crate::otlp::Reason;
use crate::post_reports::ReportOptions;
use crate::runs;
use crate::service::{self, AdminAddresses, Live, Settings};
use crate::sink::Address;
use crate::storage::Durability;
use anyhow::{anyhow, bail, Context};
use clap::builder::{PossibleValuesParser, TypedValueParser};
use clap::{value_parser, Args, CommandFactory};
use nix::sys::signal::SigSet;
use std::path::{Path, PathBuf};
use std::sync::Arc;
use std::time::Duration;
use tracing::level_filters::LevelFilter;
use tracing_subscriber::{filter::Targets, prelude::*, reload, Registry};

/// Threads for everything that no sender waits for: checkpoints, deliveries, operators.
const BACKGROUND: usize = 2;
/// A thread for long work ends after this time without work, so that others can use the free memory that it caches.
const IDLE: Duration = Duration::from_secs(2);
/// Threads for calls of files that wait for a disk. A store has several shards, and each may wait for it.
const LONG_WORK: usize = 16;
const LONG_WORK_OF_STORE: usize = 128;

/// Threads that serve senders.
const MOST_THREADS: u16 = 64;

/// Open files that the service itself needs, with the operators' connections.
const OWN_FILES: u64 = 192;

/// With less, most posts would be refused for good as too long, and lost.
const LEAST_BYTES: u64 = 1 << 20;

/// With less, a file of late data (an eighth of it) would be too short for a point with many long attributes.
const LEAST_LATE: u64 = 1 << 20;

#[derive(Args)]
pub struct Options {
    /// A file of settings in TOML: its keys are the names of these options, and [sink] is a table. The environment wins over it, and the command line over both
    #[arg(long, env = config::VARIABLE, value_name = "FILE")]
    config: Option<PathBuf>,
    /// The folder for all files; it is made if it does not exist
    #[arg(long, env = "TOTXEGUN_DATA", value_name = "DIR")]
    data: PathBuf,
    /// The address at which senders post OTLP/HTTP
    #[arg(
        long,
        env = "TOTXEGUN_LISTEN",
        value_name = "ADDRESS",
        default_value = "127.0.0.1:4318",
        value_parser = place
    )]
    listen: String,
    /// Where senders call OTLP/gRPC, or `off`
    #[arg(
        long,
        env = "TOTXEGUN_LISTEN_GRPC",
        value_name = "ADDRESS",
        default_value = "127.0.0.1:4317",
        value_parser = place_or_off
    )]
    listen_grpc: MayBePlace,
    /// The admin addresses: HOST:PORT to read at, and unix:PATH to give orders at, beside it or alone [default of the latter: unix:DIR/admin.sock]
    #[arg(
        long,
        env = "TOTXEGUN_ADMIN",
        value_name = "ADDRESS",
        default_value = "127.0.0.1:4319",
        value_delimiter = ',',
        value_parser = operator
    )]
    admin: Vec<String>,
    /// A file of operators' names and digests of their tokens, which `totxegun token NAME` makes: with it their orders are taken over TCP too
    #[arg(long, env = "TOTXEGUN_ADMIN_TOKENS", value_name = "FILE")]
    admin_tokens: Option<PathBuf>,
    /// Gives each sample of /totals the time at which the last interval of its series ended, instead of that of the scrape
    #[arg(long, env = "TOTXEGUN_TOTALS_TIMESTAMPS")]
    totals_timestamps: bool,
    /// Where to deliver: sqlite:PATH, postgres://USER@HOST:PORT/DB, http://HOST:PORT/PATH or https://HOST/PATH [default: sqlite:DIR/metrics.db]
    #[arg(long, env = "TOTXEGUN_SINK", value_name = "ADDRESS", hide_env_values = true)]
    sink: Option<Address>,
    /// Takes another sink than the folder has, for this start: what waits goes into the new one
    #[arg(long)]
    new_sink: bool,
    /// The time between two flushes
    #[arg(long, env = "TOTXEGUN_FLUSH_INTERVAL", value_name = "TIME", default_value = "10s", value_parser = time)]
    flush_interval: Duration,
    /// The period, in UTC, at whose ends delivered points are split: none spans two of them, unless a posted point does
    #[arg(long, env = "TOTXEGUN_SPLIT_AT", value_name = "WHAT", default_value = "hour", value_enum)]
    split_at: FlushWindow,
    /// What an answered post survives: `disk` a loss of power, `process` the end of the process
    #[arg(long, env = "TOTXEGUN_DURABILITY", value_name = "WHAT", default_value = "disk", value_enum)]
    durability: Durability,
    /// How long a series without posts is kept once there are too many, or `never` to forget none
    #[arg(long, env = "TOTXEGUN_SERIES_TTL", value_name = "TIME", default_value = "7d", value_parser = time_or("never"))]
    series_ttl: MayBeNone,
    /// Logs the first N reasons why a sender's points are rejected
    #[arg(long, env = "TOTXEGUN_LOG_REJECTED", value_name = "N", default_value_t = 0, value_parser = value_parser!(u32).range(..=1000))]
    log_rejected: u32,
    /// Reasons for which points are meant to be left out: these are counted by themselves and raise no alert
    #[arg(long, env = "TOTXEGUN_EXPECT_REJECTED", value_name = "CAUSE", value_delimiter = ',', value_parser = causes())]
    expect_rejected: Vec<Reason>,
    /// What the log has; `debug` adds what only helps to find a fault of the service
    #[arg(long, env = "TOTXEGUN_LOG_LEVEL", value_name = "LEVEL", default_value = "info", value_parser = levels())]
    log_level: LevelFilter,
    /// Writes each line of the log as a JSON object, with `ts`, `level`, `msg` and what it is about
    #[arg(long, env = "TOTXEGUN_LOG_JSON")]
    log_json: bool,
    /// The most memory that all posts may take until they are answered
    #[arg(long, env = "TOTXEGUN_MAX_BYTES", value_name = "BYTES", default_value = "256MiB", value_parser = size_from(LEAST_BYTES, "less than 1MiB would refuse most posts for good"))]
    max_bytes: u64,
    /// How much late data is kept, the newest: points that their series refused, for `totxegun late` and `adjust`
    #[arg(long, env = "TOTXEGUN_MAX_LATE", value_name = "BYTES", default_value = "64MiB", value_parser = size_from(LEAST_LATE, "less than 1MiB has no room for a point with long attributes"))]
    max_late: u64,
    /// How many connections senders may have at a time
    #[arg(long, env = "TOTXEGUN_MAX_CONNECTIONS", value_name = "N", default_value_t = 1024, value_parser = value_parser!(u32).range(1..=100_000))]
    max_connections: u32,
    /// How many threads serve senders; each reads the posts that it serves [default: as many as there are processors]
    #[arg(long, env = "TOTXEGUN_THREADS", value_name = "N", value_parser = value_parser!(u16).range(1..=MOST_THREADS as i64))]
    threads: Option<u16>,
    // The options after a group stand under its heading in the help, so the groups come last.
    #[command(flatten)]
    sender_options: SenderOptions,
    #[command(flatten)]
    store_options: StoreOptions,
    #[command(flatten)]
    of_sink: SinkOptions,
    #[command(flatten)]
    of_pass: PassthroughOptions,
    #[command(flatten)]
    of_retention: RetentionOptions,
    #[command(flatten)]
    of_reading: ReadingOptions,
    #[command(flatten)]
    of_runs: runs::Options,
    #[command(flatten)]
    book_options: BookOptions,
}

/// Refuses a variable that no option reads.
fn look_at_settings() -> Result<(), Ended> {
    let set = std::env::vars_os().map(|(name, _)| name.to_string_lossy().into_owned());
    match unknown_setting(&super::Line::command(), set) {
        Some(unknown) => Err(Ended::Line(anyhow!(unknown))),
        None => Ok(()),
    }
}

/// What gets into the log. Libraries only log errors: they warn of single frames and headers, which a sender can send
/// at any rate.
fn told(level: LevelFilter) -> Targets {
    Targets::new().with_target("totxegun", level).with_default(LevelFilter::ERROR)
}

fn levels() -> impl TypedValueParser<Value = LevelFilter> {
    let levels = PossibleValuesParser::new(["error", "warn", "info", "debug"]);
    levels.try_map(|level| level.parse::<LevelFilter>())
}

impl Options {
    pub fn run(self) -> Result<(), Ended> {
        // Whoever started this process may have blocked signals. There are no threads yet, and each inherits this mask.
        SigSet::all().thread_unblock().context("signals can't be received")?;
        let metrics = Arc::new(Metrics::new().context("metrics")?);
        let log = log::start(metrics.log_lines_lost.clone(), log::Form::new(self.log_json))
            .context("no thread could be started for the log")?;
        let (filter, level) = reload::Layer::<_, Registry>::new(told(self.log_level));
        tracing_subscriber::registry().with(log::Events(log).with_filter(filter)).init();
        let most_files = raise_open_files();
        tracing::info!("{Versions}");
        look_at_settings()?;
        let mut building = tokio::runtime::Builder::new_multi_thread();
        building
            .worker_threads(BACKGROUND)
            .max_blocking_threads(match self.store_options.is_given() {
                true => LONG_WORK_OF_STORE,
                false => LONG_WORK,
            })
            .thread_keep_alive(IDLE)
            .enable_all();
        let runtime = building.build().context("no threads could be started")?;
        let reload = config::reload(level, &metrics)?;
        book::bound_memory(self.book_options.memory());
        metrics.limit_series(self.book_options.max_series);
        let max_connections = self.connections(most_files);
        let settings = self.settings(metrics)?;
        let ended = runtime.block_on(service::run(Settings { reload, max_connections, ..settings }));
        runtime.shutdown_background(); // a thread that still waits for a disk or a sender is not waited for
        ended?;
        log::finish();
        Ok(())
    }

    /// Succeeds if a start with these options would open its folder and listen.
    pub fn check(self) -> Result<(), Ended> {
        look_at_settings()?;
        self.settings(Arc::new(Metrics::new().context("metrics")?)).map(drop)
    }

    /// The settings that SIGHUP may change. `config::LIVE` names their options.
    pub fn live(&self) -> Live {
        Live {
            of_each: self.sender_options.of_each(),
            report_options: ReportOptions {
                log_rejected: self.log_rejected as usize,
                expected: self.expect_rejected.clone(),
                profile: self.of_reading.profile(),
            },
        }
    }

    pub fn level(&self) -> Targets {
        told(self.log_level)
    }

    /// How many connections senders may have if this process may have `most_files` open files. Otherwise an idle
    /// connection could take the file that the journal needs.
    fn connections(&self, most_files: u64) -> usize {
        let addresses = 1 + u64::from(self.listen_grpc.0.is_some());
        let most = (most_files.saturating_sub(OWN_FILES) / addresses).max(1);
        let wanted = u64::from(self.max_connections);
        if most < wanted {
            tracing::warn!(
                open_files = most_files,
                connections = most,
                wanted,
                "this process may have too few open files, so senders may have fewer connections at a time: raise its limit \
                 (`LimitNOFILE` of systemd, `ulimit -Hn`), or lower --max-connections"
            );
        }
        most.min(wanted) as usize
    }

    /// Changes nothing, since SIGHUP calls it too.
    fn settings(self, metrics: Arc<Metrics>) -> Result<Settings, Ended> {
        let live = self.live();
        let data = absolute(&self.data)?;
        let sink = match self.sink {
            Some(sink) => sink,
            // A store has no folder in which a file could be the sink.
            None if self.store_options.is_given() => {
                let why = "--store has no sink of its own: give --sink postgres://.. or http://.. too";
                return Err(Ended::Line(anyhow!(why)));
            }
            None => Address::Sqlite(data.join("metrics.db")),
        };
        let sink = self.of_sink.put_into(sink).map_err(Ended::Line)?;
        let retention = self.of_retention.retention(&sink).map_err(Ended::Line)?;
        let likeness = self.of_reading.likeness(self.split_at);
        let store =
            self.store_options.settings(likeness, &sink, self.sender_options.pair()).map_err(Ended::Line)?;
        let clock = self.of_reading.clock();
        let reading = self.of_reading.reading().map_err(Ended::Line)?;
        if self.sender_options.has_names() && reading.sender_from.is_some() {
            return Err(Ended::Line(anyhow!(
                "--sender-from would take a sender's word for its name: leave it out where --client-ca or --tokens name senders"
            )));
        }
        if let (Some(name), false) = (&reading.sender_attribute, self.sender_options.has_names()) {
            return Err(Ended::Line(anyhow!(
                "--sender-attribute {name} is for the name that a sender proves, and here none does: give --tokens or --client-ca, \
                 or leave it out"
            )));
        }
        let mut operate = operate(&self.admin, &data).map_err(Ended::Line)?;
        let tokens = self.admin_tokens;
        if tokens.is_some() && operate.tcp.is_none() {
            return Err(Ended::Line(anyhow!(
                "--admin-tokens is for orders over TCP: give --admin HOST:PORT too, or leave it out"
            )));
        }
        operate.tokens = tokens.map(|path| identity::operators(path, &metrics)).transpose()?;
        let pass = self.of_pass.pass(&self.listen, &metrics).map_err(Ended::Line)?;
        Ok(Settings {
            data,
            store,
            door: self.sender_options.door([Some(&self.listen), self.listen_grpc.0.as_ref()], &metrics)?,
            listen: self.listen,
            listen_grpc: self.listen_grpc.0,
            operate,
            behind_proxy: self.sender_options.behind_proxy,
            live,
            reload: Box::new(|| None),
            sink,
            retention,
            new_sink: self.new_sink,
            durability: self.durability,
            every: self.flush_interval,
            forget: self.series_ttl.0,
            clock,
            across: self.split_at,
            runs: self.of_runs,
            pass,
            reading,
            max_bytes: usize::try_from(self.max_bytes).unwrap_or(usize::MAX),
            max_late: self.max_late,
            max_connections: self.max_connections as usize,
            threads: self.threads.map_or_else(processors, usize::from),
            max_series: self.book_options.max_series as usize,
            totals_times: match self.totals_timestamps {
                true => Times::OfIntervals,
                false => Times::None,
            },
            metrics,
        })
    }
}

/// How many this process may use, by its affinity and the quota of its control group.
fn processors() -> usize {
    std::thread::available_parallelism().map_or(1, |count| count.get().min(usize::from(MOST_THREADS)))
}

/// At most one address of TCP and one socket.
fn operate(addresses: &[String], data: &Path) -> anyhow::Result<AdminAddresses> {
    let is_socket = |address: &&String| address.starts_with(SOCKET);
    let (sockets, tcp): (Vec<&String>, Vec<&String>) = addresses.iter().partition(is_socket);
    if let Some(second) = sockets.get(1).or(tcp.get(1)) {
        bail!("--admin has a second address like {second}: give one HOST:PORT and one unix:PATH at most");
    }
    Ok(AdminAddresses {
        tcp: tcp.first().map(ToString::to_string),
        socket: absolute(&orders_at(sockets.into_iter().map(String::as_str), data))?,
        tokens: None,
    })
}

/// An absolute path, since other programs are told where files are, and may run in another folder.
pub fn absolute(path: &Path) -> anyhow::Result<PathBuf> {
    std::path::absolute(path).with_context(|| format!("{} is no path", path.display()))
}

/// Raises the limit of open files as far as this process may, and returns it.
fn raise_open_files() -> u64 {
    use nix::sys::resource::{getrlimit, setrlimit, Resource::RLIMIT_NOFILE};
    let Ok((soft, hard)) = getrlimit(RLIMIT_NOFILE) else {
        return u64::MAX;
    };
    match soft < hard && setrlimit(RLIMIT_NOFILE, hard, hard).is_ok() {
        true => hard,
        false => soft,
    }
}

/// The reasons for which points are rejected, by their labels.
fn causes() -> impl TypedValueParser<Value = Reason> {
    let labels = PossibleValuesParser::new(Reason::of_points().map(Reason::label));
    labels.try_map(|label| Reason::labelled(&label).ok_or("no such cause"))
}

#[cfg(test)]
mod tests {
    use super::*;
    use tracing::Level;

    /// Otherwise whoever reaches an address could fill the disk.
    #[test]
    fn no_warning_of_a_library_is_logged() {
        let is_told = |target: &str, level| told(LevelFilter::INFO).would_enable(target, &level);
        assert!(is_told("totxegun::shard", Level::INFO) && !is_told("totxegun::shard", Level::DEBUG));
        assert!(!is_told("h2::proto::ping_pong", Level::WARN) && is_told("h2", Level::ERROR));
    }
}
