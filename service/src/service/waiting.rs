//! Waits for a store that can't be reached when the service starts. In the meantime posts get 503, and operators learn
//! why.

use super::operators::Operators;
use super::parts::limits;
use super::senders::Senders;
use super::{Ended, Settings, StoreSettings};
use crate::admin::{message, reply};
use crate::ingest::connections::Handler;
use crate::ingest::{Budget, Ingest, Threads};
use crate::log::RateLimit;
use crate::otlp::{Original, Outcome, Reason, Resources};
use crate::shard::{Forwarder, Shard, Shards};
use crate::store::postgres::PostgresStore;
use crate::work::blocking;
use anyhow::Context;
use hyper::{Body, Request, Response};
use std::future::Future;
use std::pin::{pin, Pin};
use std::sync::Arc;
use std::time::Duration;
use tokio::sync::watch;
use tokio::task::JoinHandle;
use tokio::time::{sleep, timeout};

/// A store that answers this fast needs no listeners in the meantime.
const SOON: Duration = Duration::from_secs(1);
/// The pause between two tries.
const PAUSE: Duration = Duration::from_secs(1);

static TOLD: RateLimit = RateLimit::every(Duration::from_secs(10));

/// Tries until the store answers, or until there is a fault that waiting does not fix.
async fn tried(of: &StoreSettings) -> Result<PostgresStore, Ended> {
    loop {
        let (database, copies) = (of.database.clone(), of.copies);
        match blocking(move || PostgresStore::join(&database, copies)).await {
            Err(fault) if fault.may_pass() => {
                if TOLD.is_due() {
                    let reason = fault.to_string();
                    tracing::warn!(reason, "the store can't be used yet, retrying");
                }
            }
            opened => return Ok(opened.context("the store can't be used")?),
        }
        sleep(PAUSE).await;
    }
}

/// The store; none if the service was told to end before the store answered.
pub(super) async fn store(
    settings: &Settings,
    of: &StoreSettings,
    (senders, operators): (Senders, Operators),
    ending: impl Future<Output = ()>,
) -> Result<Option<PostgresStore>, Ended> {
    let mut trying = pin!(tried(of));
    if let Ok(opened) = timeout(SOON, trying.as_mut()).await {
        return opened.map(Some);
    }
    let waiting = Waiting::begin(settings, senders, operators)?;
    let opened = tokio::select! {
        opened = trying => opened.map(Some),
        () = ending => Ok(None),
    };
    waiting.end().await;
    opened
}

/// Serves the addresses before there is a store.
struct Waiting {
    stop: watch::Sender<bool>,
    serving: [JoinHandle<()>; 2],
}

impl Waiting {
    fn begin(settings: &Settings, senders: Senders, operators: Operators) -> Result<Waiting, Ended> {
        let (stop, stopped) = watch::channel(false);
        let reading = Arc::new(settings.reading.clone());
        let shards = Shards::<Shard>::several(Resources::new(1, reading.clone()), Some(Arc::new(NoStore)));
        let budget = Budget::new(settings.max_bytes);
        let ingest = Ingest::of(shards, Arc::new(()), reading, budget, settings.metrics.clone());
        let threads = Arc::new(Threads::new(1).context("no threads could be started")?);
        let limits = limits(settings);
        let posts = senders.serve(limits.clone(), Arc::new(ingest), threads, stopped.clone());
        let asked = operators.serve_by(limits, Arc::new(NoStore), Arc::new(NoStore), stopped);
        Ok(Waiting { stop, serving: [tokio::spawn(posts), tokio::spawn(asked)] })
    }

    async fn end(self) {
        self.stop.send_replace(true);
        for serving in self.serving {
            let _ = timeout(SOON, serving).await; // a slower request was answered, or will be retried
        }
    }
}

struct NoStore;

impl Forwarder for NoStore {
    fn unavailable(&self) -> Option<Reason> {
        Some(Reason::StoreSilent)
    }

    fn post<'a>(
        &'a self,
        _: u16,
        _: &'a str,
        _: Original,
    ) -> Pin<Box<dyn Future<Output = Outcome> + Send + 'a>> {
        Box::pin(async { Reason::StoreSilent.into() })
    }
}

impl Handler for NoStore {
    async fn answer(self: Arc<Self>, request: Request<Body>) -> Response<Body> {
        match request.uri().path() {
            "/healthz" => reply(200, "text/plain; charset=utf-8", "ok\n"),
            _ => message(503, Reason::StoreSilent.text()),
        }
    }
}
