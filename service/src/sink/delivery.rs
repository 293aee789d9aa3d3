//! Delivers a shard's outbox to the sink: one request after another, or several in one transaction, each under its own
//! key.
//!
//! `service/open_shard` runs one delivery for each open shard. A request leaves the outbox only after the sink has it, or
//! after it is a dead letter.

mod epochs;
mod files;
mod together;

use super::{backoff, DeliveryOutcome, Forwarded, Sink};
use crate::dead_letters::DeadLetters;
use crate::latch::Latch;
use crate::log;
use crate::metrics::Metrics;
use crate::outbox::Outbox;
use crate::storage::Fault;
use crate::work::locked;
use files::{Files, Store};
use std::convert::Infallible;
use std::future::Future;
use std::pin::pin;
use std::sync::atomic::AtomicBool;
use std::sync::{Arc, Mutex};
use std::time::{Duration, Instant};
use together::Size;
use tokio::sync::{watch, Notify};
use tokio::time::timeout;

/// For how long a request is retried while the sink fails or denies access. OTLP says not to retry these answers; but a
/// sink also gives them while a part of it is down, or after a token has expired, and then each request of that time
/// would become a dead letter. Retrying forever would block all later requests on one that no sink can take, until the
/// disk is full.
const FAILING: Duration = Duration::from_secs(24 * 3600);

/// How long to wait before reporting that nothing is sent because we can't prove that we own the shard: during a
/// takeover, or if the store is slow once, that passes.
const UNSURE: Duration = Duration::from_secs(60);

/// How long to wait before checking again whether the disk has room for a dead letter.
const ROOM: Duration = Duration::from_millis(if cfg!(test) { 10 } else { 1000 });

/// The state of a delivery, for `status`.
#[derive(Clone, Debug, Default, PartialEq, Eq, serde::Serialize, serde::Deserialize)]
pub struct Delivery {
    /// Why the last try failed, if it did, or why there is none.
    pub trouble: Option<String>,
    /// How often the first waiting request was tried; 0 after it was taken.
    pub tries: u64,
    /// When the next try is due, in seconds since 1970, while the delivery waits for it.
    pub next_try: Option<u64>,
}

/// A delivery, as operators see it and hurry it.
#[derive(Default)]
pub struct Attempts {
    state: Mutex<Delivery>,
    hurried: Notify,
}

impl Attempts {
    pub fn state(&self) -> Delivery {
        locked(&self.state).clone()
    }

    /// Makes a waiting retry happen now.
    pub fn retry_now(&self) {
        self.hurried.notify_one();
    }
}

/// Delivers a shard's outbox until a file fails, `stop` is set or the shard is fenced. A change of a file that is in
/// progress is finished first, so that its fault is reported.
pub async fn deliver(
    shard: u16,
    outbox: Arc<Outbox>,
    dead: Arc<DeadLetters>,
    sink: Arc<dyn Sink>,
    metrics: Arc<Metrics>,
    attempts: Arc<Attempts>,
    stop: watch::Receiver<bool>,
) -> Result<(), Fault> {
    if let Some(owners) = sink.owners() {
        owners.put(shard, &outbox);
    }
    let files = Files { outbox, dead };
    let is_told = AtomicBool::new(false);
    Run { shard, files, sink, metrics, attempts, is_told, failing: FAILING, unsure: UNSURE, stop }
        .until_it_ends()
        .await
}

struct Run<S> {
    shard: u16,
    files: S,
    sink: Arc<dyn Sink>,
    metrics: Arc<Metrics>,
    attempts: Arc<Attempts>,
    /// The sink knows which epochs the requests continue.
    is_told: AtomicBool,
    /// For how long a request is retried while the sink fails.
    failing: Duration,
    /// How long to wait before reporting that we can't prove that we own the shard.
    unsure: Duration,
    stop: watch::Receiver<bool>,
}

/// Why a delivery ends: because of a fault, or, if none, because it was stopped.
type End = Option<Fault>;

impl<S: Store> Run<S> {
    async fn until_it_ends(&self) -> Result<(), Fault> {
        let Err(end) = self.run().await;
        end.map_or(Ok(()), Err)
    }

    async fn run(&self) -> Result<Infallible, End> {
        let mut size = Size::of(&*self.sink);
        if self.files.tenure().is_some() {
            self.wait_until_sure(0).await?; // else another owner's epochs would be dropped
        }
        let _later = self.tell_epochs().await?; // on failure it is repeated before the next request
        loop {
            let (waiting, body) = self.unless_stopped(self.files.first()).await??;
            let request = self.request(waiting.number, body);
            if self.together(&request, &mut size).await? {
                continue;
            }
            self.deliver_until_taken(request).await?;
            // A request leaves the outbox only if the sink has it, or `dead-letters/` does.
            self.files.acknowledge(waiting.number).await?;
        }
    }

    fn request(&self, number: u64, body: Vec<u8>) -> Forwarded {
        Forwarded { shard: self.shard, epoch: self.files.epoch(), number, body }
    }

    /// Sends a request, with the same bytes and the same key, until its outcome is known. What the sink does not take
    /// becomes a dead letter.
    async fn deliver_until_taken(&self, request: Forwarded) -> Result<(), End> {
        let mut failing = None;
        loop {
            let key = request.key();
            let held = self.unless_stopped(self.sink.keys().hold(&key)).await?;
            self.wait_until_sure(request.number).await?;
            let tenure = self.files.tenure();
            let fate = match self.tell_epochs().await? {
                Ok(()) => self.unless_stopped(self.sink.deliver_of(&request, tenure.as_ref())).await?,
                Err(fate) => fate,
            };
            let outcome = match fate {
                DeliveryOutcome::Denied { .. } => "denied",
                _ => "again",
            };
            match self.with_patience(fate, &mut failing) {
                DeliveryOutcome::Taken => {
                    self.files.let_go(key, request.body).await?;
                    self.ended("taken");
                    return Ok(());
                }
                DeliveryOutcome::Away { reason } => {
                    drop(held);
                    let tries = self.failed(&key, reason, outcome);
                    self.pause(backoff::wait(tries, backoff::LONGEST_OF_AWAY, None)).await?;
                }
                DeliveryOutcome::Again { reason, after } => {
                    drop(held);
                    let tries = self.failed(&key, reason, outcome);
                    self.pause(backoff::wait(tries, backoff::LONGEST_OF_BUSY, after)).await?;
                }
                DeliveryOutcome::Refused { reason }
                | DeliveryOutcome::Failed { reason, .. }
                | DeliveryOutcome::Denied { reason, .. } => {
                    return self.put_aside(request, reason).await;
                }
                DeliveryOutcome::TakenPartly { rejected, reason, left } => {
                    return self.keep_part(request, rejected, reason, left).await;
                }
            }
        }
    }

    /// Waits for this long, or until someone asks for the next try.
    async fn pause(&self, wait: Duration) -> Result<(), End> {
        locked(&self.attempts.state).next_try = Some(log::seconds() + wait.as_secs_f64().ceil() as u64);
        let hurried = timeout(wait, self.attempts.hurried.notified());
        let _ = self.unless_stopped(hurried).await?;
        locked(&self.attempts.state).next_try = None;
        Ok(())
    }

    /// Waits until a request may be sent. If that takes long, it is reported: otherwise nobody would see why nothing is
    /// sent.
    async fn wait_until_sure(&self, number: u64) -> Result<(), End> {
        let mut sure = pin!(self.unless_stopped(self.files.may_deliver(number)));
        if let Ok(sure) = timeout(self.unsure, &mut sure).await {
            return Ok(sure??);
        }
        let (shard, seconds) = (self.shard, self.unsure.as_secs());
        let reason = format!(
            "nothing is sent: for {seconds} s the store has not confirmed that this instance owns the shard; it is slow or \
             unreachable"
        );
        tracing::warn!(shard, reason, "requests are held back");
        let before = locked(&self.attempts.state).trouble.replace(reason);
        sure.await??;
        locked(&self.attempts.state).trouble = before;
        tracing::info!(
            shard,
            "the store confirms again that this instance owns the shard: requests are sent"
        );
        Ok(())
    }

    /// Keeps a dead letter when the disk has room for it. Until then its request stays in the outbox.
    async fn keep(&self, key: &str, reason: String, body: Vec<u8>) -> Result<(), End> {
        let mut before = None;
        while !self.files.keep(key.into(), reason.clone(), body.clone()).await? {
            if before.is_none() {
                let full = format!(
                    "the disk has no room to keep {key}, which the sink refused, in dead-letters/: {reason}"
                );
                tracing::warn!(
                    key,
                    reason = full,
                    "the disk has no room for a dead letter: nothing is sent until more is free"
                );
                before = Some(locked(&self.attempts.state).trouble.replace(full));
            }
            self.unless_stopped(tokio::time::sleep(ROOM)).await?;
        }
        if let Some(before) = before {
            locked(&self.attempts.state).trouble = before;
        }
        Ok(())
    }

    async fn put_aside(&self, request: Forwarded, reason: String) -> Result<(), End> {
        let (sink, key) = (self.sink.name(), request.key());
        tracing::error!(
            sink,
            key,
            reason,
            "the sink refused a request for good: it is kept in dead-letters/"
        );
        self.keep(&key, reason, request.body).await?;
        self.ended("refused");
        Ok(())
    }

    /// Turns failures into retries until the sink has failed for too long without a break.
    fn with_patience(&self, fate: DeliveryOutcome, failing: &mut Option<Instant>) -> DeliveryOutcome {
        match fate {
            DeliveryOutcome::Failed { reason, after } | DeliveryOutcome::Denied { reason, after }
                if failing.get_or_insert_with(Instant::now).elapsed() < self.failing =>
            {
                DeliveryOutcome::Again { reason, after }
            }
            DeliveryOutcome::Failed { .. } | DeliveryOutcome::Denied { .. } => fate,
            other => {
                *failing = None;
                other
            }
        }
    }

    async fn unless_stopped<T>(&self, work: impl Future<Output = T>) -> Result<T, End> {
        let mut stop = self.stop.clone();
        tokio::select! {
            biased;
            () = stop.wait_true() => Err(None),
            lost = self.files.fenced() => Err(Some(lost.into())),
            done = work => Ok(done),
        }
    }

    /// The key of the letter says that the request was taken: if it were sent again under its own key, the points that
    /// the sink took could count twice.
    async fn keep_part(
        &self,
        request: Forwarded,
        rejected: u64,
        reason: String,
        left: Option<Vec<u8>>,
    ) -> Result<(), End> {
        let (sink, key) = (self.sink.name(), request.key());
        tracing::warn!(
            sink,
            key,
            rejected,
            reason,
            "the sink took a request but rejected some of its points: it is kept in dead-letters/"
        );
        let reason = of_part(rejected, &reason, left.is_some());
        let left = left.unwrap_or_else(|| request.body.clone());
        self.keep(&format!("{key}-partial"), reason, left).await?;
        self.files.let_go(key, request.body).await?;
        self.metrics.faults.with_label_values(&["points_rejected_by_sink"]).inc_by(rejected);
        self.ended("partial");
        Ok(())
    }

    /// Notes a failed try and returns how many there were.
    fn failed(&self, key: &str, reason: String, outcome: &str) -> u64 {
        self.metrics.deliveries.with_label_values(&[outcome]).inc();
        let mut state = locked(&self.attempts.state);
        state.tries += 1;
        if state.trouble.is_none() {
            let sink = self.sink.name();
            tracing::warn!(sink, key, reason, "the sink has not taken a request: it is retried");
        }
        state.trouble = Some(reason);
        state.tries
    }

    fn ended(&self, outcome: &str) {
        self.metrics.deliveries.with_label_values(&[outcome]).inc();
        let mut state = locked(&self.attempts.state);
        if state.trouble.is_some() {
            let (sink, tries) = (self.sink.name(), state.tries);
            tracing::info!(sink, tries, "the sink answers again");
        }
        *state = Delivery::default();
    }
}

/// The reason of a partly taken request's letter, which has all of its points, or only the rejected ones.
pub fn of_part(rejected: u64, reason: &str, is_known: bool) -> String {
    let points = if rejected == 1 { "point" } else { "points" };
    match is_known {
        true => format!(
            "taken except for {rejected} {points}, which are kept here (do not send it again): {reason}"
        ),
        false => format!("taken, but {rejected} {points} rejected (do not send it again): {reason}"),
    }
}

#[cfg(test)]
mod tests;
