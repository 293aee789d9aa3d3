//! The main loop of an instance: sends heartbeats, carries out what `owners` decides, and publishes which instance owns
//! which shard. `service/instance` runs it until the process ends.

use super::local_view::{Cluster, STALL};
use super::owners::{ShardAction, Step};
use super::status::shown_off;
use super::terms::{OpenFailure, ShardHost, Terms, Unavailable};
use crate::latch::Latch;
use crate::log::RateLimit;
use std::collections::HashMap;
use std::sync::Arc;
use std::time::Duration;
use tokio::sync::{mpsc, watch};
use tokio::task::JoinHandle;
use tokio::time::{sleep, Instant, MissedTickBehavior};

/// The heartbeat interval. A heartbeat writes one row, however many shards there are.
pub const BEAT: Duration = Duration::from_millis(500);
/// The pause between two reads of the shards' rows.
const LOOKS: Duration = Duration::from_millis(50);
/// How long a stopping instance waits until its shards are handed over.
pub const LEAVES_WITHIN: Duration = Duration::from_secs(60);
/// The capacity for steps that follow from other steps. One would do, since shards are handed over one at a time.
const FOLLOWING: usize = 16;

static SILENT: RateLimit = RateLimit::every(Duration::from_secs(10));
static FEW: RateLimit = RateLimit::every(Duration::from_secs(10));
static NAMESAKE: RateLimit = RateLimit::every(Duration::from_secs(10));

/// Another process uses this instance's name, and had it before.
#[derive(Debug, thiserror::Error)]
#[error("a running process already uses the name {0}: give each instance its own --instance")]
pub struct NameTaken(String);

pub struct Heartbeats<T, U> {
    work: Arc<Work<T, U>>,
    /// The last step of each shard; the next one waits for it.
    last: HashMap<u16, JoinHandle<()>>,
    following: mpsc::Receiver<Step>,
    /// Takes the row of one away that has not come back.
    forgetting: Option<JoinHandle<()>>,
    between: Duration,
}

struct Work<T, U> {
    cluster: Arc<Cluster>,
    terms: Arc<T>,
    units: Arc<U>,
    follow: mpsc::Sender<Step>,
}

impl<T: Terms + 'static, U: ShardHost + 'static> Heartbeats<T, U> {
    pub fn new(cluster: Arc<Cluster>, terms: Arc<T>, units: Arc<U>) -> Heartbeats<T, U> {
        let (follow, following) = mpsc::channel(FOLLOWING);
        let work = Work { cluster, terms, units, follow };
        Heartbeats { work: Arc::new(work), last: HashMap::new(), following, forgetting: None, between: BEAT }
    }

    /// A faster loop for tests.
    #[cfg(test)]
    pub(super) fn each(mut self, between: Duration) -> Heartbeats<T, U> {
        self.between = between;
        self
    }

    /// Sends heartbeats until `stop` is set, and then until all shards are handed over, or a minute has passed.
    pub async fn run(mut self, mut stop: watch::Receiver<bool>) -> Result<(), NameTaken> {
        let stopped = stop.clone();
        let late = async {
            stop.wait_true().await;
            sleep(LEAVES_WITHIN).await;
        };
        tokio::select! {
            ended = self.beats(stopped) => ended,
            _ = late => {
                tracing::warn!("this instance ends with shards that it could not hand over in time: other instances take them");
                Ok(())
            }
        }
    }

    async fn beats(&mut self, mut stop: watch::Receiver<bool>) -> Result<(), NameTaken> {
        let mut ticks = tokio::time::interval(self.between);
        // Half a second between heartbeats, however long one took: the others measure time by counting their own.
        ticks.set_missed_tick_behavior(MissedTickBehavior::Delay);
        let (work, mut leaves) = (self.work.clone(), false);
        while !(leaves && self.is_done()) {
            tokio::select! {
                _ = stop.wait_true(), if !leaves => {
                    leaves = true;
                    work.cluster.owners().leave();
                }
                _ = ticks.tick() => self.heartbeat().await?,
                Some(step) = self.following.recv() => self.begin(step),
                _ = work.cluster.wants_look.notified() => self.look().await,
            }
        }
        if let Err(silence) = work.terms.leave().await {
            tell(&silence);
        }
        Ok(())
    }

    fn is_done(&self) -> bool {
        let owners = self.work.cluster.owners();
        owners.has_drained() && self.last.values().all(JoinHandle::is_finished)
    }

    async fn heartbeat(&mut self) -> Result<(), NameTaken> {
        let (work, began) = (self.work.clone(), Instant::now());
        let cluster = &work.cluster;
        let (stay, told) = cluster.owners().told();
        let seen = match work.terms.heartbeat(stay, told).await {
            Ok(seen) => seen,
            Err(silence) => {
                cluster.owners().unanswered();
                cluster.has_few_copies(&silence);
                tell(&silence);
                return Ok(());
            }
        };
        if began.elapsed() > STALL {
            cluster.owners().late();
        }
        let (before, steps) = {
            let mut owners = cluster.owners();
            ((owners.clock_off(), owners.is_cut_off()), owners.heartbeat(seen))
        };
        cluster.has_beaten(began);
        tell_clock(before.0, cluster.owners().clock_off());
        tell_cut_off(before.1, cluster.owners().is_cut_off());
        if cluster.owners().came_later() {
            return Err(NameTaken(cluster.owners().name().into()));
        }
        if cluster.owners().has_namesake() && NAMESAKE.is_due() {
            tracing::error!(
                "another process sends heartbeats under this instance's name: give each instance its own \
                --instance"
            );
        }
        steps.into_iter().for_each(|step| self.begin(step));
        work.publish();
        self.remove_row();
        Ok(())
    }

    /// No beat waits for that, and the store is asked for one at a time.
    fn remove_row(&mut self) {
        if self.forgetting.as_ref().is_none_or(JoinHandle::is_finished) {
            let forgotten = self.work.cluster.owners().forgotten();
            self.forgetting = forgotten.map(|(name, beat)| {
                let work = self.work.clone();
                tokio::spawn(async move { work.remove_row(&name, beat).await })
            });
        }
    }

    async fn look(&mut self) {
        match self.work.terms.shards().await {
            Ok(rows) => self.work.cluster.owners().look(rows),
            Err(silence) => tell(&silence),
        }
        self.work.publish();
        sleep(LOOKS).await;
    }

    /// Runs the steps of each shard one after another.
    fn begin(&mut self, step: Step) {
        let before = self.last.remove(&step.shard);
        let work = self.work.clone();
        let doing = tokio::spawn(async move {
            if let Some(before) = before {
                let _ = before.await; // if it panicked, nothing of it is left to wait for
            }
            if let Some(next) = work.does(step).await {
                let _ = work.follow.send(next).await; // fails only if the loop has ended, and all shards with it
            }
        });
        self.last.insert(step.shard, doing);
    }
}

fn tell_clock(before: Option<i64>, now: Option<i64>) {
    match (before, now) {
        (None, Some(ahead)) => {
            let seconds = ahead as f64 / 1e6;
            tracing::error!(
                seconds,
                clock = shown_off(ahead),
                "this instance hands over its shards and takes none while another's clock is right: fix the clock, for \
                 example by NTP"
            );
        }
        (Some(_), None) => tracing::info!("this instance's clock is right again: it takes shards"),
        _ => {}
    }
}

fn tell_cut_off(before: bool, now: bool) {
    match (before, now) {
        (false, true) => tracing::error!(
            "most of the other instances can't connect to this one's --peer: it hands over its shards and takes none until \
             they can; look at the network and the firewall"
        ),
        (true, false) => tracing::info!("the other instances can connect to this one again: it takes shards"),
        _ => {}
    }
}

fn tell(silence: &Unavailable) {
    let reason = silence.to_string();
    match silence {
        Unavailable::Unanswered(_) if SILENT.is_due() => tracing::warn!(reason, "the store does not answer"),
        Unavailable::FewCopies(_) if FEW.is_due() => {
            tracing::error!(reason, "the store has too few copies: posts get 503 until it has enough")
        }
        _ => {}
    }
}

impl<T: Terms, U: ShardHost> Work<T, U> {
    fn publish(&self) {
        self.cluster.fill(self.units.filling());
        self.cluster.publish();
    }

    /// Carries out a step and returns the step that follows from it.
    async fn does(&self, Step { act, shard, term }: Step) -> Option<Step> {
        match act {
            ShardAction::Take => self.take(shard, term).await,
            ShardAction::HandOver => return self.hand_over(shard, term).await,
            ShardAction::Release => self.release(shard, term).await,
            ShardAction::Drop => {
                self.cluster.counted().lost += 1;
                tracing::warn!(shard, term, "another instance took the shard after our term");
                self.units.drop_lost(shard, term).await;
            }
        }
        None
    }

    async fn take(&self, shard: u16, seen: u64) {
        let taken = self.terms.take(shard, seen).await.unwrap_or_else(|silence| {
            tell(&silence);
            None
        });
        self.cluster.owners().taken(shard, taken);
        let Some(term) = taken else { return };
        self.cluster.counted().takeovers += 1;
        tracing::info!(shard, term, "the shard is taken");
        match self.units.open(shard, term).await {
            Ok(()) => {
                if !self.cluster.owners().opened(shard, term) {
                    self.units.drop_lost(shard, term).await;
                }
            }
            Err(OpenFailure::Fenced) => self.cluster.lost(shard, term),
            Err(OpenFailure::Fault(reason)) => self.cluster.failed(shard, term, &reason),
        }
        self.publish();
    }

    async fn hand_over(&self, shard: u16, term: u64) -> Option<Step> {
        self.publish(); // from here on no instance serves the shard
        self.units.hand_over(shard, term).await;
        self.release(shard, term).await;
        self.cluster.counted().hand_overs += 1;
        tracing::info!(shard, term, "the shard is handed over");
        self.cluster.owners().released(shard, term)
    }

    /// Each running instance tries this. If the outcome is unknown, a later heartbeat shows whether the row is still
    /// there.
    async fn remove_row(&self, name: &str, beat: u64) {
        match self.terms.remove_row(name, beat).await {
            Ok(true) => {
                tracing::info!(instance = name, "an instance has been gone for a day: it is no longer listed")
            }
            Ok(false) => {}
            Err(silence) => tell(&silence),
        }
    }

    /// If the outcome is unknown, the row may still have this instance's name; a later heartbeat sees that.
    async fn release(&self, shard: u16, term: u64) {
        if let Err(silence) = self.terms.release(shard, term).await {
            tell(&silence);
        }
    }
}

#[cfg(test)]
pub(super) mod tests;
