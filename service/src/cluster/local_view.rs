//! What this instance knows of the others and of all shards. `beats` updates it, and the rest of the process reads it.

use super::owners::{Owners, ShardOwner};
use super::status::{Counted, OtherInstance, Status, UnservedShards};
use super::terms::Unavailable;
use crate::log::shown;
use crate::otlp::Reason;
use crate::work::locked;
use std::collections::{BTreeMap, BTreeSet};
use std::sync::{Arc, Mutex, MutexGuard};
use std::time::Duration;
use tokio::sync::{watch, Notify};
use tokio::time::Instant;

/// After this long without a committed heartbeat, an instance refuses posts. This is not needed for safety; it saves
/// senders time.
pub const STALL: Duration = Duration::from_secs(2);
/// How many characters of a reason the other instances are told.
const REASON_SHOWN: usize = 500;

pub type Places = Arc<BTreeMap<u16, ShardOwner>>;

/// This instance among the others.
pub struct Cluster {
    owners: Mutex<Owners>,
    places: watch::Sender<Places>,
    pub(super) wants_look: Notify,
    /// When the last committed heartbeat was sent; none before the first.
    beaten: Mutex<Option<Instant>>,
    /// Why the store has too few copies, by the last heartbeat that had an answer.
    few_copies: Mutex<Option<String>>,
    unserved: Mutex<UnservedShards>,
    counted: Mutex<Counted>,
}

impl Cluster {
    /// `name` is this instance's alone; `clock` is how far its clock may be off, if that matters.
    pub fn new(name: &str, clock: Option<Duration>) -> Arc<Cluster> {
        Arc::new(Cluster {
            owners: Mutex::new(Owners::new(name, clock)),
            places: watch::channel(Places::default()).0,
            wants_look: Notify::new(),
            beaten: Mutex::default(),
            few_copies: Mutex::default(),
            unserved: Mutex::default(),
            counted: Mutex::default(),
        })
    }

    /// The caller changes the state as a whole while it holds the lock.
    pub(super) fn owners(&self) -> MutexGuard<'_, Owners> {
        locked(&self.owners)
    }

    pub(super) fn counted(&self) -> MutexGuard<'_, Counted> {
        locked(&self.counted)
    }

    /// The owner of each shard, as far as is known; the receiver is notified of changes.
    pub fn places(&self) -> watch::Receiver<Places> {
        self.places.subscribe()
    }

    pub fn whose(&self, shard: u16) -> ShardOwner {
        self.places.borrow().get(&shard).cloned().unwrap_or(ShardOwner::Nobody)
    }

    /// Whether some shards' posts are sent to other instances.
    pub fn has_others(&self) -> bool {
        let places = self.places.borrow();
        places.values().any(|whose| matches!(whose, ShardOwner::There { .. }))
    }

    /// The number of other live instances; at least one.
    pub fn others(&self) -> usize {
        self.owners().staying().max(1)
    }

    /// Where operators on other machines reach an instance, if they can.
    pub fn operate_of(&self, name: &str) -> Option<String> {
        self.owners().operate(name)
    }

    /// Whether this instance is stopping and hands over its shards.
    pub fn leaves(&self) -> bool {
        self.owners().leaves()
    }

    /// Whether its clock is so far off that it may own no shards.
    pub fn is_off_clock(&self) -> bool {
        self.owners().leaves_for_clock()
    }

    /// The other instances and their addresses for posts; those that are gone only while they own shards.
    pub(super) fn addresses(&self) -> Vec<(String, String)> {
        let owners = self.owners();
        let rows = owners.shards();
        let is_of_use = |other: &OtherInstance| {
            !other.address.is_empty() && (!other.is_gone || rows.iter().any(|row| row.owner == other.name))
        };
        let others = owners.others().into_iter().filter(is_of_use);
        others.map(|other| (other.name, other.address)).collect()
    }

    /// Sets which of them can be reached; none while that is unknown.
    pub(super) fn has_reached(&self, names: Option<BTreeSet<String>>) {
        self.owners().has_reached(names);
    }

    /// Whether this instance can't reach some owner, while another one reaches all owners.
    pub fn misses_owner(&self) -> bool {
        self.owners().misses_owner()
    }

    /// Has the loop read the shards' rows again.
    pub fn look(&self) {
        self.wants_look.notify_one();
    }

    /// Whether no heartbeat was committed for so long that posts are refused.
    pub fn is_stalled(&self) -> bool {
        self.beat_age().is_none_or(|age| age > STALL)
    }

    /// Why posts are refused, whatever shard they are for.
    pub fn unavailable(&self) -> Option<Reason> {
        match self.is_stalled() {
            _ if self.few_copies().is_some() => Some(Reason::FewCopies),
            true => Some(Reason::StoreSilent),
            false => None,
        }
    }

    /// Why the store's commits are on too few servers.
    pub fn few_copies(&self) -> Option<String> {
        locked(&self.few_copies).clone()
    }

    /// Notes the answer of a heartbeat; without an answer nothing changes.
    pub(super) fn has_few_copies(&self, silence: &Unavailable) {
        if let Unavailable::FewCopies(why) = silence {
            *locked(&self.few_copies) = Some(why.clone());
        }
    }

    /// Notes that a shard could not be opened here, or ended because of a fault.
    pub fn failed(&self, shard: u16, term: u64, reason: &str) {
        let reason = shown(reason, REASON_SHOWN);
        let then = match self.owners().failed(shard, term, &reason) {
            true => "another instance takes it",
            false => "no other instance is left to take it, so this one retries",
        };
        tracing::error!(shard, then, reason, "the shard can't be served here");
        self.publish();
    }

    /// Called by a shard's writer when it finds another owner's term.
    pub fn lost(&self, shard: u16, term: u64) {
        if self.owners().lost(shard, term) {
            self.counted().lost += 1;
        }
        self.look();
    }

    pub fn status(&self) -> Status {
        let (owners, unserved) = (self.owners(), locked(&self.unserved));
        // Without an answer of the store, this instance does not know the current state.
        let longest = (!self.is_stalled()).then(|| unserved.longest(Instant::now()));
        Status {
            name: owners.name().into(),
            others: owners.others(),
            shards: owners.shards(),
            without_owner: unserved.count(),
            longest_without_owner: longest.unwrap_or_default(),
            terms: owners.terms(),
            beat_age: self.beat_age(),
            few_copies: self.few_copies(),
            clock_off: owners.clock_off(),
            is_cut_off: owners.is_cut_off(),
            missed_owner: owners.missed_owner().map(String::from),
            has_namesake: owners.has_namesake(),
            refused: owners.all_refused(),
            counted: *self.counted(),
        }
    }

    /// Sets what a heartbeat would find, for an hour: a test may be slow.
    #[cfg(test)]
    pub(crate) fn knows(&self, places: &[(u16, ShardOwner)]) {
        self.has_beaten(Instant::now() + Duration::from_secs(3600));
        self.places.send_replace(Arc::new(places.iter().cloned().collect()));
    }

    /// A heartbeat of a test, whose steps are not carried out.
    #[cfg(test)]
    pub(crate) fn has_seen(&self, seen: super::terms::Seen) {
        self.owners().heartbeat(seen);
    }

    /// As when the instance is stopping: it hands over its shards.
    #[cfg(test)]
    pub(crate) fn leave(&self) {
        self.owners().leave();
    }

    /// Moves the last committed heartbeat into the past.
    #[cfg(test)]
    pub(super) fn is_silent_for(&self, time: Duration) {
        self.has_beaten(Instant::now() - time);
    }

    /// Publishes the owners of the shards if they changed. They are computed while the channel is locked, so the last
    /// value published is the latest one.
    pub(super) fn publish(&self) {
        self.places.send_if_modified(|said| {
            let (places, shards) = {
                let owners = self.owners();
                (owners.whose(), owners.shards())
            };
            locked(&self.unserved).note(&shards, Instant::now());
            let is_new = **said != places;
            if is_new {
                *said = Arc::new(places);
            }
            is_new
        });
    }

    /// Notes that a heartbeat that was sent at this time is committed.
    pub(super) fn has_beaten(&self, sent: Instant) {
        *locked(&self.beaten) = Some(sent);
        if locked(&self.few_copies).take().is_some() {
            tracing::info!("the store has enough copies again: posts are accepted");
        }
    }

    fn beat_age(&self) -> Option<Duration> {
        locked(&self.beaten).map(|beaten| beaten.elapsed())
    }

    /// Sets the open shards that do not take posts yet.
    pub(super) fn fill(&self, shards: BTreeSet<u16>) {
        locked(&self.unserved).filling = shards;
    }
}
