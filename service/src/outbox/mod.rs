//! The outbox: the requests that wait for the sink, in groups that are there wholly or not at all, and what is known of
//! each series.
//!
//! `worker` commits a group at each checkpoint, and `sink/delivery` reads the first request and acknowledges it. A
//! request keeps its key and its bytes until the sink has it.
//!
//! Each change is written as a `Change` and then made in memory, exactly as a start makes it when it reads the record.
//! `rows` describes the bytes.

mod behind;
mod beside;
mod brought;
mod changes;
mod damaged;
mod epochs;
mod keys;
mod moved;
mod open;
mod owned;
mod parts;
mod reading;
mod recent;
mod renamed;
mod rows;
mod snapshot;
mod state;
mod table;
mod texts;
mod writer;
mod written;

use crate::otlp::series::{self, Digest, NotForwarded, SeriesKey};
use crate::runs::{Forgotten, Run, Since};
use crate::storage::disk::Disk;
use crate::storage::free_space::FreeSpace;
use crate::storage::segment::{self, Dropped};
use crate::storage::shard_store::{Fenced, Tenure};
use crate::storage::Fault;
use crate::work::locked;
use crate::work::{blocking, made_in_order};
pub use brought::{Beginning, Waits};
use changes::Change;
pub use changes::{SenderRename, UnitOfMetric};
pub use epochs::{Epochs, GoesOn};
pub use owned::Owned;
pub use recent::{Noted, PointsDigest, Recent, Recents, POSTS_KNOWN};
use state::{Age, State};
use std::collections::{BTreeSet, HashMap, HashSet};
use std::io;
use std::path::PathBuf;
use std::sync::atomic::{AtomicU64, Ordering::SeqCst};
use std::sync::{Arc, Mutex};
use std::time::Duration;
use texts::{Texts, PART};
use tokio::sync::Notify;
use writer::Writer;
pub use written::Committed;

/// A new segment begins after this many bytes, and not before twice the length of the snapshot.
const SEGMENT: u64 = 16 << 20;
/// How recently we must have proved that we own the shard before a delivery. A sink that has dropped old keys may count
/// what another instance delivers too.
const OURS: Duration = Duration::from_millis(if cfg!(test) { 300 } else { 10_000 });

/// What is known of a series.
#[derive(Clone, Debug, PartialEq, Eq)]
pub struct Series {
    /// The end of its last flushed point.
    pub frontier: u64,
    /// The first commit with the series has it; none is a fault of this program.
    pub owner: Option<Arc<str>>,
    /// When a group last had a point of it, in seconds since 1970; 32 bits last for eighty years.
    pub seen: u32,
    /// The last flushed point of its run, if its points are converted from cumulative ones.
    pub run: Option<Arc<Run>>,
    /// Digests of its last delta points, by which a repeat is recognised.
    pub recent: Recent,
}

/// The runs of series as they were when a group was taken.
pub type Runs = HashMap<Digest, Arc<Run>>;

/// A request that the sink does not have yet.
#[derive(Clone, Debug, PartialEq, Eq)]
pub struct Waiting {
    /// Counts up from 1. With epoch and shard it is the key of the request, which never changes.
    pub number: u64,
    /// When it was committed, in seconds since 1970.
    pub since: u64,
}

/// Returns the series and the end of each point of a request.
type ReadEnds = fn(&[u8]) -> Result<Vec<(SeriesKey, u64)>, NotForwarded>;

/// Shared by `worker`, which commits, and `sink/delivery`, which acknowledges. Reads never wait for the disk; writes
/// may wait for another call's sync. In a shard store, writes do not wait: a group is durable after `settle`, and is
/// not delivered before.
pub struct Outbox {
    disk: Disk,
    folder: PathBuf,
    free_space: Arc<FreeSpace>,
    read_ends: ReadEnds,
    longest: u64,
    /// Held by each call that writes, and locked before `state`.
    writer: Mutex<Writer>,
    state: Mutex<State>,
    arrived: Notify,
    /// Requests before this number are durable.
    settled: AtomicU64,
    /// The segment that the last run wrote to, and where it ended.
    ended: (PathBuf, u64),
    dropped: Vec<Dropped>,
    stuck: Mutex<Option<String>>,
}

/// The ends of the points of a request that the book wrote.
fn ends(body: &[u8]) -> Result<Vec<(SeriesKey, u64)>, NotForwarded> {
    Ok(series::forwarded(body)?.into_iter().map(|point| (point.series, point.end)).collect())
}

impl Outbox {
    /// The epoch of the first waiting request, or of future ones if none waits. A folder draws its epoch when it is
    /// made, and again after it was restored; a shard of a store, when an owner takes it.
    pub fn epoch(&self) -> String {
        locked(&self.state).epoch().to_string()
    }

    /// The first segment of the journal whose posts are in no group.
    pub fn journal(&self) -> u64 {
        locked(&self.state).facts.journal
    }

    pub fn series(&self) -> HashMap<SeriesKey, Series> {
        self.each_of(|_| true, |key, series| (key, series)).into_iter().collect()
    }

    /// Passes all keys to `show`, in parallel and in parts of neighbouring keys.
    pub fn each_keys(&self, show: impl Fn(Vec<SeriesKey>) + Sync) {
        let (those, texts) = self.those(|_| true);
        let ids: Vec<u32> = those.into_iter().map(|(id, _)| id).collect();
        made_in_order(ids.chunks(PART), |ids| show(texts.of(ids.iter().copied()).collect()), drop);
    }

    /// Maps each series that has a run.
    pub fn with_run<T: Send>(&self, make: impl Fn(SeriesKey, Series) -> T + Sync) -> Vec<T> {
        self.each_of(|series| series.run.is_some(), make)
    }

    /// Maps each series that is wanted. Keys are unpacked without the lock, and never all at once, since together they
    /// may be very long.
    fn each_of<T: Send>(
        &self,
        wanted: impl Fn(&Series) -> bool,
        make: impl Fn(SeriesKey, Series) -> T + Sync,
    ) -> Vec<T> {
        let (those, texts) = self.those(wanted);
        texts.each_of(those, make)
    }

    /// The wanted series by id, and the texts that have their keys.
    fn those(&self, wanted: impl Fn(&Series) -> bool) -> (Vec<(u32, Series)>, Texts) {
        let state = locked(&self.state);
        let all = state.series.iter().map(|(id, known)| (id, &known.series));
        let those = all.filter(|(_, series)| wanted(series));
        (those.map(|(id, series)| (id, series.clone())).collect(), state.series.texts())
    }

    /// The times since which series and forgotten series are known.
    pub fn since(&self) -> Since {
        locked(&self.state).facts.since
    }

    /// The ends of forgotten series.
    pub fn forgotten(&self) -> Forgotten {
        locked(&self.state).facts.forgotten.clone()
    }

    /// The end of the last flushed point of a series; 0 if it is not known.
    pub fn frontier(&self, series: &Digest) -> u64 {
        let state = locked(&self.state);
        state.series.get(series).map_or(0, |known| known.series.frontier)
    }

    /// The digests of its last points.
    pub fn recent(&self, series: &Digest) -> Recent {
        let state = locked(&self.state);
        state.series.get(series).map_or(Recent::default(), |known| known.series.recent)
    }

    /// Changes when series get other ids.
    pub fn numbering(&self) -> u64 {
        locked(&self.state).series.numbering()
    }

    /// The ids of the series that are known, and their numbering.
    pub fn ids<'d>(&self, series: impl Iterator<Item = &'d Digest>) -> (u64, Vec<Option<u32>>) {
        let state = locked(&self.state);
        (state.series.numbering(), series.map(|digest| state.series.id_of(digest)).collect())
    }

    pub fn owner(&self, series: &Digest) -> Option<String> {
        let state = locked(&self.state);
        Some(state.series.get(series)?.series.owner.as_ref()?.to_string())
    }

    pub fn series_count(&self) -> usize {
        locked(&self.state).series.len()
    }

    pub fn quarantined(&self) -> BTreeSet<String> {
        locked(&self.state).facts.quarantined.clone()
    }

    /// Forgets the series that no group has had for this long, except those in `keep`, and returns them.
    pub fn forget_series(&self, age: Duration, keep: &HashSet<Digest>) -> Result<Vec<SeriesKey>, Fault> {
        self.forget_of(Age::from_now(age), keep)
    }

    fn forget_of(&self, age: Age, keep: &HashSet<Digest>) -> Result<Vec<SeriesKey>, Fault> {
        self.leave_out(|series| series.old(age, keep).collect())
    }

    /// Whether `forget` would find any series.
    pub fn has_any_of(&self, age: Duration, keep: &HashSet<Digest>) -> bool {
        locked(&self.state).series.old(Age::from_now(age), keep).next().is_some()
    }

    /// How many requests wait, how many bytes they take on disk, and the first of them.
    pub fn waiting(&self) -> (u64, u64, Option<Waiting>) {
        let state = locked(&self.state);
        (
            state.facts.next - 1 - state.facts.acknowledged,
            state.bytes,
            state.front().map(|front| front.waiting),
        )
    }

    /// The segment that the last run wrote to, and where its valid part ended.
    pub(crate) fn ended(&self) -> (PathBuf, u64) {
        self.ended.clone()
    }

    /// What this start dropped from the files of an earlier run.
    pub fn dropped(&self) -> &[Dropped] {
        &self.dropped
    }

    /// How long the oldest running call of the disk has taken; zero if none is running. Never waits for it.
    pub fn under_way(&self) -> Duration {
        self.disk.under_way()
    }

    /// Waits for a request, and returns the first with its body after checking that it is as it was committed.
    pub async fn first(&self) -> Result<(Waiting, Vec<u8>), Fault> {
        loop {
            let front = locked(&self.state).front();
            let Some(front) = front else {
                // If a commit came after the look, `Notify` has kept its call.
                self.arrived.notified().await;
                continue;
            };
            let waiting = front.waiting.clone();
            let (disk, path) = (self.disk.clone(), segment::path(&self.folder, front.segment));
            match blocking(move || rows::read_item(&disk, &path, &front)).await {
                Err(fault @ Fault::Damaged { .. }) => self.note_changed(&fault).await,
                read => {
                    self.note_sound();
                    return Ok((waiting, read?));
                }
            }
        }
    }

    /// Makes everything written so far durable. In a folder it is durable already.
    pub fn sync(&self) -> Result<(), Fault> {
        if self.disk.keeps_order() {
            let next = locked(&self.state).facts.next;
            self.disk.sync_folder(&self.folder)?;
            self.settled.fetch_max(next, SeqCst);
        }
        Ok(())
    }

    /// Whether this request may be delivered now: it is durable, and we owned the shard a moment ago.
    pub fn may_deliver(&self, number: u64) -> bool {
        !self.disk.keeps_order() || number < self.settled.load(SeqCst) && self.disk.ours_before() < OURS
    }

    /// The term under which we own the shard; none for a folder.
    pub fn term(&self) -> Option<u64> {
        self.disk.term()
    }

    /// The term, with the epoch of the requests that this owner makes.
    pub fn tenure(&self) -> Option<Tenure> {
        let term = self.disk.term()?;
        Some(Tenure { term, epoch: locked(&self.state).facts.epoch.clone() })
    }

    /// The epochs of all waiting requests, and of the requests that these continue.
    pub fn epochs(&self) -> Epochs {
        locked(&self.state).facts.epochs.clone()
    }

    /// Gives the requests of this owner an epoch of their own.
    pub(crate) fn begin_epoch(&self, root: &str, epoch: &Arc<str>) {
        let mut state = locked(&self.state);
        let (next, acknowledged) = (state.facts.next, state.facts.acknowledged);
        state.facts.epochs.begin(root, epoch, next, acknowledged);
        state.facts.epoch = epoch.clone();
    }

    /// Acknowledges all requests up to this one. The sink's own record says that it has them.
    pub(crate) fn is_delivered_to(&self, number: u64) -> Result<(), Fault> {
        let last = locked(&self.state).facts.next - 1;
        if number > last {
            let what = format!(
                "ends at request {last}, but the sink has requests up to number {number}: restore all of the shard's files, \
                 or end all instances and call `totxegun store restored` to go on with what there is"
            );
            return Err(Fault::Damaged { path: self.folder.clone(), at: 0, what });
        }
        loop {
            let first = locked(&self.state).front().map(|front| front.waiting.number);
            match first.filter(|first| *first <= number) {
                Some(first) => self.acknowledge(first)?,
                None => return Ok(()),
            }
        }
    }

    /// Reacts to a fault: ends only the shard if a shard store keeps the files, and otherwise the process.
    pub fn fail(&self, fault: Fault) -> Fenced {
        self.disk.fail(fault)
    }

    /// Returns after another instance took the shard, or may have taken it.
    pub async fn fenced(&self) -> Fenced {
        self.disk.fenced().await
    }

    /// Records that the sink has the first waiting request, or that it is a dead letter. If the record is lost, the
    /// request is sent again under the same key.
    pub fn acknowledge(&self, number: u64) -> Result<(), Fault> {
        let front = {
            let state = locked(&self.state);
            if number <= state.facts.acknowledged {
                return Ok(());
            }
            state.front().filter(|front| front.waiting.number == number)
        };
        let Some(front) = front else {
            let source = io::Error::new(
                io::ErrorKind::InvalidInput,
                format!("request {number} is not the first that waits"),
            );
            return Err(Fault::Io { path: self.folder.clone(), source });
        };
        let length = rows::item_length(&self.disk, &segment::path(&self.folder, front.segment), &front)?;
        let taken = self.change(|state| {
            (number > state.facts.acknowledged).then_some(Change::Acknowledge { number, length })
        })?;
        if taken && locked(&self.state).front().map(|now| now.segment) != Some(front.segment) {
            self.sweep()?;
        }
        Ok(())
    }
}

#[cfg(test)]
mod tests;
