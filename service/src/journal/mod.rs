//! The journal: each post that the book took, in the order in which it took them, in segments.
//!
//! `shard` appends posts under the lock of the book, `worker` rolls and truncates the journal at a checkpoint, and a
//! start replays it. No post is answered before the journal is as durable as `--durability` says.
//!
//! | kind | bytes |
//! |---|---|
//! | 16 post | seconds since 1970 (u64), rejected points (u64), length of the sender's name (u64), name, body |
//! | 17 parked | JSON: for each quarantined sender its name, how many of its posts are in its own file, and where they end there |
//! | 18 definition | number, a request of one point, whose series has this number in this file from here on; coded against the definition before it (`text_row`) |
//! | 19 points | as a post, but the body is points, and both they and the numbers are packed (`packed`) |
//! | 20 runs | as 19, if some of the points were converted from cumulative ones: what the points say of their runs comes before them (`packed::runs`) |
//!
//! Numbers of 18 are packed. A series is defined before the first points of a segment that need it, by the same write.
//!
//! A record gets its place under a short lock, so records are in the order of the calls. It stays in memory until the
//! next write, which takes all appended records (`write`). One thread syncs for all callers that wait; with
//! `--durability process`, each serving thread writes (`work/own_call`). No caller that waits for the disk holds the
//! lock that appending needs.

mod by_number;
mod earlier_segment;
mod named_numbers;
mod open;
mod packed;
mod parked;
mod post;
mod reading;
mod record;
mod sync;
mod watermark;
mod write;

use crate::storage::disk::{Disk, File};
use crate::storage::free_space::FreeSpace;
use crate::storage::records::{self, Which};
use crate::storage::segment::{self, Ahead, Dropped, Segment};
use crate::storage::shard_store::Fenced;
use crate::storage::{seconds, Durability, Fault};
use crate::work::locked;
use crate::work::{others_first, own_call};
pub use by_number::ByNumber;
use named_numbers::NamedNumbers;
pub use open::Left;
pub(crate) use packed::{put_number, take_number};
pub use parked::Held;
pub use post::{Body, Names, NoNames, OfRun, Points, Post, Replayed};
use std::collections::{BTreeMap, BTreeSet};
use std::path::{Path, PathBuf};
use std::sync::{Arc, Mutex};
use std::thread::JoinHandle;
use std::time::Duration;
use watermark::Watermark;

const POST: u8 = records::OWN;
const HELD: u8 = records::OWN + 1;
const NAME: u8 = records::OWN + 2;
const POINTS: u8 = records::OWN + 3;
const RUNS: u8 = records::OWN + 4;

/// Names of the threads that sync and write.
pub(crate) const SYNCER: &str = "journal";
const WRITER: &str = "journal-write";

/// A position in the journal: everything appended before it. In a shard store it is the number of changes that the
/// store has had.
#[derive(Clone, Copy, Debug, PartialEq, Eq, PartialOrd, Ord)]
pub struct Ticket(pub u64);

/// Shared by all callers that post. A fault of the disk ends the process. In a shard store it fences the shard:
/// anything appended after that never becomes durable.
pub struct Journal {
    shared: Arc<Shared>,
    threads: Vec<JoinHandle<()>>,
    /// The segment that this start began.
    begun: u64,
    dropped: Vec<Dropped>,
}

/// What the outbox and the folder know of the journal.
pub(crate) struct Expected {
    /// The first segment whose posts are in no group of the outbox.
    pub reach: u64,
    /// The segment that the last start began: its name is durable, as are those from `reach` to it. None before the
    /// first start has recorded it.
    pub begun: Option<u64>,
    /// The segment of the outbox that gives `reach`, and where that segment ends; to name them in a fault.
    pub by: (PathBuf, u64),
}

struct Shared {
    disk: Disk,
    folder: PathBuf,
    durability: Durability,
    free_space: Arc<FreeSpace>,
    place: Mutex<Place>,
    /// Held during each write into the segment, and locked before `place`. The buffer of such a write.
    writing: Mutex<Vec<u8>>,
    /// How far the journal is in the file.
    written: Watermark,
    /// Never held during a call of the disk, so that `size` never waits for one.
    sizes: Mutex<Vec<Size>>,
    /// By segment: how much of quarantined senders' files counts if that segment is the first to be replayed.
    held: Mutex<BTreeMap<u64, parked::List>>,
    durable: Watermark,
    syncing: Mutex<()>,
    /// The next segment, durable and without a name. Locked after `place`.
    next: Mutex<Option<Segment>>,
}

/// Where records are appended.
struct Place {
    segment: Segment,
    /// Whether the segment's name is durable.
    named: bool,
    ticket: u64,
    /// The series that the segment has defined.
    said: NamedNumbers,
    /// Ended segments that are not synced yet.
    ended: Vec<(Arc<File>, PathBuf)>,
    /// The ticket of the last roll, or of the last record of parked posts: earlier segments stay until it is durable.
    kept: u64,
    /// Quarantined senders whose posts are all parked in their own files.
    moved: BTreeSet<String>,
}

/// The size of a segment.
struct Size {
    number: u64,
    bytes: u64,
    first: Option<u64>,
}

impl Journal {
    /// Appends a post and writes nothing yet. `names` defines the numbers that this segment has not defined.
    pub fn append(&self, post: &Post, names: &dyn Names) -> Ticket {
        let (shared, now) = (&*self.shared, seconds());
        let mut record = Vec::new();
        record::put(&mut record, now, post);
        let mut place = locked(&shared.place);
        let names = match &post.body {
            Body::Text(_) => Vec::new(),
            Body::Points(points) => place.said.say(points, names),
        };
        let length = (names.len() + record.len()) as u64;
        shared.free_space.use_up(length);
        place.segment.append(&[&names, &record]);
        // A shard store keeps it in memory until a sync anyway.
        let written = if shared.disk.keeps_order() { place.segment.write() } else { Ok(()) };
        shared.set_ticket(&mut place);
        if let Err(fault) = written {
            let Fenced = shared.disk.fail(fault);
            shared.set_late_ticket(&mut place); // which never becomes durable
        }
        place.moved.remove(&post.sender);
        if let Some(size) = locked(&shared.sizes).last_mut() {
            size.bytes += length;
            size.first.get_or_insert(now);
        }
        Ticket(place.ticket)
    }

    /// Rolls over to a new segment. Returns its number, and a ticket for everything before it, with which the new
    /// segment's name is durable too.
    pub fn roll(&self) -> (u64, Ticket) {
        self.shared.alone(|place| {
            let next = place.segment.number + 1;
            if let Err(fault) = self.shared.begin(place, next) {
                let Fenced = self.shared.disk.fail(fault);
            }
            (next, Ticket(place.ticket))
        })
    }

    /// A ticket for everything appended so far. In a shard store it needs a sync that begins later, even if nothing was
    /// appended: that sync proves that we still own the shard.
    pub fn now(&self) -> Ticket {
        let mut place = locked(&self.shared.place);
        self.shared.set_late_ticket(&mut place);
        Ticket(place.ticket)
    }

    /// Returns after everything before the ticket is as durable as `--durability` says, or with `Fenced` if the shard was
    /// fenced.
    pub async fn durable(&self, ticket: Ticket) -> Result<(), Fenced> {
        let Shared { disk, durable, written, .. } = &*self.shared;
        match self.shared.durability {
            Durability::Disk => durable.wait_for(ticket.0, disk, || false, async {}).await,
            Durability::Process => {
                written.wait_for(ticket.0, disk, || own_call::ask(&self.shared), others_first()).await
            }
        }
    }

    /// A barrier: everything before the ticket is on disk before anything written later, whatever `--durability` says.
    pub fn sync_up_to(&self, ticket: Ticket) {
        let shared = &*self.shared;
        if !shared.disk.keeps_order() && !shared.durable.has(ticket.0) {
            shared.sync();
        }
    }

    /// Whether a shard store keeps the files.
    pub fn is_in_store(&self) -> bool {
        self.shared.disk.keeps_order()
    }

    /// Ends the shard for this reason. Returns false for a folder, and does nothing.
    pub fn close(&self, why: &str) -> bool {
        self.shared.disk.close(why)
    }

    /// Why the shard was closed.
    pub fn failure(&self) -> Option<&str> {
        self.shared.disk.failure()
    }

    /// Returns after another instance took the shard, or may have taken it.
    pub async fn fenced(&self) -> Fenced {
        self.shared.disk.fenced().await
    }

    /// Whether the disk has room for more posts.
    pub(crate) fn free_space(&self) -> &Arc<FreeSpace> {
        &self.shared.free_space
    }

    /// A barrier for the last roll and the last record of parked posts, whatever `--durability` says.
    fn settle_kept(&self) {
        let kept = locked(&self.shared.place).kept;
        self.sync_up_to(Ticket(kept));
    }

    /// Deletes the segments before `before`, after the record of parked posts is durable.
    pub fn truncate_before(&self, before: u64) -> Result<(), Fault> {
        let shared = &*self.shared;
        let last = locked(&shared.place).segment.number;
        self.settle_kept();
        let mut numbers = segment::numbers(&shared.disk, &shared.folder)?;
        numbers.retain(|number| *number < before && *number < last);
        if !numbers.is_empty() {
            // With this record a start that finds an older outbox names the outbox, and not these segments as missing.
            shared.alone(|place| {
                let said = place.segment.say_forgotten(before);
                said.map_err(|fault| shared.disk.fail(fault)) // while nobody else can write
            })?;
        }
        for number in numbers {
            shared.disk.remove(&segment::path(&shared.folder, number))?;
        }
        locked(&shared.sizes).retain(|size| size.number >= before || size.number >= last);
        self.forget_held(before.min(last))
    }

    /// The bytes in all segments, and when their first post was appended (seconds since 1970). Never waits for the
    /// disk.
    pub fn size(&self) -> (u64, Option<u64>) {
        let sizes = locked(&self.shared.sizes);
        let bytes = sizes.iter().map(|size| size.bytes).sum();
        (bytes, sizes.iter().find_map(|size| size.first))
    }

    /// The segment that this start began.
    pub(crate) fn begun(&self) -> u64 {
        self.begun
    }

    /// What this start dropped from the files of an earlier run.
    pub fn dropped(&self) -> &[Dropped] {
        &self.dropped
    }

    /// How long the oldest running call of the disk has taken; zero if none is running. Takes no lock, so that a stall
    /// is seen while a stalled writer holds all of the journal's locks.
    pub fn under_way(&self) -> Duration {
        self.shared.disk.under_way()
    }
}

impl Shared {
    /// Gives `place` a ticket for what was just appended.
    fn set_ticket(&self, place: &mut Place) {
        place.ticket = self.disk.changes().unwrap_or(place.ticket + 1);
    }

    /// In a shard store, gives `place` a ticket that only a later sync reaches.
    fn set_late_ticket(&self, place: &mut Place) {
        place.ticket = self.disk.touch().unwrap_or(place.ticket);
    }

    fn begin(&self, place: &mut Place, number: u64) -> Result<(), Fault> {
        place.segment.end()?;
        let mut prepared = locked(&self.next);
        let mut next = match prepared.take() {
            Some(next) if next.number == number => next,
            other => {
                if let Some(other) = other {
                    self.disk.remove(&other.path)?;
                }
                prepare(&self.disk, &self.folder, number, self.durability, place.segment.forgotten())?
            }
        };
        drop(prepared);
        next.name()?;
        let ended = std::mem::replace(&mut place.segment, next);
        place.ended.push((ended.file, ended.path));
        place.named = false;
        place.said = NamedNumbers::default();
        self.set_ticket(place);
        place.kept = place.ticket;
        locked(&self.sizes).push(Size { number, bytes: 0, first: None });
        Ok(())
    }
}

/// Makes a segment durable before it gets its name: so any named segment has a header, and its full length.
fn prepare(
    disk: &Disk,
    folder: &Path,
    number: u64,
    durability: Durability,
    forgotten: u64,
) -> Result<Segment, Fault> {
    let ahead = match durability {
        _ if disk.keeps_order() => Ahead::Nothing, // a shard store writes at its syncs, and not in place
        Durability::Disk => Ahead::Zeros(0),
        Durability::Process => Ahead::Blocks(0),
    };
    let segment = Segment::create(disk, folder, Which::Journal, number, ahead, Some(forgotten))?;
    disk.barrier(&segment.file, &segment.path)?;
    Ok(segment)
}

#[cfg(test)]
mod tests;
