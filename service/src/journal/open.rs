//! Opens the journal: reads what an earlier run left, closes it, and begins a new segment.
//!
//! `storage/folder` and `storage/shard_store/open` call it at a start. A torn end is dropped, with a copy kept; anything else
//! that is not as it was written is a fault, and nothing is deleted.

use super::earlier_segment::{self, EarlierSegment};
use super::{prepare, Expected, Journal, NamedNumbers, Place, Shared, Size, Watermark, SYNCER, WRITER};
use crate::storage::disk::{io_fault, Disk};
use crate::storage::free_space::FreeSpace;
use crate::storage::segment::{self, Dropped};
use crate::storage::torn_tail::CHANGED;
use crate::storage::{Durability, Fault};
use std::collections::BTreeSet;
use std::path::Path;
use std::sync::{Arc, Mutex};
use std::thread::JoinHandle;

/// The segments that an earlier run left.
#[derive(Default)]
pub struct Left(Vec<EarlierSegment>);

impl Left {
    /// Reads the segments and changes nothing.
    pub(crate) fn read(disk: &Disk, folder: &Path) -> Result<Left, Fault> {
        let numbers = segment::numbers(disk, folder)?.into_iter();
        numbers.map(|number| earlier_segment::read(disk, folder, number)).collect::<Result<_, _>>().map(Left)
    }

    /// Whether there is any post, in a group or not.
    pub fn has_posts(&self) -> bool {
        self.0.iter().any(|segment| segment.size.first.is_some())
    }
}

impl Journal {
    /// Closes what an earlier run left and begins a new segment, numbered at least as the first segment that no group
    /// has.
    pub(crate) fn go_on(
        disk: &Disk,
        folder: &Path,
        durability: Durability,
        free_space: Arc<FreeSpace>,
        expected: &Expected,
        left: Left,
    ) -> Result<Journal, Fault> {
        let disk = &disk.of_its_own();
        disk.make_folder(folder)?;
        remove_drafts(disk, folder)?;
        let (mut found, dropped) = close(disk, folder, expected, left)?;
        let number = drop_empty(disk, folder, &mut found, expected)?;
        let mut segment = prepare(disk, folder, number, durability, expected.reach)?;
        segment.name()?;
        let lists = found.iter_mut().map(|one| (one.size.number, std::mem::take(&mut one.held)));
        let held = lists.filter(|(_, list)| !list.is_empty()).collect();
        let mut sizes: Vec<Size> = found.into_iter().map(|one| one.size).collect();
        sizes.push(Size { number, bytes: 0, first: None });
        let place = Place {
            segment,
            named: false,
            said: NamedNumbers::default(),
            ticket: 1,
            ended: Vec::new(),
            kept: 1,
            moved: BTreeSet::new(),
        };
        let shared = Arc::new(Shared {
            disk: disk.clone(),
            folder: folder.into(),
            durability,
            free_space,
            place: Mutex::new(place),
            writing: Mutex::default(),
            written: Watermark::default(),
            sizes: Mutex::new(sizes),
            held: Mutex::new(held),
            durable: Watermark::default(),
            syncing: Mutex::new(()),
            next: Mutex::new(None),
        });
        shared.try_sync()?;
        let mut threads = vec![start(&shared, SYNCER, Shared::run)?];
        if durability == Durability::Process && !disk.keeps_order() {
            threads.push(start(&shared, WRITER, Shared::run_writer)?);
        }
        Ok(Journal { shared, threads, begun: number, dropped })
    }
}

fn start(shared: &Arc<Shared>, name: &str, run: fn(Arc<Shared>)) -> Result<JoinHandle<()>, Fault> {
    let of_thread = shared.clone();
    let thread = std::thread::Builder::new().name(name.into()).spawn(move || run(of_thread));
    thread.map_err(io_fault(&shared.folder))
}

/// Removes segments that never got their names.
fn remove_drafts(disk: &Disk, folder: &Path) -> Result<(), Fault> {
    for name in disk.names(folder)? {
        let path = folder.join(name);
        if path.extension().is_some_and(|extension| extension == "draft") {
            disk.remove(&path)?;
        }
    }
    Ok(())
}

/// Drops what a crash tore, ends the last segment, and returns what was dropped.
///
/// A segment is begun before the previous one is synced, so a loss of power can tear a segment that is not the last.
/// Then nothing in later segments was durable or answered, and they are dropped too.
fn close(
    disk: &Disk,
    folder: &Path,
    expected: &Expected,
    Left(mut found): Left,
) -> Result<(Vec<EarlierSegment>, Vec<Dropped>), Fault> {
    earlier_segment::check(disk, folder, &found, expected)?;
    segment::rewrite_and_sync(disk, folder, expected.reach, |number| {
        let found = found.iter().find(|one| one.size.number == number);
        found.map_or(0, |found| found.durable)
    })?;
    let mut dropped = Vec::new();
    let is_torn = |one: &EarlierSegment| !one.closed && one.size.number >= expected.reach;
    if let Some(torn) = found.iter().position(is_torn) {
        cut(disk, folder, &mut found, torn, &mut dropped)?;
    }
    Ok((found, dropped))
}

/// Cuts the torn segment at its last whole record, and drops the later ones.
fn cut(
    disk: &Disk,
    folder: &Path,
    found: &mut Vec<EarlierSegment>,
    torn: usize,
    dropped: &mut Vec<Dropped>,
) -> Result<(), Fault> {
    let (path, end) = (segment::path(folder, found[torn].size.number), found[torn].end);
    if found[torn + 1..].iter().any(|later| later.durable > 0) {
        return Err(Fault::Damaged { path, at: end, what: CHANGED.into() });
    }
    dropped.extend(segment::keep_aside(disk, &path, end)?);
    for later in found.drain(torn + 1..).rev() {
        let (number, bytes) = (later.size.number, later.size.bytes);
        let path = segment::path(folder, number);
        let file = path.display().to_string();
        tracing::warn!(file, bytes, "a segment of the journal follows a torn segment: its posts are dropped");
        if bytes > 0 {
            dropped.extend(segment::keep_aside(disk, &path, 0)?);
        }
        // Delete from the last one, and before the torn segment is closed. Otherwise a loss of power could bring back a
        // segment without the one before it, or after a torn one that now looks whole, and its posts would count again.
        remove(disk, folder, number)?;
    }
    if end == 0 {
        disk.remove(&path)?;
        found.pop();
    } else {
        segment::close_at(disk, &path, end)?;
    }
    disk.order_folder(folder)
}

/// Returns the number of the segment to begin. It replaces a last segment without posts, and deletes empty ones after
/// that: otherwise each start that ends at once would leave one.
fn drop_empty(
    disk: &Disk,
    folder: &Path,
    found: &mut Vec<EarlierSegment>,
    expected: &Expected,
) -> Result<u64, Fault> {
    let known = expected.begun.unwrap_or(0).max(expected.reach);
    let is_empty = |last: &mut EarlierSegment| last.size.bytes == 0 && last.size.number > known;
    while let Some(last) = found.pop_if(is_empty) {
        remove(disk, folder, last.size.number)?;
    }
    let replaced = found.pop_if(|last| last.size.bytes == 0 && last.size.number == known);
    let behind = found.last().map_or(1, |last| last.size.number + 1);
    Ok(replaced.map_or(behind.max(expected.reach), |last| last.size.number))
}

/// Durable when this returns: after a loss of power, not every file system has kept the order of deletions.
fn remove(disk: &Disk, folder: &Path, number: u64) -> Result<(), Fault> {
    disk.remove(&segment::path(folder, number))?;
    disk.order_folder(folder)
}
