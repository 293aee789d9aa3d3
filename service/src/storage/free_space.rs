//! Decides whether the disk has room for posts. Some room is always kept back, so that the service can finish what it
//! took.
//!
//! `shard` reserves room before it takes a post, and `dead` before it keeps a dead letter. A disk that can't be asked
//! has no room.

use super::disk::io_fault;
use super::Fault;
use std::path::Path;
use std::sync::atomic::{AtomicBool, AtomicI64, AtomicU64, Ordering::Relaxed};
use std::time::Instant;

/// How long a look at the disk counts, in milliseconds.
const LOOK: u64 = 100;
/// A twentieth of the disk is kept back, within these bounds: for a commit, a snapshot, and posts under way.
const LEAST: u64 = 64 << 20;
const MOST: u64 = 256 << 20;
/// What is kept back in addition to the next snapshot.
const BESIDE: u64 = 48 << 20;
/// The number of new files that the disk must allow.
const FILES: u64 = 64;
/// Dead letters may use this much of what is kept back, and half of the files: requests that are delivered after them
/// free room again.
const OF_LETTERS: i64 = LEAST as i64 / 2;

/// Free bytes, all bytes and free files of the disk.
type Look = dyn Fn() -> std::io::Result<(u64, u64, u64)> + Send + Sync;

pub struct FreeSpace {
    look: Box<Look>,
    began: Instant,
    looked: AtomicU64,
    /// What posts may still use.
    left: AtomicI64,
    /// What posts under way will use of it.
    reserved: AtomicI64,
    /// The most bytes that the outbox's next snapshot can have.
    snapshot: AtomicU64,
    /// The state at the last look, which the log has.
    is_full: AtomicBool,
}

/// Room reserved for a post, until the post is in the journal or was refused.
#[must_use = "what is dropped may be used by others"]
pub struct Reservation<'a> {
    free_space: &'a FreeSpace,
    bytes: i64,
}

impl Drop for Reservation<'_> {
    fn drop(&mut self) {
        self.free_space.reserved.fetch_sub(self.bytes, Relaxed);
    }
}

impl FreeSpace {
    pub fn new(path: &Path) -> Result<FreeSpace, Fault> {
        let folder = path.to_path_buf();
        let look = move || {
            let disk = nix::sys::statvfs::statvfs(&folder)?;
            let unit = disk.fragment_size();
            let files = if disk.files() == 0 { u64::MAX } else { disk.files_available() };
            Ok((disk.blocks_available() * unit, disk.blocks() * unit, files))
        };
        look().map_err(io_fault(path))?;
        Ok(FreeSpace::of(look))
    }

    /// For a shard store, which reports by itself if it is full.
    pub fn endless() -> FreeSpace {
        FreeSpace::of(|| Ok((u64::MAX >> 2, 0, u64::MAX)))
    }

    pub(crate) fn of(
        look: impl Fn() -> std::io::Result<(u64, u64, u64)> + Send + Sync + 'static,
    ) -> FreeSpace {
        let space = FreeSpace {
            look: Box::new(look),
            began: Instant::now(),
            looked: AtomicU64::new(0),
            left: AtomicI64::new(0),
            reserved: AtomicI64::new(0),
            snapshot: AtomicU64::new(0),
            is_full: AtomicBool::new(false),
        };
        space.look_again();
        space
    }

    /// Whether posts may use more: by the last look at the disk, less what was written and reserved since.
    pub fn is_left(&self) -> bool {
        self.left() > self.reserved.load(Relaxed)
    }

    /// Reserves room for a post if any is left. So posts that arrive together exceed the room by one post at most.
    pub fn reserve(&self, bytes: usize) -> Option<Reservation<'_>> {
        self.reserve_of(self.left(), bytes)
    }

    /// Reserves room for a dead letter.
    pub fn reserve_for_letter(&self, bytes: usize) -> Option<Reservation<'_>> {
        self.reserve_of(self.left() + OF_LETTERS, bytes)
    }

    fn reserve_of(&self, left: i64, bytes: usize) -> Option<Reservation<'_>> {
        let bytes = bytes as i64;
        let more = |reserved| (reserved < left).then_some(reserved + bytes);
        self.reserved.fetch_update(Relaxed, Relaxed, more).ok()?;
        Some(Reservation { free_space: self, bytes })
    }

    fn left(&self) -> i64 {
        let now = self.began.elapsed().as_millis() as u64;
        let looked = self.looked.load(Relaxed);
        if now >= looked + LOOK && self.looked.compare_exchange(looked, now, Relaxed, Relaxed).is_ok() {
            self.look_again();
        }
        self.left.load(Relaxed)
    }

    pub fn use_up(&self, bytes: u64) {
        self.left.fetch_sub(bytes as i64, Relaxed);
    }

    pub fn keep_for_snapshot(&self, bytes: u64) {
        self.snapshot.store(bytes, Relaxed);
    }

    fn look_again(&self) {
        let left = match (self.look)() {
            Ok((free, all, files)) => {
                let kept = (all / 20).clamp(LEAST, MOST).max(self.snapshot.load(Relaxed) + BESIDE);
                let of_files = match files {
                    FILES.. => i64::MAX,
                    _ if files >= FILES / 2 => 0,
                    _ => -OF_LETTERS,
                };
                let left = of_files.min(free as i64 - kept as i64);
                self.tell(left <= 0, free, kept, files);
                left
            }
            Err(error) => {
                let reason = error.to_string();
                tracing::error!(reason, "the free space of the disk can't be read, so posts are refused");
                0
            }
        };
        self.left.store(left, Relaxed);
    }

    /// Logs each change between full and not full once.
    fn tell(&self, is_full: bool, free: u64, kept: u64, files: u64) {
        if self.is_full.swap(is_full, Relaxed) == is_full {
            return;
        }
        match is_full {
            true => tracing::warn!(
                free_bytes = free,
                kept_bytes = kept,
                free_files = files,
                kept_files = FILES,
                "the disk is nearly full: the rest is reserved to deliver accepted posts, so posts get 503 until more is \
                 free"
            ),
            false => tracing::info!("the disk has enough free space again: posts are accepted"),
        }
    }
}

#[cfg(test)]
mod tests {
    use super::*;
    use std::sync::Arc;
    use std::time::Duration;

    fn space(free: Arc<AtomicU64>, files: u64) -> FreeSpace {
        FreeSpace::of(move || Ok((free.load(Relaxed), 1 << 40, files)))
    }

    #[test]
    fn what_is_kept_back_is_not_for_posts() {
        assert!(!space(Arc::new(AtomicU64::new(MOST)), 1000).is_left());
        assert!(space(Arc::new(AtomicU64::new(MOST + 1)), 1000).is_left());
        assert!(!space(Arc::new(AtomicU64::new(2 * MOST)), FILES - 1).is_left(), "no file can be made");
    }

    #[test]
    fn what_was_written_counts_at_once_and_the_disk_a_little_later() {
        let free = Arc::new(AtomicU64::new(MOST + 100));
        let space = space(free.clone(), 1000);
        space.use_up(99);
        assert!(space.is_left());
        space.use_up(1);
        assert!(!space.is_left());
        free.store(2 * MOST, Relaxed);
        std::thread::sleep(Duration::from_millis(LOOK + 20));
        assert!(space.is_left());
    }

    #[test]
    fn letters_have_a_part_of_what_is_kept_back() {
        let part = OF_LETTERS as u64;
        let space_for =
            |free, files| space(Arc::new(AtomicU64::new(free)), files).reserve_for_letter(9).is_some();
        assert!(space_for(MOST - part + 1, 1000) && !space_for(MOST - part, 1000));
        assert!(space_for(2 * MOST, FILES / 2) && !space_for(2 * MOST, FILES / 2 - 1));
    }

    #[test]
    fn what_posts_under_way_will_write_is_not_there_for_others() {
        let free = Arc::new(AtomicU64::new(MOST + 100));
        let space = space(free.clone(), 1000);
        // Free space falls with each write, so a look at the disk at any moment finds the same.
        let write = |bytes| {
            space.use_up(bytes);
            free.fetch_sub(bytes, Relaxed);
        };
        let first = space.reserve(60).unwrap();
        let second = space.reserve(60).unwrap();
        assert!(space.reserve(1).is_none() && !space.is_left());
        drop(second);
        assert!(space.is_left(), "it was not taken");
        write(60);
        drop(first);
        assert!(space.reserve(39).is_some());
        write(40);
        assert!(space.reserve(1).is_none(), "it is in the journal");
    }

    #[test]
    fn a_disk_that_does_not_answer_has_no_room() {
        assert!(!FreeSpace::of(|| Err(std::io::ErrorKind::Other.into())).is_left());
    }
}
