//! What a segment has ahead of its records, and what a start writes again of an earlier run's segments.

use super::super::disk::Call;
use super::*;
use nix::fcntl::{fallocate, FallocateFlags};
use std::os::fd::AsRawFd;
use std::os::unix::fs::MetadataExt;
use std::sync::atomic::{AtomicUsize, Ordering::SeqCst};

#[test]
fn blocks_that_are_taken_ahead_are_no_part_of_the_file() {
    let folder = tempfile::tempdir().unwrap();
    let ahead = Ahead::Blocks(0);
    let mut segment =
        Segment::create(&Disk::default(), folder.path(), Which::Journal, 1, ahead, None).unwrap();
    segment.name().unwrap();
    let path = path(folder.path(), 1);
    let bytes = [&b"a"[..], &[b'b'; 9_999]].concat();
    for number in 0..300 {
        let at = segment.at;
        assert_eq!(segment.put(&bytes).unwrap(), at);
        assert_eq!(segment.at, at + 10_000, "{number}");
    }
    let there = std::fs::metadata(&path).unwrap();
    assert_eq!(there.len(), segment.at);
    let Ahead::Blocks(taken) = segment.ahead else { panic!("blocks are taken") };
    assert!((segment.at..segment.at * 9 / 8 + LEAST_BLOCKS + 20_000).contains(&taken), "{taken}");
    let written = std::fs::read(&path).unwrap();
    assert!(written.ends_with(&bytes.repeat(300)));
    let File::OfFolder(file) = &*segment.file else { panic!("it is in a folder") };
    let can = fallocate(file.as_raw_fd(), FallocateFlags::FALLOC_FL_KEEP_SIZE, 0, 1).is_ok();
    assert!(!can || there.blocks() * 512 >= taken, "{} blocks for {taken}", there.blocks());
}

/// A failed write may have changed anything in the blocks that it touched.
#[test]
fn what_was_durable_once_is_written_anew_where_it_is_near_what_was_not() {
    let folder = tempfile::tempdir().unwrap();
    std::fs::write(path(folder.path(), 1), vec![b'x'; 3 * PIECE]).unwrap();
    let calls: Arc<[AtomicUsize; 2]> = Arc::default();
    let seen = calls.clone();
    let disk = Disk::failing(move |call, _| {
        match call {
            Call::Write => seen[0].fetch_add(1, SeqCst),
            Call::Sync => seen[1].fetch_add(1, SeqCst),
            _ => 0,
        };
        Ok(())
    });
    for (durable, written) in [(0, 3), (PIECE - 1, 3), (PIECE, 2), (2 * PIECE + 1, 1), (3 * PIECE, 0)] {
        rewrite_and_sync(&disk, folder.path(), 1, |_| durable as u64).unwrap();
        let [writes, syncs] = &*calls;
        assert_eq!([writes, syncs].map(|calls| calls.swap(0, SeqCst)), [written, 1], "{durable}");
    }
}
