//! What is appended is read back, over any calls and starts. `damage`, `syncs` and `writes` test what goes wrong.

mod changed;
mod damage;
mod letters;
mod parked;
mod points;
mod power;
mod syncs;
mod writes;

use super::*;
use crate::storage::disk::{Call, FAILED};
use crate::storage::test_random::TestRandom;
use crate::storage::test_runs::runs;
use bytes::Bytes;
use letters::{body, Letters, Reading};
use std::path::Path;
use std::sync::atomic::{AtomicBool, AtomicUsize, Ordering::SeqCst};
use std::sync::mpsc;

fn open_from(disk: &Disk, path: &Path, durability: Durability, reach: u64) -> Result<Journal, Fault> {
    open_begun(disk, path, durability, reach, None)
}

/// In a folder whose last start has begun this segment.
fn open_begun(
    disk: &Disk,
    path: &Path,
    durability: Durability,
    reach: u64,
    begun: Option<u64>,
) -> Result<Journal, Fault> {
    let free_space = Arc::new(FreeSpace::new(Path::new("/"))?);
    let by = (PathBuf::from("outbox/1.seg"), 7);
    disk.make_folder(path)?;
    let left = Left::read(disk, path)?;
    Journal::go_on(disk, path, durability, free_space, &Expected { reach, begun, by }, left)
}

fn open_on(disk: &Disk, path: &Path, durability: Durability) -> Result<Journal, Fault> {
    open_from(disk, path, durability, 1)
}

fn open(path: &Path) -> Journal {
    open_on(&Disk::default(), path, Durability::Process).unwrap()
}

fn post(text: &str) -> Post {
    Post { sender: format!("sender {}", text.len()), foreign: text.len() as u64, body: body(text) }
}

/// Appends a post and waits until it is in the file.
fn append(journal: &Journal, text: &str) -> Ticket {
    let ticket = journal.append(&post(text), &Letters::of(text));
    journal.write(ticket).unwrap();
    ticket
}

fn texts(journal: &Journal, first: u64) -> Vec<String> {
    let (mut texts, mut reading) = (Vec::new(), Reading::default());
    let each = |found: Replayed| {
        let text = reading.text(&found);
        let written = post(&text);
        assert_eq!((found.post.sender, found.post.foreign), (written.sender, written.foreign));
        texts.push(text);
        true
    };
    journal.posts(first, u64::MAX, each).unwrap();
    texts
}

/// Leaves the files as `kill -9` does.
fn kill(mut journal: Journal) {
    end_syncer(&mut journal);
    journal.shared.written.end();
    std::mem::forget(journal);
}

fn end_syncer(journal: &mut Journal) {
    journal.shared.durable.end();
    let _ = journal.threads.remove(0).join();
}

fn bytes(path: &Path) -> Vec<u8> {
    std::fs::read(path).unwrap()
}

fn damaged_at(opened: Result<Journal, Fault>) -> Option<u64> {
    match opened.err() {
        Some(Fault::Damaged { at, .. }) => Some(at),
        _ => None,
    }
}

#[test]
fn starts_that_end_at_once_leave_one_segment() {
    let folder = tempfile::tempdir().unwrap();
    append(&open(folder.path()), "a");
    for _ in 0..3 {
        drop(open(folder.path()));
        kill(open(folder.path()));
    }
    assert_eq!(segment::numbers(&Disk::default(), folder.path()).unwrap(), [1, 2]);
    assert_eq!(texts(&open(folder.path()), 1), ["a"]);
}

#[test]
fn posts_come_back_in_order() {
    let folder = tempfile::tempdir().unwrap();
    let journal = open(folder.path());
    append(&journal, "a");
    append(&journal, "bb");
    let (second, before) = journal.roll();
    assert_eq!((second, journal.now()), (2, before));
    append(&journal, "ccc");
    assert!(journal.now() > before);
    let check = |journal: &Journal| {
        assert_eq!(texts(journal, 1), ["a", "bb", "ccc"]);
        assert_eq!(texts(journal, 2), ["ccc"]);
    };
    check(&journal);
    kill(journal);
    let journal = open(folder.path());
    check(&journal);
    drop(journal);
    let journal = open(folder.path());
    check(&journal);
    let mut some = Vec::new();
    journal
        .posts(1, 2, |post| {
            some.push(post.post.foreign);
            false
        })
        .unwrap();
    assert_eq!(some, [1]);
    journal.truncate_before(2).unwrap();
    assert_eq!(texts(&journal, 0), ["ccc"]);
}

#[test]
fn a_segment_is_not_before_that_which_the_outbox_knows() {
    let folder = tempfile::tempdir().unwrap();
    let journal = open_from(&Disk::default(), folder.path(), Durability::Process, 7).unwrap();
    append(&journal, "a");
    assert_eq!(texts(&journal, 7), ["a"]);
    assert_eq!(journal.roll().0, 8);
    drop(journal);
    let journal = open_from(&Disk::default(), folder.path(), Durability::Process, 12).unwrap();
    assert_eq!(journal.roll().0, 13);
}

#[test]
fn it_is_as_a_list_in_memory_over_any_calls_and_starts() {
    for seed in 0..runs(4, 12) {
        let mut numbers = TestRandom(seed);
        let folder = tempfile::tempdir().unwrap();
        let open = |reach| open_from(&Disk::default(), folder.path(), Durability::Process, reach).unwrap();
        let mut journal = open(1);
        let mut model: Vec<(u64, String)> = Vec::new();
        let (mut segment, mut reach) = (1, 1);
        // A new segment replaces a last one without posts.
        let begun = |model: &[(u64, String)], reach| model.last().map_or(1, |one| one.0 + 1).max(reach);
        for step in 0..60 {
            let text = format!("{step:a>width$}", width = numbers.below(900) as usize);
            match numbers.below(10) {
                0..=4 => {
                    append(&journal, &text);
                    model.push((segment, text));
                }
                5 => segment = journal.roll().0,
                6 => {
                    let before = numbers.below(segment + 1);
                    journal.truncate_before(before).unwrap();
                    reach = reach.max(before);
                    model.retain(|one| one.0 >= before);
                }
                7 => {
                    drop(journal);
                    journal = open(reach);
                    segment = begun(&model, reach);
                }
                _ => {
                    let at = locked(&journal.shared.place).segment.at;
                    kill(journal);
                    let mut torn = Vec::new();
                    let kind = [POST, NAME, POINTS][numbers.below(3) as usize];
                    records::put(&mut torn, kind, &[&vec![7; numbers.below(2000) as usize]]);
                    torn.truncate(numbers.below(torn.len() as u64) as usize);
                    let file = std::fs::File::options()
                        .write(true)
                        .open(segment::path(folder.path(), segment))
                        .unwrap();
                    std::os::unix::fs::FileExt::write_all_at(&file, &torn, at).unwrap();
                    journal = open(reach);
                    segment = begun(&model, reach);
                }
            }
            let first = numbers.below(segment + 1);
            let expected: Vec<_> = model.iter().filter(|one| one.0 >= first).map(|one| &one.1).collect();
            assert_eq!(
                texts(&journal, first).iter().collect::<Vec<_>>(),
                expected,
                "seed {seed} step {step}"
            );
        }
    }
}
