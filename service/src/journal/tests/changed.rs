//! A segment that somebody changed: what no loss of power can do is refused by name, and nothing is deleted.

use super::*;
use crate::storage::power::place;

/// A segment with two posts, as a killed service leaves it after a moment without posts.
fn killed(folder: &Path, durability: Durability) -> Vec<u8> {
    let journal = open_on(&Disk::default(), folder, durability).unwrap();
    for text in ["first", "second"] {
        append(&journal, text);
    }
    journal.shared.sync();
    while locked(&journal.shared.place).segment.needs_mark() {
        std::thread::sleep(Duration::from_millis(1));
    }
    kill(journal);
    for entry in std::fs::read_dir(folder).unwrap() {
        let path = entry.unwrap().path();
        if path.extension().is_some_and(|it| it == "draft") {
            std::fs::remove_file(path).unwrap();
        }
    }
    bytes(&segment::path(folder, 1))
}

fn refused(folder: &Path, durability: Durability) -> Option<String> {
    let opened = open_begun(&Disk::default(), folder, durability, 1, Some(1));
    match opened {
        Err(fault @ Fault::Damaged { .. }) => Some(fault.to_string()),
        Err(other) => panic!("{other}"),
        Ok(journal) => {
            kill(journal);
            None
        }
    }
}

fn names(folder: &Path) -> Vec<std::ffi::OsString> {
    let entries = std::fs::read_dir(folder).unwrap();
    let mut names: Vec<_> = entries.map(|entry| entry.unwrap().file_name()).collect();
    names.sort();
    names
}

#[test]
fn a_bit_that_is_flipped_in_any_record_of_a_marked_segment_is_named() {
    for durability in [Durability::Disk, Durability::Process] {
        let folder = place();
        let sound = killed(folder.path(), durability);
        let path = segment::path(folder.path(), 1);
        let written = sound.iter().rposition(|byte| *byte != 0).unwrap();
        let marked = written + 1 - records::MARK_LENGTHS[1];
        for at in 0..marked - 20 {
            let mut changed = sound.clone();
            changed[at] ^= 1 << (at % 8);
            std::fs::write(&path, &changed).unwrap();
            let fault = refused(folder.path(), durability);
            let fault = fault.unwrap_or_else(|| panic!("{durability:?} byte {at} was not missed"));
            assert!(fault.contains("000000000001.seg"), "{fault}");
            assert!(bytes(&path) == changed && names(folder.path()).len() == 1, "{at}");
        }
        std::fs::write(&path, &sound).unwrap();
        assert_eq!(refused(folder.path(), durability), None);
        assert_eq!(texts(&open(folder.path()), 1), ["first", "second"]);
    }
}

#[test]
fn a_segment_that_is_shorter_than_it_was_made_is_named() {
    let folder = place();
    let sound = killed(folder.path(), Durability::Disk);
    let path = segment::path(folder.path(), 1);
    let written = sound.iter().rposition(|byte| *byte != 0).unwrap() + 1;
    for length in (0..written + 20).chain([written + 700, sound.len() / 2, sound.len() - 1]) {
        std::fs::write(&path, &sound[..length]).unwrap();
        let fault = refused(folder.path(), Durability::Disk);
        assert!(fault.is_some(), "{length}");
        assert!(bytes(&path) == sound[..length] && names(folder.path()).len() == 1, "{length}");
    }
}

#[test]
fn a_segment_that_is_missing_or_another_file_is_named() {
    for durability in [Durability::Disk, Durability::Process] {
        let folder = place();
        let sound = killed(folder.path(), durability);
        let path = segment::path(folder.path(), 1);
        let mut numbers = TestRandom(3);
        let noise: Vec<u8> = (0..70_000).map(|_| numbers.below(256) as u8).collect();
        let other = [&sound[..1], &sound[..]].concat();
        for (what, found) in
            [("emptied", &[][..]), ("zeros", &vec![0; sound.len()]), ("noise", &noise), ("moved", &other)]
        {
            std::fs::write(&path, found).unwrap();
            let fault = refused(folder.path(), durability);
            assert!(fault.is_some_and(|it| it.contains("000000000001.seg")), "{what}");
            assert!(bytes(&path) == found && names(folder.path()).len() == 1, "{what}");
        }
        std::fs::rename(&path, folder.path().join("000000000001.seg.old")).unwrap();
        let fault = refused(folder.path(), durability).unwrap();
        assert!(fault.contains("000000000001.seg") && fault.contains("missing"), "{fault}");
        assert_eq!(names(folder.path()).len(), 1);
    }
}

/// No commit names this segment, but the start has recorded that it began it.
#[test]
fn a_segment_that_a_start_has_begun_is_missed_too() {
    let folder = place();
    append(&open(folder.path()), "a");
    append(&open(folder.path()), "b");
    std::fs::remove_file(segment::path(folder.path(), 2)).unwrap();
    let opened = open_begun(&Disk::default(), folder.path(), Durability::Disk, 1, Some(2));
    let fault = opened.err().unwrap().to_string();
    assert!(fault.contains("000000000002.seg") && fault.contains("missing"), "{fault}");
}

#[test]
fn two_segments_that_were_swapped_are_named() {
    let folder = place();
    append(&open(folder.path()), "a");
    append(&open(folder.path()), "b");
    let (first, second) = (segment::path(folder.path(), 1), segment::path(folder.path(), 2));
    let aside = folder.path().join("aside");
    std::fs::rename(&first, &aside).unwrap();
    std::fs::rename(&second, &first).unwrap();
    std::fs::rename(&aside, &second).unwrap();
    let opened = open_begun(&Disk::default(), folder.path(), Durability::Disk, 1, Some(2));
    let fault = opened.err().unwrap().to_string();
    assert!(fault.contains("another file than its name says"), "{fault}");
}

/// A torn record, as a loss of power leaves it: the service starts, and a copy of the bytes is kept.
#[test]
fn what_is_dropped_is_kept_aside() {
    let folder = place();
    let journal = open(folder.path());
    append(&journal, "first");
    let end = locked(&journal.shared.place).segment.at;
    append(&journal, "second");
    kill(journal);
    let path = segment::path(folder.path(), 1);
    let all = bytes(&path);
    let torn = &all[..all.len() - 2];
    std::fs::write(&path, torn).unwrap();
    for _ in 0..2 {
        let journal = open_begun(&Disk::default(), folder.path(), Durability::Process, 1, Some(1)).unwrap();
        assert_eq!(texts(&journal, 1), ["first"]);
        let kept = folder.path().join(format!("000000000001-{end}.torn"));
        let dropped =
            Dropped { file: path.clone(), at: end, bytes: torn.len() as u64 - end, kept: kept.clone() };
        assert_eq!(journal.dropped(), [dropped]);
        assert_eq!(bytes(&kept), torn[end as usize..]);
        kill(journal);
        std::fs::write(&path, torn).unwrap(); // as if that start had been killed before it cut the file
    }
}
