//! Records that are torn or changed, and segments that are missing or of another version.

use super::*;

#[test]
fn a_torn_record_is_cut_wherever_it_was_torn() {
    let folder = tempfile::tempdir().unwrap();
    let journal = open(folder.path());
    for text in ["first", "second"] {
        append(&journal, text);
    }
    let path = segment::path(folder.path(), 1);
    let whole = bytes(&path).len();
    append(&journal, "the last post");
    kill(journal);
    let all = bytes(&path);
    for cut in whole..all.len() {
        for zeros in [0, 700] {
            let torn = tempfile::tempdir().unwrap();
            let path = segment::path(torn.path(), 1);
            std::fs::write(&path, [&all[..cut], &vec![0; zeros]].concat()).unwrap();
            let journal = open(torn.path());
            assert_eq!(texts(&journal, 1), ["first", "second"], "{cut} {zeros}");
            append(&journal, "another");
            kill(journal);
            assert_eq!(texts(&open(torn.path()), 1), ["first", "second", "another"], "{cut} {zeros}");
        }
    }
}

#[test]
fn a_changed_byte_in_the_middle_is_named_and_nothing_is_deleted() {
    let folder = tempfile::tempdir().unwrap();
    let journal = open(folder.path());
    let path = segment::path(folder.path(), 1);
    let header = bytes(&path).len();
    append(&journal, "first");
    let first = bytes(&path).len();
    append(&journal, "second");
    kill(journal);
    let sound = bytes(&path);
    for at in 0..first {
        let mut changed = sound.clone();
        changed[at] ^= 0x40;
        std::fs::write(&path, &changed).unwrap();
        let found = damaged_at(open_on(&Disk::default(), folder.path(), Durability::Process));
        let begin = found.unwrap_or_else(|| panic!("byte {at} was not missed")) as usize;
        assert!(if at < header { begin <= at } else { (header..=at).contains(&begin) }, "{at} {begin}");
        assert_eq!(std::fs::read(&path).unwrap(), changed);
    }
    std::fs::write(&path, &sound).unwrap();
    assert_eq!(texts(&open(folder.path()), 1), ["first", "second"]);
}

#[test]
fn in_a_segment_that_was_ended_each_changed_or_missing_byte_is_named() {
    let folder = tempfile::tempdir().unwrap();
    let journal = open(folder.path());
    for text in ["first", "second"] {
        append(&journal, text);
    }
    drop(journal);
    let path = segment::path(folder.path(), 1);
    let sound = bytes(&path);
    for at in 0..sound.len() - records::MARK_LENGTHS[1] {
        let mut changed = sound.clone();
        changed[at] ^= 1;
        std::fs::write(&path, &changed).unwrap();
        assert!(damaged_at(open_on(&Disk::default(), folder.path(), Durability::Process)).is_some(), "{at}");
    }
}

#[test]
fn another_version_and_a_missing_segment_are_refused_by_name() {
    let folder = tempfile::tempdir().unwrap();
    let journal = open(folder.path());
    journal.roll();
    journal.roll();
    drop(journal);
    let path = segment::path(folder.path(), 2);
    let sound = std::fs::read(&path).unwrap();
    std::fs::remove_file(&path).unwrap();
    let fault = open_on(&Disk::default(), folder.path(), Durability::Process).err().unwrap().to_string();
    assert!(fault.contains("000000000002.seg") && fault.contains("missing"), "{fault}");
    for version in [0u16, 2, 5] {
        let mut other = Vec::new();
        records::put(&mut other, records::HEADER, &[b"totxegun", &version.to_le_bytes(), b"what comes"]);
        std::fs::write(&path, &other).unwrap();
        let fault = open_on(&Disk::default(), folder.path(), Durability::Process).err().unwrap().to_string();
        let wanted = format!("has format version {version}, and this totxegun reads only 1");
        assert!(fault.contains(&wanted) && fault.contains("another --data"), "{fault}");
    }
    std::fs::write(&path, &sound).unwrap();
    open(folder.path());
}

/// As a loss of power between a roll and the next sync may leave it: the first segment is torn, the second is whole.
fn torn_before_its_last(folder: &Path, durable: bool) {
    let journal = open(folder);
    let held = locked(&journal.shared.syncing);
    for text in ["first", "second"] {
        append(&journal, text);
    }
    journal.roll();
    append(&journal, "third");
    drop(held);
    if durable {
        journal.shared.sync();
        append(&journal, "fourth");
    }
    kill(journal);
    let path = segment::path(folder, 1);
    let length = bytes(&path).len() as u64;
    let file = std::fs::File::options().write(true).open(&path).unwrap();
    file.set_len(length - records::MARK_LENGTHS[1] as u64 - 3).unwrap();
}

#[test]
fn what_follows_a_torn_segment_goes_with_it_unless_it_was_durable() {
    for durable in [false, true] {
        let folder = tempfile::tempdir().unwrap();
        torn_before_its_last(folder.path(), durable);
        let opened = open_on(&Disk::default(), folder.path(), Durability::Process);
        if durable {
            assert!(damaged_at(opened).is_some());
        } else {
            assert_eq!(texts(&opened.unwrap(), 1), ["first"]);
        }
    }
}

/// After a second loss of power, the name of a deleted segment is there again.
#[test]
fn what_follows_a_torn_segment_is_gone_for_good_before_that_one_is_closed() {
    let folder = tempfile::tempdir().unwrap();
    torn_before_its_last(folder.path(), false);
    let second = segment::path(folder.path(), 2);
    let found = bytes(&second);
    let removed = AtomicBool::new(false);
    let disk = Disk::failing(move |call, _| {
        removed.fetch_or(call == Call::Remove, SeqCst);
        match call == Call::SyncFolder && removed.load(SeqCst) {
            true => Err(std::io::Error::other("the power is lost")),
            false => Ok(()),
        }
    });
    assert!(open_on(&disk, folder.path(), Durability::Process).is_err());
    std::fs::write(&second, found).unwrap();
    assert_eq!(texts(&open(folder.path()), 1), ["first"]);
}
