//! Groups that are cut or changed, and disk calls that fail.

use super::*;
use crate::storage::records::{self, MARK_LENGTHS};

#[tokio::test]
async fn a_group_that_is_cut_anywhere_is_not_there() {
    let folder = tempfile::tempdir().unwrap();
    let outbox = open(folder.path());
    outbox.commit(&[body(&[("a", 1)], "first")], 2).unwrap();
    let (before, begin) =
        (view(&outbox), std::fs::metadata(last_segment(folder.path())).unwrap().len() as usize);
    outbox.commit(&[body(&[("a", 2), ("b", 2)], "second"), body(&[("c", 2)], "third")], 3).unwrap();
    let after = view(&outbox);
    kill(outbox);
    let all = std::fs::read(last_segment(folder.path())).unwrap();
    // The last record is followed by its watermark.
    let all = &all[..all.len() - MARK_LENGTHS[0]];
    for cut in begin..=all.len() {
        for zeros in [0, 600] {
            let found = [&all[..cut], &vec![0; zeros]].concat();
            let torn = copied(folder.path(), &found);
            // If the group's last bytes are zeros, the added zeros complete it.
            let expected = if found.starts_with(all) { &after } else { &before };
            assert_eq!(view(&open(torn.path())), *expected, "{cut} {zeros}");
        }
    }
    let torn = copied(folder.path(), &all[..all.len() - 1]);
    let outbox = open(torn.path());
    outbox.commit(&[body(&[("d", 2)], "another")], 3).unwrap();
    take(&outbox).await;
    assert_eq!(take(&outbox).await, (2, body(&[("d", 2)], "another")));
}

/// A segment of another version is refused before a start writes to it.
#[test]
fn a_last_segment_of_another_version_stays_as_it_is() {
    let folder = tempfile::tempdir().unwrap();
    kill(open(folder.path()));
    let path = last_segment(folder.path());
    let mut other = Vec::new();
    records::put(&mut other, records::HEADER, &[b"totxegun", &2u16.to_le_bytes(), b"what comes"]);
    std::fs::write(&path, &other).unwrap();
    let before = std::time::UNIX_EPOCH + Duration::from_secs(1000);
    std::fs::File::options().write(true).open(&path).unwrap().set_modified(before).unwrap();
    let fault = open_on(&Disk::default(), folder.path(), "e", SEGMENT).err().unwrap().to_string();
    assert!(fault.contains("has format version 2, and this totxegun reads only 1"), "{fault}");
    assert_eq!(std::fs::metadata(&path).unwrap().modified().unwrap(), before);
}

#[test]
fn a_group_whose_middle_was_lost_is_not_there_though_its_commit_is() {
    let folder = tempfile::tempdir().unwrap();
    let outbox = open(folder.path());
    let before = view(&outbox);
    let mut numbers = TestRandom(1);
    let noise: String = (0..9000).map(|_| char::from(b'a' + numbers.below(26) as u8)).collect();
    outbox.commit(&[body(&[("a", 1)], &noise)], 2).unwrap();
    kill(outbox);
    let mut all = std::fs::read(last_segment(folder.path())).unwrap();
    all.truncate(all.len() - MARK_LENGTHS[0]);
    assert!(all.len() > 2000);
    all[1024..1536].fill(0);
    let torn = copied(folder.path(), &all);
    assert_eq!(view(&open(torn.path())), before);
}

/// A changed segment is found at a start, or when the changed request is delivered.
async fn is_named(path: &Path, first: &[u8]) -> bool {
    let outbox = match open_on(&Disk::default(), path, "e", SEGMENT) {
        Err(Fault::Damaged { .. }) => return true,
        opened => opened.unwrap(),
    };
    assert_eq!(outbox.waiting().0, 1);
    let is_stuck = async {
        while outbox.stuck().is_none() {
            tokio::time::sleep(Duration::from_millis(1)).await;
        }
    };
    let read = tokio::select! {
        read = outbox.first() => Ok(read),
        () = is_stuck => Err(()),
    };
    let stuck = outbox.stuck();
    assert_eq!(outbox.find_changed().unwrap().len(), usize::from(stuck.is_some()));
    kill(outbox);
    match read {
        Ok(read) => assert_eq!(read.unwrap().1, first),
        Err(_) => assert!(stuck.as_ref().is_some_and(|it| it.contains("request 1")), "{stuck:?}"),
    }
    stuck.is_some()
}

#[tokio::test]
async fn a_changed_byte_is_named_at_the_start_or_at_the_delivery_and_nothing_is_deleted() {
    let folder = crate::storage::power::place();
    let outbox = open(folder.path());
    let first = body(&[("a", 1)], "first");
    commit_owned(&outbox, std::slice::from_ref(&first), 2, &[("a", "me")]);
    outbox.quarantine("me").unwrap();
    outbox.put_beside(&[unit_of("m", "ms")]).unwrap();
    let end = std::fs::metadata(last_segment(folder.path())).unwrap().len() as usize - MARK_LENGTHS[0];
    kill(outbox);
    let path = last_segment(folder.path());
    let all = std::fs::read(&path).unwrap();
    for at in 0..end {
        let mut changed = all.clone();
        changed[at] ^= 4;
        let copy = copied(folder.path(), &changed);
        assert!(is_named(copy.path(), &first).await, "byte {at}");
        let left = std::fs::read(segment::path(copy.path(), 1)).unwrap();
        assert!(left.starts_with(&changed[..end]), "byte {at}");
    }
    drop(open(folder.path()));
    // Now the first segment is closed, and its bodies are skipped.
    let all = std::fs::read(&path).unwrap();
    for at in 0..all.len() {
        let mut changed = all.clone();
        changed[at] ^= 4;
        std::fs::write(&path, &changed).unwrap();
        is_named(folder.path(), &first).await;
    }
}

#[tokio::test]
async fn a_changed_request_stops_its_delivery_alone_until_its_file_is_back() {
    let folder = crate::storage::power::place();
    let outbox = open(folder.path());
    let bodies = ["one", "two", "three"].map(|text| body(&[(text, 1)], text));
    outbox.commit(&bodies, 2).unwrap();
    let places = ["one", "two", "three"].map(|text| {
        let (all, packed) =
            (std::fs::read(last_segment(folder.path())).unwrap(), rows::deflated(&body(&[(text, 1)], text)));
        all.windows(packed.len()).position(|part| part == packed).unwrap()
    });
    assert_eq!(take(&outbox).await.0, 1);
    kill(outbox);
    let path = last_segment(folder.path());
    let sound = std::fs::read(&path).unwrap();
    let with_change_at = |at: usize| {
        let mut changed = sound.clone();
        changed[at] ^= 1;
        let copy = copied(folder.path(), &changed);
        let outbox = Arc::new(open(copy.path()));
        outbox.commit(&[body(&[("four", 2)], "four")], 3).unwrap();
        assert_eq!((outbox.waiting().0, outbox.journal()), (3, 3), "the rest goes on");
        (copy, outbox)
    };
    let (copy, outbox) = with_change_at(places[1] + 3);
    let named = outbox.find_changed().unwrap();
    assert!(matches!(&named[..], [one] if one.to_string().contains("request 2")), "{named:?}");
    let waits = outbox.clone();
    let second = tokio::spawn(async move { take(&waits).await });
    while outbox.stuck().is_none() {
        tokio::time::sleep(Duration::from_millis(1)).await;
    }
    let file = File::options().write(true).open(segment::path(copy.path(), 1)).unwrap();
    let part = places[1]..places[1] + 10;
    std::os::unix::fs::FileExt::write_all_at(&file, &sound[part.clone()], part.start as u64).unwrap();
    assert_eq!(second.await.unwrap(), (2, bodies[1].clone()));
    assert_eq!((take(&outbox).await.0, outbox.stuck()), (3, None));
    // The length of the first request, which the sink has.
    let (_copy, outbox) = with_change_at(places[0] - 17);
    assert!(outbox.find_changed().unwrap().is_empty());
    assert_eq!(take(&outbox).await, (2, bodies[1].clone()));
}

#[test]
fn after_a_failed_sync_nothing_is_tried_again() {
    let folder = tempfile::tempdir().unwrap();
    let (fails, calls) = (Arc::new(AtomicBool::new(false)), Arc::new(AtomicUsize::new(0)));
    let (failing, called) = (fails.clone(), calls.clone());
    let disk = Disk::failing(move |call, _| {
        called.fetch_add(1, SeqCst);
        match call == Call::Sync && failing.swap(false, SeqCst) {
            true => Err(io::Error::other("no disk")),
            false => Ok(()),
        }
    });
    let outbox = open_on(&disk, folder.path(), "e", SEGMENT).unwrap();
    let before = view(&outbox);
    fails.store(true, SeqCst);
    assert!(outbox.commit(&[body(&[("a", 1)], "")], 2).unwrap_err().to_string().contains("no disk"));
    assert_eq!(view(&outbox), before, "nobody sees a group that may not be durable");
    let done = calls.load(SeqCst);
    assert!(outbox.quarantine("me").is_err());
    assert!(outbox.commit(&[], 3).is_err());
    assert_eq!(calls.load(SeqCst), done);
}

/// After a failed sync the next one reports success for bytes that the disk does not have.
#[test]
fn after_a_failed_sync_no_segment_is_deleted_and_none_goes_on() {
    type Succeeds = fn(&Outbox) -> bool;
    let deletes: Succeeds = |outbox| outbox.sweep().is_ok();
    let commits: Succeeds = |outbox| outbox.commit(&[body(&[("a", 1)], "")], 2).is_ok();
    for [first, second] in [[commits, deletes], [deletes, commits]] {
        let folder = tempfile::tempdir().unwrap();
        let fails = Arc::new(AtomicBool::new(false));
        let failing = fails.clone();
        let disk = Disk::failing(move |call, _| match call == Call::Sync && failing.swap(false, SeqCst) {
            true => Err(io::Error::other("no disk")),
            false => Ok(()),
        });
        let outbox = open_on(&disk, folder.path(), "e", SEGMENT).unwrap();
        fails.store(true, SeqCst);
        assert!(!first(&outbox));
        assert!(!second(&outbox), "after a sync that failed");
    }
}

/// Each call fails once, in turn; a start then finds the state before or after the change.
#[test]
fn whichever_call_fails_a_start_finds_the_state_before_or_behind() {
    for fail in 0.. {
        let folder = tempfile::tempdir().unwrap();
        let calls = Arc::new(AtomicUsize::new(0));
        let called = calls.clone();
        let disk = Disk::failing(move |_, _| match called.fetch_add(1, SeqCst) == fail {
            true => Err(io::Error::other("no disk")),
            false => Ok(()),
        });
        let mut seen = vec![];
        if let Ok(outbox) = open_on(&disk, folder.path(), "e", 300) {
            seen.push(view(&outbox));
            for number in 1..4 {
                if outbox.commit(&[body(&[("a", number)], "filling")], number + 1).is_err() {
                    break;
                }
                seen.push(view(&outbox));
            }
            kill(outbox);
        }
        let found = open_on(&Disk::default(), folder.path(), "e", 300).unwrap();
        let behind = outbox_view_behind(&found, seen.len() as u64);
        assert!(seen.last().is_none_or(|last| *last == view(&found)) || behind, "call {fail}");
        if calls.load(SeqCst) <= fail {
            assert_eq!(seen.len(), 4);
            return;
        }
    }
}

/// Whether there is one more group, whole.
fn outbox_view_behind(outbox: &Outbox, commits: u64) -> bool {
    (outbox.waiting().0, outbox.journal()) == (commits, commits + 1)
        && outbox.series().get(&key_of("a")).is_some_and(|known| known.frontier == commits)
}

#[test]
fn what_asks_is_answered_while_a_write_stalls() {
    let folder = tempfile::tempdir().unwrap();
    let stalls = Arc::new(AtomicBool::new(false));
    let stalling = stalls.clone();
    let disk = Disk::failing(move |call, _| {
        while call == Call::Write && stalling.load(SeqCst) {
            std::thread::sleep(Duration::from_millis(1));
        }
        Ok(())
    });
    let outbox = Arc::new(open_on(&disk, folder.path(), "e", SEGMENT).unwrap());
    let before = view(&outbox);
    stalls.store(true, SeqCst);
    let commits = outbox.clone();
    let committing = std::thread::spawn(move || commits.commit(&[body(&[("a", 1)], "")], 2));
    while outbox.under_way() < Duration::from_millis(30) {
        std::thread::sleep(Duration::from_millis(1));
    }
    let (asks, (tell, told)) = (outbox.clone(), std::sync::mpsc::channel());
    std::thread::spawn(move || tell.send(view(&asks)));
    let seen = told.recv_timeout(Duration::from_secs(5));
    stalls.store(false, SeqCst);
    committing.join().unwrap().unwrap();
    assert_eq!(seen, Ok(before));
    assert_eq!(outbox.under_way(), Duration::ZERO);
}
