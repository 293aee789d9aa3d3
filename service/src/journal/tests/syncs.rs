//! Which calls wait for the disk, and what happens if a sync fails.

use super::*;

#[tokio::test(flavor = "multi_thread")]
async fn one_sync_is_for_all_that_wait_and_nobody_is_told_before() {
    let folder = tempfile::tempdir().unwrap();
    let (syncs, open_gate) = (Arc::new(AtomicUsize::new(0)), Arc::new(AtomicBool::new(true)));
    let (counted, gate) = (syncs.clone(), open_gate.clone());
    let disk = Disk::failing(move |call, _| {
        if call == Call::Sync {
            counted.fetch_add(1, SeqCst);
            while !gate.load(SeqCst) {
                std::thread::sleep(Duration::from_millis(1));
            }
        }
        Ok(())
    });
    let journal = Arc::new(open_on(&disk, folder.path(), Durability::Disk).unwrap());
    open_gate.store(false, SeqCst);
    let before = syncs.load(SeqCst);
    let posts: Vec<_> = (0..200).map(|_| append(&journal, "one")).collect();
    let wait = |ticket| {
        let journal = journal.clone();
        tokio::spawn(async move { journal.durable(ticket).await })
    };
    let waiting: Vec<_> = posts.into_iter().map(wait).collect();
    tokio::time::sleep(Duration::from_millis(50)).await;
    assert!(waiting.iter().all(|one| !one.is_finished()));
    open_gate.store(true, SeqCst);
    for one in waiting {
        one.await.unwrap().unwrap();
    }
    assert!(syncs.load(SeqCst) - before <= 3);
    journal.durable(journal.now()).await.unwrap();
}

#[tokio::test]
async fn who_goes_away_leaves_nobody_waiting() {
    for pause in [0, 20] {
        let folder = tempfile::tempdir().unwrap();
        let open_gate = Arc::new(AtomicBool::new(true));
        let disk = Disk::held(open_gate.clone());
        let journal = Arc::new(open_on(&disk, folder.path(), Durability::Disk).unwrap());
        open_gate.store(false, SeqCst);
        let wait = |ticket| {
            let journal = journal.clone();
            tokio::spawn(async move { journal.durable(ticket).await })
        };
        let waiting: Vec<_> = (0..30).map(|_| wait(append(&journal, "one"))).collect();
        tokio::time::sleep(Duration::from_millis(50)).await;
        // Some go away before they are told, and some while they are being told.
        let go = |waiting: &[tokio::task::JoinHandle<Result<(), Fenced>>]| {
            waiting.iter().skip(2).step_by(3).for_each(|one| one.abort())
        };
        if pause > 0 {
            go(&waiting);
            tokio::time::sleep(Duration::from_millis(pause)).await;
        }
        open_gate.store(true, SeqCst);
        std::thread::sleep(Duration::from_millis(50));
        go(&waiting);
        for (number, one) in waiting.into_iter().enumerate() {
            let ended = tokio::time::timeout(Duration::from_secs(5), one).await;
            assert!(ended.is_ok(), "{number} was forgotten");
        }
    }
}

/// After a failed sync, the kernel takes pages for written that are only in memory.
#[test]
fn what_an_earlier_run_wrote_is_written_anew_before_it_is_believed() {
    let folder = tempfile::tempdir().unwrap();
    for text in ["a", "b", "c"] {
        append(&open(folder.path()), text);
    }
    let before = |number| std::fs::read(segment::path(folder.path(), number)).unwrap();
    let written = [before(1), before(2), before(3)];
    let calls = Arc::new(Mutex::new(Vec::new()));
    let seen = calls.clone();
    let disk = Disk::failing(move |call, path: &Path| {
        locked(&seen).push((call, path.to_path_buf()));
        Ok(())
    });
    let journal = open_from(&disk, folder.path(), Durability::Disk, 2).unwrap();
    for (number, wanted) in
        [(1, &[Call::Sync][..]), (2, &[Call::Write, Call::Sync]), (3, &[Call::Write, Call::Sync])]
    {
        let path = segment::path(folder.path(), number);
        let of_it: Vec<Call> = locked(&calls).iter().filter(|one| one.1 == path).map(|one| one.0).collect();
        assert_eq!(of_it, wanted, "{number}");
    }
    assert_eq!([before(1), before(2), before(3)], written);
    assert_eq!(texts(&journal, 2), ["b", "c"]);
}

/// The posts that it replaces may have been durable for long.
#[test]
fn what_is_held_is_durable_before_it_counts_where_posts_are_only_written() {
    let folder = tempfile::tempdir().unwrap();
    let journal = open(folder.path());
    let is_durable = |ticket: Ticket| journal.shared.durable.has(ticket.0);
    let ticket = append(&journal, "a");
    let (next, _) = journal.roll();
    assert!(!is_durable(ticket));
    journal.hold(&[post("a").sender].into(), 1, next).unwrap();
    assert_eq!(journal.held().posts, 1);
    assert!(is_durable(journal.now()));
}

#[test]
fn a_process_only_journal_waits_for_nothing() {
    let folder = tempfile::tempdir().unwrap();
    let journal = open(folder.path());
    let _held = locked(&journal.shared.syncing);
    let ticket = append(&journal, "a");
    let runtime = tokio::runtime::Builder::new_current_thread().enable_time().build().unwrap();
    let durable = async { tokio::time::timeout(Duration::from_secs(5), journal.durable(ticket)).await };
    runtime.block_on(durable).unwrap().unwrap();
}

#[tokio::test(flavor = "multi_thread")]
async fn after_a_failed_sync_nobody_is_told_and_nothing_is_tried_again() {
    let folder = tempfile::tempdir().unwrap();
    let (fails, calls) = (Arc::new(AtomicBool::new(false)), Arc::new(AtomicUsize::new(0)));
    let (failing, called) = (fails.clone(), calls.clone());
    let (tell, told) = mpsc::channel();
    let disk = Disk::failing(move |call, _| match failing.load(SeqCst) && call == Call::Sync {
        true if called.fetch_add(1, SeqCst) == 0 => Err(std::io::Error::other("no disk")),
        _ => Ok(()),
    });
    let disk = disk.ending(move |fault| tell.send(fault.to_string()).unwrap());
    let journal = open_on(&disk, folder.path(), Durability::Disk).unwrap();
    fails.store(true, SeqCst);
    let ticket = append(&journal, "a");
    assert!(tokio::time::timeout(Duration::from_millis(1500), journal.durable(ticket)).await.is_err());
    assert!(told.recv().unwrap().contains("no disk"));
    assert_eq!(calls.load(SeqCst), 1);
    std::mem::forget(journal);
}

/// After a failed sync the next one reports success for bytes that the disk does not have, whichever thread calls it.
#[tokio::test(flavor = "multi_thread")]
async fn after_a_failed_sync_of_what_is_held_nobody_is_told_either() {
    let folder = tempfile::tempdir().unwrap();
    let fails = Arc::new(AtomicBool::new(false));
    let failing = fails.clone();
    let (tell, told) = mpsc::channel();
    let disk = Disk::failing(move |call, _| match call == Call::Sync && failing.swap(false, SeqCst) {
        true => Err(std::io::Error::other("no disk")),
        false => Ok(()),
    });
    let disk = disk.ending(move |fault| tell.send(fault.to_string()).unwrap());
    let journal = Arc::new(open_on(&disk, folder.path(), Durability::Disk).unwrap());
    journal.roll();
    fails.store(true, SeqCst);
    let settling = journal.clone();
    std::thread::spawn(move || settling.settle_kept());
    while fails.load(SeqCst) {
        tokio::time::sleep(Duration::from_millis(1)).await;
    }
    let ticket = append(&journal, "b");
    let durable = tokio::time::timeout(Duration::from_millis(1500), journal.durable(ticket));
    assert!(durable.await.is_err(), "who waits is told of what may be lost");
    assert!(told.recv_timeout(Duration::from_secs(5)).unwrap().contains("no disk"));
    std::mem::forget(journal);
}

/// The next test runs this in a process of its own.
#[test]
#[ignore]
fn ends_by_its_disk() {
    let Some(folder) = std::env::var_os("TOTXEGUN_TEST_FOLDER") else {
        return;
    };
    let calls = AtomicUsize::new(0);
    let disk = Disk::failing(move |call, _| match call == Call::Write && calls.fetch_add(1, SeqCst) > 4 {
        true => Err(std::io::ErrorKind::StorageFull.into()),
        false => Ok(()),
    });
    let journal = open_on(&disk, Path::new(&folder), Durability::Process).unwrap();
    for _ in 0..100 {
        append(&journal, "a");
    }
}

#[test]
fn a_failed_write_ends_the_process_with_a_named_line() {
    let folder = tempfile::tempdir().unwrap();
    let mut this = std::process::Command::new(std::env::current_exe().unwrap());
    this.args(["--exact", "--ignored", "--nocapture", "journal::tests::syncs::ends_by_its_disk"]);
    let ended = this.env("TOTXEGUN_TEST_FOLDER", folder.path()).output().unwrap();
    let line = String::from_utf8_lossy(&ended.stderr);
    assert_eq!(ended.status.code(), Some(FAILED), "{line}");
    assert!(line.contains("the disk failed") && line.contains("000000000001.seg"), "{line}");
    assert!(!texts(&open(folder.path()), 1).is_empty());
}

#[test]
fn what_is_held_is_durable_before_its_first_place_is_deleted() {
    let folder = tempfile::tempdir().unwrap();
    let calls = Arc::new(Mutex::new(Vec::new()));
    let seen = calls.clone();
    let disk = Disk::failing(move |call, path| {
        seen.lock().unwrap().push((call, path.to_path_buf()));
        Ok(())
    });
    let journal = open_on(&disk, folder.path(), Durability::Process).unwrap();
    append(&journal, "a");
    journal.roll();
    journal.hold(&[post("a").sender].into(), 1, 2).unwrap();
    journal.truncate_before(2).unwrap();
    let calls = calls.lock().unwrap();
    let position =
        |call, number| calls.iter().rposition(|one| *one == (call, segment::path(folder.path(), number)));
    let noted = calls.iter().position(|one| *one == (Call::Write, segment::path(folder.path(), 2)));
    assert!(position(Call::Sync, 2).unwrap() < position(Call::Remove, 1).unwrap());
    assert!(noted.unwrap() < position(Call::Sync, 2).unwrap());
}

#[test]
fn what_an_earlier_run_wrote_is_synced_before_it_is_believed() {
    let folder = tempfile::tempdir().unwrap();
    let earlier = open(folder.path());
    append(&earlier, "a");
    earlier.roll();
    append(&earlier, "b");
    kill(earlier);
    let synced = Arc::new(Mutex::new(Vec::new()));
    let seen = synced.clone();
    let disk = Disk::failing(move |call, path| {
        if call == Call::Sync {
            seen.lock().unwrap().push(path.to_path_buf());
        }
        Ok(())
    });
    let journal = open_on(&disk, folder.path(), Durability::Process).unwrap();
    assert_eq!(texts(&journal, 1), ["a", "b"]);
    for number in [1, 2] {
        let path = segment::path(folder.path(), number);
        assert!(synced.lock().unwrap().contains(&path), "{path:?}");
    }
}

/// Otherwise a status request would wait for the disk too, and a stall would stay unseen.
#[test]
fn sizes_are_told_while_a_write_stalls_and_how_long_it_does() {
    let folder = tempfile::tempdir().unwrap();
    let stalls = Arc::new(AtomicBool::new(false));
    let stalling = stalls.clone();
    let disk = Disk::failing(move |call, _| {
        while call == Call::Write && stalling.load(SeqCst) {
            std::thread::sleep(Duration::from_millis(1));
        }
        Ok(())
    });
    let journal = Arc::new(open_on(&disk, folder.path(), Durability::Process).unwrap());
    append(&journal, "a");
    let before = journal.size();
    assert_eq!(journal.under_way(), Duration::ZERO);
    stalls.store(true, SeqCst);
    let writes = journal.clone();
    let writing = std::thread::spawn(move || append(&writes, "b"));
    while journal.under_way() < Duration::from_millis(30) {
        std::thread::sleep(Duration::from_millis(1));
    }
    let (asks, (tell, told)) = (journal.clone(), mpsc::channel());
    std::thread::spawn(move || tell.send(asks.size()));
    let size = told.recv_timeout(Duration::from_secs(5));
    stalls.store(false, SeqCst);
    writing.join().unwrap();
    assert!(size.is_ok_and(|size| size.0 > before.0), "nobody waits for the write");
    while journal.under_way() > Duration::ZERO {
        std::thread::sleep(Duration::from_millis(1));
    }
}
