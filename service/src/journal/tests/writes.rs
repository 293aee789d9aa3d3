//! When appended posts get into the file, and what happens if a write fails.

use super::*;
use std::future::{poll_fn, Future};
use std::task::Poll;
use std::time::Instant;

/// Appends a post and writes nothing.
fn append_only(journal: &Journal, text: &str) -> Ticket {
    journal.append(&post(text), &Letters::of(text))
}

/// What a start would find if the process ended now.
fn there(folder: &Path) -> Vec<String> {
    let copy = tempfile::tempdir().unwrap();
    crate::storage::power::copy(folder, &copy.path().join("copy"));
    texts(&open(&copy.path().join("copy")), 1)
}

fn counted() -> (Disk, Arc<AtomicUsize>) {
    let writes = Arc::new(AtomicUsize::new(0));
    let counts = writes.clone();
    let disk = Disk::failing(move |call, _| {
        counts.fetch_add(usize::from(call == Call::Write), SeqCst);
        Ok(())
    });
    (disk, writes)
}

#[tokio::test]
async fn one_write_is_for_all_that_was_appended_and_nobody_is_told_before() {
    let folder = tempfile::tempdir().unwrap();
    let (disk, writes) = counted();
    let journal = open_on(&disk, folder.path(), Durability::Process).unwrap();
    let before = writes.load(SeqCst);
    let tickets = ["a", "b", "c"].map(|text| append_only(&journal, text));
    assert_eq!((writes.load(SeqCst), there(folder.path()).len()), (before, 0));
    journal.durable(tickets[1]).await.unwrap();
    assert_eq!(there(folder.path()), ["a", "b", "c"]);
    for ticket in tickets {
        journal.durable(ticket).await.unwrap();
    }
    assert_eq!(writes.load(SeqCst), before + 1);
    append_only(&journal, "d");
    journal.durable(journal.now()).await.unwrap(); // as a refusal waits
    assert_eq!(there(folder.path()), ["a", "b", "c", "d"]);
}

/// Otherwise each post would take its own write, and posts of other threads would wait for it.
#[tokio::test]
async fn posts_that_are_ready_on_a_thread_are_written_together() {
    let folder = tempfile::tempdir().unwrap();
    let (disk, writes) = counted();
    let journal = Arc::new(open_on(&disk, folder.path(), Durability::Process).unwrap());
    let before = writes.load(SeqCst);
    let posting = ["a", "b", "c"].map(|text| {
        let journal = journal.clone();
        tokio::spawn(async move { journal.durable(append_only(&journal, text)).await })
    });
    for posted in posting {
        posted.await.unwrap().unwrap();
        assert_eq!(there(folder.path()), ["a", "b", "c"]);
    }
    assert_eq!(writes.load(SeqCst), before + 1);
}

/// Otherwise the post would stay in memory until the next one comes.
#[tokio::test]
async fn what_was_appended_is_written_also_where_its_sender_goes_away() {
    let folder = tempfile::tempdir().unwrap();
    let journal = open(folder.path());
    let ticket = append_only(&journal, "a");
    let mut waiting = Box::pin(journal.durable(ticket));
    let waits = poll_fn(|context| Poll::Ready(waiting.as_mut().poll(context).is_pending())).await;
    assert!(waits, "it lets others append first");
    drop(waiting);
    let until = Instant::now() + Duration::from_millis(500); // earlier than the sync thread would come by itself
    while !journal.shared.written.has(ticket.0) && Instant::now() < until {
        std::thread::sleep(Duration::from_millis(1));
    }
    assert_eq!(there(folder.path()), ["a"]);
}

#[test]
fn whatever_comes_next_writes_what_was_appended_first() {
    for durability in [Durability::Process, Durability::Disk] {
        let folder = tempfile::tempdir().unwrap();
        let journal = open_on(&Disk::default(), folder.path(), durability).unwrap();
        append_only(&journal, "a");
        let (next, _) = journal.roll();
        assert_eq!(there(folder.path()), ["a"]);
        append_only(&journal, "b");
        journal.hold(&[post("a").sender].into(), 1, next).unwrap();
        assert_eq!(texts(&journal, 1), ["a", "b"]);
        append_only(&journal, "c");
        journal.truncate_before(1).unwrap();
        assert_eq!(texts(&journal, 1), ["a", "b", "c"]);
        append_only(&journal, "d");
        journal.sync_up_to(journal.now());
        assert_eq!(there(folder.path()), ["a", "b", "c", "d"]);
        append_only(&journal, "e");
        drop(journal);
        assert_eq!(there(folder.path()), ["a", "b", "c", "d", "e"]);
    }
}

/// Appenders hold the lock of the book. The segment has no room ahead for so many bytes.
#[test]
fn who_appends_waits_for_no_call_of_the_disk() {
    for durability in [Durability::Process, Durability::Disk] {
        let folder = tempfile::tempdir().unwrap();
        let stalls = Arc::new(AtomicBool::new(false));
        let stalling = stalls.clone();
        let disk = Disk::failing(move |_, _| {
            while stalling.load(SeqCst) {
                std::thread::sleep(Duration::from_millis(1));
            }
            Ok(())
        });
        let journal = Arc::new(open_on(&disk, folder.path(), durability).unwrap());
        stalls.store(true, SeqCst);
        let long = "x".repeat(300 << 10);
        let (appends, text, (tell, told)) = (journal.clone(), long.clone(), mpsc::channel());
        let appending = std::thread::spawn(move || {
            (0..10).for_each(|_| assert!(append_only(&appends, &text) > Ticket(0)));
            tell.send(()).unwrap();
        });
        let is_done = told.recv_timeout(Duration::from_secs(5)).is_ok();
        stalls.store(false, SeqCst);
        appending.join().unwrap();
        assert!(is_done, "{durability:?}");
        journal.write_all().unwrap();
        assert!(there(folder.path()) == vec![long; 10], "{durability:?}");
    }
}

/// Otherwise the segment would end before what is still being written into it. The disk blocks only the first write.
#[test]
fn a_turn_waits_for_a_write_that_is_under_way() {
    let folder = tempfile::tempdir().unwrap();
    let (holds, waits) = (Arc::new(AtomicBool::new(false)), Arc::new(AtomicBool::new(false)));
    let (holding, waiting) = (holds.clone(), waits.clone());
    let disk = Disk::failing(move |call, _| {
        let is_held = call == Call::Write && holding.load(SeqCst) && !waiting.swap(true, SeqCst);
        while is_held && holding.load(SeqCst) {
            std::thread::sleep(Duration::from_millis(1));
        }
        Ok(())
    });
    let journal = Arc::new(open_on(&disk, folder.path(), Durability::Process).unwrap());
    holds.store(true, SeqCst);
    let (writes, turns) = (journal.clone(), journal.clone());
    let writing = std::thread::spawn(move || append(&writes, "a"));
    while !waits.load(SeqCst) {
        std::thread::sleep(Duration::from_millis(1));
    }
    append_only(&journal, "b"); // it does not wait
    let turning = std::thread::spawn(move || turns.roll());
    std::thread::sleep(Duration::from_millis(100));
    let has_turned = turning.is_finished();
    holds.store(false, SeqCst);
    writing.join().unwrap();
    turning.join().unwrap();
    assert!(!has_turned);
    assert_eq!(there(folder.path()), ["a", "b"]);
}

/// A disk whose first write into a segment fails after `fails` is set, the number of writes from then on, and the fault
/// that ended the process.
struct Failing {
    fails: Arc<AtomicBool>,
    writes: Arc<AtomicUsize>,
    told: mpsc::Receiver<String>,
}

fn failing() -> (Disk, Failing) {
    let (fails, writes) = (Arc::new(AtomicBool::new(false)), Arc::new(AtomicUsize::new(0)));
    let (failing, counts) = (fails.clone(), writes.clone());
    let disk = Disk::failing(move |call, path| {
        let is_of_segment = path.extension().is_some_and(|it| it == "seg");
        match call == Call::Write && is_of_segment && failing.load(SeqCst) {
            true if counts.fetch_add(1, SeqCst) == 0 => Err(std::io::Error::other("no disk")),
            _ => Ok(()),
        }
    });
    let (tell, told) = mpsc::channel();
    let disk = disk.ending(move |fault| tell.send(fault.to_string()).unwrap());
    let of_test = Failing { fails, writes, told };
    (disk, of_test)
}

fn append_another(journal: &Journal) {
    append(journal, "b");
}

/// Lets `writes` fail in a journal with a post in an earlier segment and a watermark after the last record: no other
/// write may follow, because a start finds nothing after a hole.
fn nobody_writes_after(writes: fn(&Journal)) {
    let folder = tempfile::tempdir().unwrap();
    let (disk, failing) = failing();
    let journal = Arc::new(open_on(&disk, folder.path(), Durability::Process).unwrap());
    append(&journal, "a");
    journal.roll();
    journal.shared.sync();
    while locked(&journal.shared.place).segment.needs_mark() {
        std::thread::sleep(Duration::from_millis(1));
    }
    failing.fails.store(true, SeqCst);
    let begin = |writes: fn(&Journal)| {
        let journal = journal.clone();
        std::thread::spawn(move || writes(&journal));
    };
    begin(writes);
    while failing.writes.load(SeqCst) == 0 {
        std::thread::sleep(Duration::from_millis(1));
    }
    begin(append_another);
    std::thread::sleep(Duration::from_millis(100));
    let told = failing.told.recv_timeout(Duration::from_secs(5));
    assert_eq!(failing.writes.load(SeqCst), 1);
    assert!(told.unwrap().contains("no disk"));
    std::mem::forget(journal);
}

#[test]
fn after_a_failed_write_nobody_else_writes() {
    nobody_writes_after(append_another);
}

/// The record that the first segment is committed to the outbox.
#[test]
fn after_a_failed_mark_nobody_writes() {
    nobody_writes_after(|journal| drop(journal.truncate_before(2)));
}

/// The record of parked posts.
#[test]
fn after_a_failed_note_nobody_writes() {
    nobody_writes_after(|journal| drop(journal.hold(&[post("a").sender].into(), 1, 2)));
}
