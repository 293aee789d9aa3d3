//! A shard over a shard store: what the next owner finds, which calls block, and who learns that the shard is fenced.

use super::memory::{Owner, Step, Store};
use super::*;
use crate::dead_letters::DeadLetters;
use crate::journal::{Body, NoNames, Post};
use crate::journal::{Journal, Ticket};
use crate::outbox::Outbox;
use crate::outbox::{Recents, Runs};
use crate::storage::Fault;
use std::collections::BTreeSet;
use std::path::PathBuf;
use std::sync::atomic::{AtomicBool, AtomicUsize, Ordering::SeqCst};
use std::sync::Arc;

const EPOCH: &str = "00000000000000aa";

fn open_of(owner: Arc<Owner>) -> (Journal, Outbox, DeadLetters) {
    open(owner, EPOCH).unwrap()
}

fn append(journal: &Journal, sender: &str, text: &str) -> Ticket {
    let post = Post { sender: sender.into(), foreign: 0, body: Body::Text(text.to_string().into()) };
    journal.append(&post, &NoNames)
}

fn texts(journal: &Journal, first: u64) -> Vec<String> {
    let mut texts = Vec::new();
    let each = |read: crate::journal::Replayed| {
        if let Body::Text(text) = &read.post.body {
            texts.push(String::from_utf8(text.to_vec()).unwrap());
        }
        true
    };
    journal.posts(first, u64::MAX, each).unwrap();
    texts
}

/// A request as the book writes it.
fn request(end: u64) -> Vec<u8> {
    format!(
        r#"{{"resourceMetrics":[{{"resource":{{"attributes":[]}},"scopeMetrics":[{{"scope":{{"name":"","version":"","attributes":[]}},"metrics":[{{"name":"a","unit":"","sum":{{"aggregationTemporality":1,"isMonotonic":false,"dataPoints":[{{"attributes":[],"startTimeUnixNano":"{}","timeUnixNano":"{end}","asInt":"1"}}]}}}}]}}]}}]}}"#,
        end - 1
    )
    .into_bytes()
}

/// Counts the syncs that have begun.
fn counted(store: &Arc<Store>) -> (Arc<Owner>, Arc<AtomicUsize>) {
    let syncs = Arc::new(AtomicUsize::new(0));
    let counted = syncs.clone();
    let owner = store.take_with(move |step| {
        counted.fetch_add(usize::from(step == Step::Sync), SeqCst);
        Ok(())
    });
    (owner, syncs)
}

#[tokio::test]
async fn the_next_owner_has_what_was_durable() {
    let store = Arc::new(Store::default());
    let (journal, outbox, dead) = open_of(store.take());
    append(&journal, "A", "one");
    let (second, turned) = journal.roll();
    journal.sync_up_to(turned);
    outbox.commit_with(&[request(5)], second, Runs::new(), &Recents::default()).unwrap();
    journal.truncate_before(second).unwrap();
    dead.keep("0-e-1", "400", b"body").unwrap();
    let ticket = append(&journal, "A", "two");
    journal.durable(ticket).await.unwrap();
    append(&journal, "A", "three");
    outbox.quarantine("B").unwrap();
    let (journal, outbox, dead) = open_of(store.take());
    assert_eq!((outbox.journal(), texts(&journal, 2)), (2, vec!["two".to_string()]));
    let (waiting, body) = outbox.first().await.unwrap();
    assert_eq!((waiting.number, body), (1, request(5)));
    assert_eq!((outbox.epoch().as_str(), outbox.quarantined().len()), (EPOCH, 0));
    assert_eq!(dead.body("0-e-1").unwrap().unwrap(), b"body");
    outbox.acknowledge(1).unwrap();
    outbox.sync().unwrap();
    let (journal, outbox, _dead) = open_of(store.take());
    assert_eq!((outbox.waiting().0, texts(&journal, 2)), (0, vec!["two".to_string()]));
}

#[test]
fn nothing_is_written_ahead_and_owners_that_end_at_once_leave_no_file() {
    let store = Arc::new(Store::default());
    let (journal, _outbox, _dead) = open_of(store.take());
    append(&journal, "A", "one");
    let names = || {
        open_of(store.take());
        store.names()
    };
    drop(journal);
    let first = names();
    (0..3).for_each(|_| assert_eq!(names(), first));
    for name in first {
        store.change(&name, |bytes| {
            assert!(bytes.len() < 1000, "{name:?}");
        });
    }
}

/// Nothing before the commit may block: the callers of these steps may hold the lock of the book.
#[test]
fn a_checkpoint_is_one_sync() {
    let store = Arc::new(Store::default());
    let (owner, syncs) = counted(&store);
    let (journal, outbox, _dead) = open_of(owner);
    outbox.quarantine("B").unwrap();
    let opened = syncs.load(SeqCst);
    for number in 1..4 {
        append(&journal, "A", "one");
        append(&journal, "B", "two");
        let (next, turned) = journal.roll();
        journal.sync_up_to(turned);
        let first = outbox.journal();
        journal.hold(&BTreeSet::from(["B".to_string()]), first, next).unwrap();
        outbox.commit_with(&[request(number)], next, Runs::new(), &Recents::default()).unwrap();
        journal.truncate_before(next).unwrap();
        assert!(!outbox.may_deliver(number), "it is not durable yet");
        outbox.sync().unwrap();
        assert!(outbox.may_deliver(number));
    }
    assert_eq!(syncs.load(SeqCst), opened + 3);
    let (journal, outbox, _dead) = open_of(store.take());
    assert_eq!(texts(&journal, outbox.journal()), ["two"; 3]);
}

/// A process that was suspended must not deliver before a sync proves that it still owns the shard: a sink that has
/// dropped old keys would count the request twice.
#[test]
fn nothing_is_delivered_where_it_is_not_known_whose_the_shard_is() {
    let store = Arc::new(Store::default());
    let (journal, outbox, _dead) = open_of(store.take());
    outbox.commit(&[request(5)], journal.roll().0).unwrap();
    outbox.sync().unwrap();
    assert!(outbox.may_deliver(1));
    std::thread::sleep(Duration::from_millis(350));
    assert!(!outbox.may_deliver(1));
    outbox.sync().unwrap();
    assert!(outbox.may_deliver(1));
    store.take();
    std::thread::sleep(Duration::from_millis(350));
    assert!(!outbox.may_deliver(1));
    assert!(matches!(outbox.sync(), Err(Fault::Fenced(_))));
}

/// A refusal rests on the shard's state, which another owner may have changed: only a commit that begins later proves
/// that we still own the shard.
#[tokio::test]
async fn a_refusal_waits_for_a_sync_of_its_own() {
    let store = Arc::new(Store::default());
    let (owner, syncs) = counted(&store);
    let (journal, _outbox, _dead) = open_of(owner);
    journal.durable(append(&journal, "A", "one")).await.unwrap();
    let before = syncs.load(SeqCst);
    journal.durable(journal.now()).await.unwrap();
    assert!(syncs.load(SeqCst) > before);
    store.take();
    assert_eq!(journal.durable(journal.now()).await, Err(Fenced));
}

/// Otherwise the later post would wait for a second sync.
#[tokio::test]
async fn what_is_appended_before_a_commit_begins_is_in_it() {
    let (store, opened) = (Arc::new(Store::default()), Arc::new(std::sync::OnceLock::<Arc<Journal>>::new()));
    let (comes, ticket) = (Arc::new(AtomicBool::new(false)), Arc::new(std::sync::Mutex::new(None)));
    let (journal, coming, appended) = (opened.clone(), comes.clone(), ticket.clone());
    let syncs = Arc::new(AtomicUsize::new(0));
    let counted = syncs.clone();
    let owner = store.take_with(move |step| {
        counted.fetch_add(usize::from(step == Step::Sync), SeqCst);
        if step == Step::Sync && coming.swap(false, SeqCst) {
            *appended.lock().unwrap() = Some(append(journal.get().unwrap(), "A", "two"));
        }
        Ok(())
    });
    let (journal, _outbox, _dead) = open_of(owner);
    let journal = opened.get_or_init(|| Arc::new(journal));
    let before = syncs.load(SeqCst);
    comes.store(true, SeqCst);
    journal.durable(append(journal, "A", "one")).await.unwrap();
    let ticket = ticket.lock().unwrap().unwrap();
    journal.durable(ticket).await.unwrap();
    assert_eq!(syncs.load(SeqCst), before + 1);
    let (journal, _outbox, _dead) = open_of(store.take());
    assert_eq!(texts(&journal, 1), ["one", "two"]);
}

/// Even if that write was the only change since the last sync.
#[tokio::test]
async fn a_post_that_a_lost_shard_could_not_write_is_never_durable() {
    let store = Arc::new(Store::default());
    let fails = Arc::new(AtomicBool::new(false));
    let failing = fails.clone();
    let owner = store.take_with(move |step| match step {
        Step::Write if failing.load(SeqCst) => Err(fenced()),
        _ => Ok(()),
    });
    let (journal, outbox, _dead) = open_of(owner);
    append(&journal, "A", "one");
    outbox.quarantine("B").unwrap(); // makes changes of its own durable
    fails.store(true, SeqCst);
    assert_eq!(journal.durable(append(&journal, "A", "two")).await, Err(Fenced));
}

/// The change is counted although the store never got it, and the sync that was running succeeds.
#[tokio::test]
async fn a_post_that_comes_after_a_close_within_a_commit_is_never_durable() {
    let (store, opened) = (Arc::new(Store::default()), Arc::new(std::sync::OnceLock::<Arc<Journal>>::new()));
    let (comes, ticket) = (Arc::new(AtomicBool::new(false)), Arc::new(std::sync::Mutex::new(None)));
    let (journal, coming, appended) = (opened.clone(), comes.clone(), ticket.clone());
    let owner = store.take_with(move |step| {
        if step == Step::Sync && coming.swap(false, SeqCst) {
            let journal = journal.get().unwrap();
            journal.close("a piece is damaged");
            *appended.lock().unwrap() = Some(append(journal, "A", "two"));
        }
        Ok(())
    });
    let (journal, _outbox, _dead) = open_of(owner);
    let journal = opened.get_or_init(|| Arc::new(journal));
    comes.store(true, SeqCst);
    let _ = journal.durable(append(journal, "A", "one")).await;
    let ticket = ticket.lock().unwrap().unwrap();
    assert_eq!(journal.durable(ticket).await, Err(Fenced));
}

/// In a folder the same failure ends the process.
#[tokio::test]
async fn a_drive_that_fails_ends_its_shard_alone_and_nothing_reaches_it_any_more() {
    let store = Arc::new(Store::default());
    let fails = Arc::new(AtomicBool::new(false));
    let failing = fails.clone();
    let owner = store.take_with(move |step| match step {
        Step::Write if failing.load(SeqCst) => Err(io::Error::other("no room")),
        _ => Ok(()),
    });
    let (journal, outbox, _dead) = open_of(owner);
    assert_eq!(journal.failure(), None);
    fails.store(true, SeqCst);
    let ticket = append(&journal, "A", "one");
    fails.store(false, SeqCst);
    assert_eq!(journal.durable(ticket).await, Err(Fenced));
    journal.fenced().await;
    outbox.fenced().await;
    let why = journal.failure().unwrap();
    assert!(why.contains("no room"), "{why}");
    assert!(matches!(outbox.quarantine("B"), Err(Fault::Fenced(_))));
    let (journal, _outbox, _dead) = open_of(store.take());
    assert_eq!(texts(&journal, 1), Vec::<String>::new());
}

#[tokio::test(flavor = "multi_thread")]
async fn all_who_wait_are_told_that_the_shard_is_lost() {
    let store = Arc::new(Store::default());
    let stalls = Arc::new(AtomicBool::new(false));
    let stalling = stalls.clone();
    let owner = store.take_with(move |step| {
        while step == Step::Sync && stalling.load(SeqCst) {
            std::thread::sleep(Duration::from_millis(1));
        }
        Ok(())
    });
    let (journal, outbox, dead) = open_of(owner);
    let (journal, outbox) = (Arc::new(journal), Arc::new(outbox));
    stalls.store(true, SeqCst);
    let wait = |ticket| {
        let journal = journal.clone();
        tokio::spawn(async move { journal.durable(ticket).await })
    };
    let waiting: Vec<_> =
        (0..50).map(|_| wait(append(&journal, "A", "one"))).chain([wait(journal.now())]).collect();
    let (of_journal, of_outbox) = (journal.clone(), outbox.clone());
    let told = tokio::spawn(async move { (of_journal.fenced().await, of_outbox.fenced().await) });
    while journal.under_way() == Duration::ZERO {
        tokio::time::sleep(Duration::from_millis(1)).await;
    }
    assert!(waiting.iter().all(|one| !one.is_finished()));
    store.take();
    stalls.store(false, SeqCst);
    for one in waiting {
        assert_eq!(one.await.unwrap(), Err(Fenced));
    }
    told.await.unwrap();
    // Later calls fail in the same way, and none reaches the store.
    let ticket = append(&journal, "A", "two");
    assert_eq!(journal.durable(ticket).await, Err(Fenced));
    journal.roll();
    assert_eq!(journal.durable(journal.now()).await, Err(Fenced));
    assert!(matches!(journal.truncate_before(2), Err(Fault::Fenced(_))));
    for _ in 0..2 {
        assert!(matches!(outbox.quarantine("B"), Err(Fault::Fenced(_))));
    }
    assert!(matches!(dead.keep("k", "", b""), Err(Fault::Fenced(_))));
}

/// No caller waits for an acknowledgement. But a request that is sent again much later is counted again by a sink that
/// has dropped its key.
#[test]
fn what_nobody_waits_for_is_durable_a_moment_later() {
    let store = Arc::new(Store::default());
    let (journal, outbox, _dead) = open_of(store.take());
    outbox.commit(&[request(5)], journal.roll().0).unwrap();
    outbox.sync().unwrap();
    outbox.acknowledge(1).unwrap();
    let began = std::time::Instant::now();
    while open_of(store.take()).1.waiting().0 > 0 {
        assert!(began.elapsed() < Duration::from_secs(10), "it is never durable");
        // Each look takes the shard, so the test looks once a round.
        let (journal, outbox, _dead) = open_of(store.take());
        if outbox.waiting().0 > 0 {
            outbox.acknowledge(1).unwrap();
            std::thread::sleep(Duration::from_millis(1500));
        }
        drop(journal);
    }
}

/// If the move was durable and the commit was not, the next owner moves the same posts to the same offset.
#[test]
fn posts_that_were_moved_before_a_commit_that_did_not_come_are_held_once() {
    let store = Arc::new(Store::default());
    let quarantined = BTreeSet::from(["B".to_string()]);
    let (journal, outbox, _dead) = open_of(store.take());
    append(&journal, "B", "one");
    let (next, _) = journal.roll();
    journal.hold(&quarantined, 1, next).unwrap();
    outbox.commit(&[], next).unwrap();
    journal.truncate_before(next).unwrap();
    append(&journal, "B", "two and more");
    let (third, _) = journal.roll();
    journal.hold(&quarantined, next, third).unwrap();
    outbox.sync().unwrap();
    let (journal, outbox, _dead) = open_of(store.take());
    assert_eq!(texts(&journal, outbox.journal()), ["one", "two and more"]);
    append(&journal, "B", "three");
    let (last, _) = journal.roll();
    journal.hold(&quarantined, outbox.journal(), last).unwrap();
    outbox.commit(&[], last).unwrap();
    journal.truncate_before(last).unwrap();
    outbox.sync().unwrap();
    let (journal, outbox, _dead) = open_of(store.take());
    let all = ["one", "two and more", "three"];
    assert_eq!(
        (texts(&journal, outbox.journal()), journal.held().posts),
        (all.map(String::from).to_vec(), 3)
    );
}

/// A start tolerates torn files only in a folder, after a loss of power: a shard store never tears a file.
#[test]
fn what_was_cut_changed_or_removed_is_refused_by_name() {
    let opened = |change: &dyn Fn(&Store)| {
        let store = Arc::new(Store::default());
        let (journal, outbox, _dead) = open_of(store.take());
        append(&journal, "A", "one");
        append(&journal, "A", "two");
        outbox.quarantine("B").unwrap();
        outbox.sync().unwrap();
        change(&store);
        open(store.take(), EPOCH).err().map(|fault| fault.to_string())
    };
    let names = ["journal", "outbox"].map(|folder| PathBuf::from(folder).join("000000000001.seg"));
    assert_eq!(opened(&|_| {}), None);
    for name in &names {
        let shown = name.display().to_string();
        let changed = |change: fn(&mut Vec<u8>)| opened(&|store| store.change(name, change)).unwrap();
        let cut = changed(|bytes| bytes.truncate(bytes.len() - 1));
        let flipped = changed(|bytes| *bytes.last_mut().unwrap() ^= 1);
        let more = changed(|bytes| bytes.extend(b"more"));
        let gone = changed(Vec::clear);
        for fault in [&cut, &flipped, &more, &gone] {
            assert!(fault.starts_with(&shown) || fault.starts_with("outbox"), "{fault}");
        }
    }
}
