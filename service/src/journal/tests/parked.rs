//! Posts of quarantined senders are parked in their own files.

use super::*;
use crate::storage::power::{copy, place, Shadow};
use std::sync::atomic::AtomicU64;

fn of(sender: &str, text: &str) -> Post {
    Post { sender: sender.into(), foreign: text.len() as u64, body: body(text) }
}

pub fn append_of(journal: &Journal, sender: &str, text: &str) {
    let ticket = journal.append(&of(sender, text), &Letters::of(text));
    journal.write(ticket).unwrap();
}

fn all(journal: &Journal, first: u64) -> Vec<Post> {
    let texts = all_texts(journal, first).into_iter();
    texts.map(|(sender, text)| of(&sender, &text)).collect()
}

/// All posts with their senders.
pub fn all_texts(journal: &Journal, first: u64) -> Vec<(String, String)> {
    let (mut all, mut reading) = (Vec::new(), Reading::default());
    journal
        .posts(first, u64::MAX, |found| {
            let text = reading.text(&found);
            assert_eq!(found.post, of(&found.post.sender, &text));
            all.push((found.post.sender, text));
            true
        })
        .unwrap();
    all
}

/// A checkpoint as `worker` makes it; returns the first segment that counts after it.
pub fn checkpoint(journal: &Journal, held: &BTreeSet<String>, first: u64) -> u64 {
    let (next, _) = journal.roll();
    journal.shared.sync();
    journal.hold(held, first, next).unwrap();
    next
}

pub fn names(senders: &[&str]) -> BTreeSet<String> {
    senders.iter().map(|sender| sender.to_string()).collect()
}

fn file(folder: &Path, sender: &str) -> PathBuf {
    folder.join(format!("{sender}.held"))
}

#[test]
fn posts_of_quarantined_senders_are_moved_once_and_are_there_until_they_are_flushed() {
    let folder = place();
    let (written, counted) = (Arc::new(AtomicU64::new(0)), Arc::new(AtomicU64::new(0)));
    let count = counted.clone();
    let disk = Disk::failing(move |call, path: &Path| {
        let is_held = path.extension().is_some_and(|it| it == "held");
        count.fetch_add(u64::from(is_held && call != Call::Remove), SeqCst);
        Ok(())
    });
    let open = |reach| open_begun(&disk, folder.path(), Durability::Process, reach, None).unwrap();
    let journal = open(1);
    let held = [of("a", "1"), of("a.held", "22"), of("a", "333")];
    for (post, text) in held.iter().zip(["1", "22", "333"]) {
        append_of(&journal, &post.sender, text);
    }
    append_of(&journal, "b", "4444");
    let quarantined = names(&["a", "a.held", "nobody"]);
    let mut first = 1;
    let expected = [&held[0], &held[2], &held[1]].map(Clone::clone);
    for round in 0..4 {
        let next = checkpoint(&journal, &quarantined, first);
        let before: Vec<_> = all(&journal, first).into_iter().filter(|it| it.sender != "b").collect();
        assert_eq!(before.len(), 3, "also before the commit, and once");
        append_of(&journal, "b", "5");
        journal.truncate_before(next).unwrap();
        first = next;
        assert_eq!(all(&journal, first), [&expected[..], &[of("b", "5")]].concat());
        assert_eq!((journal.held().senders, journal.held().posts), (2, 3));
        match round {
            0 => written.store(counted.load(SeqCst), SeqCst),
            _ => assert_eq!(counted.load(SeqCst), written.load(SeqCst), "a flush costs nothing for them"),
        }
    }
    kill(journal);
    let journal = open(first);
    assert_eq!(all(&journal, first), [&expected[..], &[of("b", "5")]].concat());
    // The sender is released and posts again, and is then quarantined again.
    append_of(&journal, "a.held", "66");
    let next = checkpoint(&journal, &names(&["a"]), first);
    assert!(all(&journal, first).contains(&held[1]), "its owners are looked for after the commit");
    journal.truncate_before(next).unwrap();
    assert_eq!(all(&journal, next), [held[0].clone(), held[2].clone()]);
    assert!(!file(folder.path(), "a.held").exists() && file(folder.path(), "a").exists());
    append_of(&journal, "a", "7777777");
    first = checkpoint(&journal, &quarantined, next);
    journal.truncate_before(first).unwrap();
    assert_eq!(all(&journal, first), [held[0].clone(), held[2].clone(), of("a", "7777777")]);
    let next = checkpoint(&journal, &names(&[]), first);
    journal.truncate_before(next).unwrap();
    assert_eq!((all(&journal, next), journal.held()), (vec![], Held::default()));
    assert!(!file(folder.path(), "a").exists());
}

/// A segment defines a number once, and in a sender's own file the same number may mean another series.
#[test]
fn posts_that_come_while_others_are_moved_keep_their_names() {
    let folder = place();
    let journal = open(folder.path());
    let number = |letter: u8, text: &str| u64::from(letter) + Letters::of(text).shift();
    assert_eq!(number(b'1', "1"), number(b'0', "0bc"));
    append_of(&journal, "a", "1");
    let (next, _) = journal.roll();
    journal.shared.sync();
    append_of(&journal, "b", "0bc");
    journal.hold(&names(&["a"]), 1, next).unwrap();
    append_of(&journal, "b", "0de");
    journal.truncate_before(next).unwrap();
    let expected = [("a", "1"), ("b", "0bc"), ("b", "0de")];
    let expected = expected.map(|(sender, text)| (sender.to_string(), text.to_string()));
    assert_eq!(all_texts(&journal, next), expected);
    kill(journal);
    let journal = open_from(&Disk::default(), folder.path(), Durability::Process, next).unwrap();
    assert_eq!(all_texts(&journal, next), expected);
}

#[test]
fn more_senders_than_files_are_open_at_a_time_and_long_posts_are_moved() {
    let folder = place();
    let journal = open(folder.path());
    let senders: Vec<String> = (0..150).map(|number| format!("s{number}")).collect();
    for round in 0..3 {
        for sender in &senders {
            append_of(&journal, sender, &"x".repeat(round * 3001));
        }
    }
    let long = "y".repeat((1 << 20) + 1);
    append_of(&journal, "s7", &long);
    let next = checkpoint(&journal, &senders.iter().cloned().collect(), 1);
    journal.truncate_before(next).unwrap();
    kill(journal);
    let journal = open_from(&Disk::default(), folder.path(), Durability::Process, next).unwrap();
    let found = all(&journal, next);
    assert_eq!(found.len(), 451);
    for sender in &senders {
        let of_it: Vec<u64> = found.iter().filter(|it| it.sender == *sender).map(|it| it.foreign).collect();
        assert_eq!(of_it[..3], [0, 3001, 6002], "{sender}");
    }
    assert!(found.contains(&of("s7", &long)) && journal.held().posts == 451);
}

/// The outbox has no group of the checkpoint, so the segments still have the posts.
#[test]
fn what_was_moved_before_a_commit_that_did_not_come_counts_once() {
    let folder = place();
    let journal = open(folder.path());
    let held = names(&["a"]);
    append_of(&journal, "a", "1");
    let first = checkpoint(&journal, &held, 1);
    journal.truncate_before(first).unwrap();
    // The sender was released, and has posted again.
    append_of(&journal, "a", "22");
    checkpoint(&journal, &held, first);
    kill(journal);
    for _ in 0..2 {
        let journal = open_from(&Disk::default(), folder.path(), Durability::Process, first).unwrap();
        assert_eq!(all(&journal, first), [of("a", "1"), of("a", "22")]);
        let next = checkpoint(&journal, &held, first);
        assert_eq!(all(&journal, next), [of("a", "1"), of("a", "22")]);
        kill(journal);
    }
}

#[test]
fn a_file_of_a_sender_that_is_gone_cut_or_changed_is_named() {
    let folder = place();
    let journal = open(folder.path());
    for text in ["1", "22"] {
        append_of(&journal, "a", text);
    }
    let first = checkpoint(&journal, &names(&["a"]), 1);
    journal.truncate_before(first).unwrap();
    kill(journal);
    let path = file(folder.path(), "a");
    let sound = bytes(&path);
    let named = || {
        let opened = open_from(&Disk::default(), folder.path(), Durability::Process, first);
        let read = opened.and_then(|journal| {
            let read = journal.posts(first, u64::MAX, |_| true);
            kill(journal);
            read
        });
        read.err().is_some_and(|fault| fault.to_string().contains("a.held"))
    };
    for at in 0..sound.len() {
        let mut changed = sound.clone();
        changed[at] ^= 4;
        std::fs::write(&path, &changed).unwrap();
        assert!(named(), "byte {at}");
        std::fs::write(&path, &sound[..at]).unwrap();
        assert!(named(), "cut at {at}");
    }
    std::fs::remove_file(&path).unwrap();
    assert!(named());
    std::fs::write(&path, &sound).unwrap();
    assert!(!named());
}

/// The posts of each sender in the journal, in order.
type Queues = BTreeMap<String, Vec<String>>;

fn queues(journal: &Journal, first: u64) -> Queues {
    let mut queues = Queues::new();
    for (sender, text) in all_texts(journal, first) {
        queues.entry(sender).or_default().push(text);
    }
    queues
}

/// Runs some checkpoints and loses the power in the last one. Returns the first segment that counts, and the durable
/// posts from there on.
fn run(folder: &Path, left: &Path, chance: &mut TestRandom) -> (u64, Queues) {
    std::fs::create_dir(folder).unwrap();
    let shadow = Arc::new(Mutex::new(Shadow::of(folder)));
    let calls = Arc::new(AtomicU64::new(u64::MAX));
    let (tell, told) = mpsc::channel();
    let ended = tell.clone();
    let disk = crate::storage::power::disk_behind(&shadow, calls.clone());
    let disk = disk.ending(move |_| {
        let _ = ended.send(());
    });
    let mut journal = open_on(&disk, folder, Durability::Disk).unwrap();
    let (mut first, mut queues, mut held) = (1, Queues::new(), BTreeSet::new());
    for round in 0..2 + chance.below(4) {
        for step in 0..chance.below(8) {
            let sender = ["a", "b", "c"][chance.below(3) as usize].to_string();
            if !held.contains(&sender) {
                let text = format!("{round}-{step}{:a>width$}", "", width = chance.below(1500) as usize);
                append_of(&journal, &sender, &text);
                queues.entry(sender).or_default().push(text);
            }
        }
        let other = ["a", "b", "c"][chance.below(3) as usize].to_string();
        if !held.remove(&other) {
            held.insert(other);
        }
        first = checkpoint(&journal, &held, first);
        queues.retain(|sender, _| held.contains(sender));
        journal.truncate_before(first).unwrap();
    }
    append_of(&journal, "d", "the last post");
    queues.entry("d".into()).or_default().push("the last post".into());
    journal.shared.sync();
    let next = journal.roll().0;
    journal.shared.sync();
    held.insert("d".into());
    end_syncer(&mut journal); // its work depends on the load of the machine
    calls.store(chance.below(12), SeqCst);
    let journal = Arc::new(journal);
    let holds = journal.clone();
    std::thread::spawn(move || {
        let _ = holds.hold(&held, first, next); // the power is lost during this call or after it
        let _ = tell.send(());
    });
    told.recv().unwrap();
    calls.store(0, SeqCst);
    locked(&shadow).lose_power(left, chance);
    std::mem::forget(journal);
    (first, queues)
}

#[test]
fn whenever_the_power_is_lost_each_post_that_is_held_is_there_once() {
    for seed in 0..runs(4, 12) {
        let place = place();
        let at = |name: &str| place.path().join(name);
        let mut chance = TestRandom(seed);
        let (first, expected) = run(&at("run"), &at("left"), &mut chance);
        for calls in 0.. {
            let (again, left) = (at(&format!("again-{calls}")), at(&format!("left-{calls}")));
            copy(&at("left"), &again);
            let shadow = Arc::new(Mutex::new(Shadow::of(&again)));
            let open =
                |disk: &Disk, folder: &Path| open_begun(disk, folder, Durability::Disk, first, Some(1));
            let opened = open(&crate::storage::power::disk(&shadow, calls), &again);
            let is_whole = opened.map(kill).is_ok();
            locked(&shadow).lose_power(&left, &mut chance);
            let journal = open(&Disk::default(), &left);
            let journal = journal.unwrap_or_else(|fault| panic!("seed {seed} call {calls}: {fault}"));
            journal.truncate_before(first).unwrap();
            assert_eq!(queues(&journal, first), expected, "seed {seed} call {calls}");
            let next = checkpoint(&journal, &names(&["a", "b", "c", "d"]), first);
            assert_eq!(queues(&journal, next), expected, "seed {seed} call {calls}");
            kill(journal);
            for folder in [again, left] {
                std::fs::remove_dir_all(folder).unwrap();
            }
            if is_whole {
                break;
            }
        }
    }
}
