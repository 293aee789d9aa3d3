//! Each dead letter is kept once, and none replaces another one.

use super::*;
use crate::storage::disk::Call;
use crate::storage::shard_store::memory::{Step, Store};

fn open_on(disk: &Disk, path: &Path) -> DeadLetters {
    DeadLetters::open(disk, path, Arc::new(FreeSpace::endless())).unwrap()
}

fn open(path: &Path) -> DeadLetters {
    open_on(&Disk::default(), path)
}

#[test]
fn a_request_is_kept_once_and_comes_back_as_it_was() {
    let folder = tempfile::tempdir().unwrap();
    let dead = open(folder.path());
    let body = b"{\"a\":1}\n\x00\xff";
    dead.keep("0-e-1", "400 bad\nline", body).unwrap();
    dead.keep("0-e-1", "another reason", body).unwrap();
    dead.keep("0-e-2", "413", b"").unwrap();
    assert_eq!(dead.count(), 2);
    let dead = open(folder.path());
    assert_eq!((dead.count(), dead.list().unwrap().len()), (2, 2));
    let letter = &dead.list().unwrap()[0];
    assert_eq!((&*letter.key, &*letter.reason, letter.bytes), ("0-e-1", "400 bad\nline", body.len() as u64));
    assert_eq!(dead.body("0-e-1").unwrap().unwrap(), body);
    assert_eq!(dead.body("0-e-2").unwrap().unwrap(), b"");
    assert!(dead.end("0-e-1", Became::Dropped).unwrap());
    assert!(!dead.end("0-e-1", Became::Dropped).unwrap());
    assert_eq!((dead.count(), dead.body("0-e-1").unwrap()), (1, None));
}

/// Letters are not packed, unlike the outbox: one takes more room than its delivery frees.
#[test]
fn letters_do_not_use_up_the_disk() {
    let folder = tempfile::tempdir().unwrap();
    let free = Arc::new(AtomicU64::new(1 << 40));
    let look = free.clone();
    let space = FreeSpace::of(move || Ok((look.load(Relaxed), 1 << 40, 1000)));
    let dead = DeadLetters::open(&Disk::default(), folder.path(), Arc::new(space)).unwrap();
    assert!(dead.keep_in_room("0-e-1", "400", b"body").unwrap());
    free.store(1 << 20, Relaxed);
    std::thread::sleep(std::time::Duration::from_millis(120));
    assert!(!dead.keep_in_room("0-e-2", "400", b"body").unwrap());
    assert_eq!(open(folder.path()).count(), 1);
    dead.keep("0-e-2", "400", b"body").unwrap(); // an operator's command, which makes room in the end
    assert_eq!(dead.count(), 2);
}

#[test]
fn no_key_leads_out_of_the_folder() {
    let folder = tempfile::tempdir().unwrap();
    std::fs::write(folder.path().join("other.json"), "{}").unwrap();
    let dead = open(&folder.path().join("dead-letters"));
    for key in ["", ".", "..", "../other", "a/b", "/etc/passwd", "a.b", "a\0b", "ä", &"a".repeat(129)] {
        assert!(dead.keep(key, "", b"").is_err(), "{key:?}");
        assert_eq!(dead.body(key).unwrap(), None);
        assert!(!dead.end(key, Became::Dropped).unwrap());
    }
    assert!(folder.path().join("other.json").exists());
}

#[test]
fn a_failed_call_leaves_no_letter_in_part() {
    for fails in [Call::Create, Call::Write, Call::Sync, Call::Rename] {
        let folder = tempfile::tempdir().unwrap();
        let disk = Disk::failing(move |call, _| match call == fails {
            true => Err(io::Error::other("no disk")),
            false => Ok(()),
        });
        let dead = open_on(&disk, folder.path());
        assert!(dead.keep("0-e-1", "400", b"body").is_err());
        assert_eq!((dead.count(), dead.list().unwrap()), (0, vec![]));
        let dead = open(folder.path());
        dead.keep("0-e-1", "400", b"body").unwrap();
        assert_eq!(dead.body("0-e-1").unwrap().unwrap(), b"body");
    }
}

#[test]
fn a_changed_letter_is_named() {
    let folder = tempfile::tempdir().unwrap();
    let dead = open(folder.path());
    dead.keep("k", "400", b"body").unwrap();
    dead.keep("l", "413", b"another").unwrap();
    std::fs::write(folder.path().join("k.json"), "body").unwrap();
    let listed = dead.list().unwrap();
    let of = |key: &str| listed.iter().find(|letter| letter.key == key).unwrap();
    assert!(of("k").reason.contains("k.json"), "{}", of("k").reason);
    assert!(seconds().abs_diff(of("k").since) < 60 && of("k").bytes == 4);
    assert_eq!((&*of("l").reason, listed.len()), ("413", 2));
    assert!(matches!(dead.body("k"), Err(Fault::Damaged { .. })));
    assert!(dead.end("k", Became::Dropped).unwrap());
}

/// The files of a shard were restored over themselves, and its keys are used again.
#[test]
fn another_request_under_the_same_key_is_kept_beside_the_first() {
    let folder = tempfile::tempdir().unwrap();
    let dead = open(folder.path());
    for body in [b"one", b"two", b"six", b"two", b"one"] {
        dead.keep("0-e-1", "400", body).unwrap();
    }
    dead.keep("0-e-11", "400", b"two").unwrap();
    dead.keep("0-e-1-partial", "400", b"two").unwrap();
    assert_eq!(dead.count(), 5);
    for (name, body) in [("0-e-1", b"one"), ("0-e-1_2", b"two"), ("0-e-1_3", b"six")] {
        assert_eq!(dead.body(name).unwrap().unwrap(), body);
        assert_eq!(sent_as(name), "0-e-1");
    }
    let listed: Vec<String> = dead.list().unwrap().into_iter().map(|letter| letter.key).collect();
    assert!(listed.contains(&"0-e-1_2".to_string()), "{listed:?}");

    // A free name is used again, and no body is kept twice.
    assert!(dead.end("0-e-1", Became::Dropped).unwrap());
    dead.keep("0-e-1", "400", b"two").unwrap();
    assert_eq!(dead.count(), 4);
    dead.keep("0-e-1", "400", b"ten").unwrap();
    assert_eq!(dead.body("0-e-1").unwrap().unwrap(), b"ten");
    assert_eq!(open(folder.path()).count(), 5);
}

#[test]
fn what_the_sink_has_is_let_go_and_no_other_request_of_its_key() {
    let folder = tempfile::tempdir().unwrap();
    let dead = open(folder.path());
    dead.let_go("0-e-1", b"one").unwrap();
    dead.keep("0-e-1", "400", b"one").unwrap();
    dead.let_go("0-e-1", b"two").unwrap();
    assert_eq!(dead.body("0-e-1").unwrap().unwrap(), b"one");
    dead.keep("0-e-1", "400", b"two").unwrap();
    dead.keep("0-e-11", "400", b"two").unwrap();
    dead.let_go("0-e-1", b"two").unwrap();
    assert_eq!((dead.count(), dead.body("0-e-1_2").unwrap()), (2, None));
    dead.let_go("0-e-1", b"one").unwrap();
    assert_eq!((dead.count(), dead.body("0-e-1").unwrap()), (1, None));
}

#[test]
fn a_letter_that_was_changed_is_left_and_hides_none() {
    let folder = tempfile::tempdir().unwrap();
    let dead = open(folder.path());
    std::fs::write(folder.path().join("0-e-1.json"), "").unwrap();
    dead.keep("0-e-1", "400", b"body").unwrap();
    assert_eq!(dead.body("0-e-1_2").unwrap().unwrap(), b"body");
    dead.let_go("0-e-1", b"").unwrap();
    assert!(folder.path().join("0-e-1.json").exists());
}

/// A copy that root made of a letter, or a file that the disk can no longer read.
#[test]
fn a_letter_that_can_not_be_read_hides_no_other() {
    let folder = tempfile::tempdir().unwrap();
    let dead = open(folder.path());
    dead.keep("k", "400", b"body").unwrap();
    std::fs::create_dir(folder.path().join("l.json")).unwrap();
    let listed = dead.list().unwrap();
    let of = |key: &str| listed.iter().find(|letter| letter.key == key).unwrap();
    assert_eq!((&*of("k").reason, dead.count()), ("400", 2));
    assert!(of("l").reason.contains("l.json: Is a directory"), "{}", of("l").reason);
}

/// As the error of a damaged letter says: the letter is moved out, and a copy is put in its place.
#[test]
fn letters_that_are_moved_by_hand_are_counted_as_they_are() {
    let folder = tempfile::tempdir().unwrap();
    let (inside, outside) = (folder.path().join("k.json"), folder.path().join("k.copy"));
    let dead = open(folder.path());
    dead.keep("k", "400", b"body").unwrap();
    std::fs::copy(&inside, &outside).unwrap();
    assert!(dead.end("k", Became::Dropped).unwrap());
    std::fs::rename(&outside, &inside).unwrap();
    assert!(dead.end("k", Became::Dropped).unwrap());
    assert_eq!(dead.count(), 0);
    dead.keep("k", "400", b"body").unwrap();
    std::fs::rename(&inside, &outside).unwrap();
    assert_eq!((dead.list().unwrap(), dead.count()), (vec![], 0));
}

/// If an operator repeats a command because the instance that carried it out was fenced before it answered.
#[test]
fn what_became_of_letters_is_known_to_the_next_owner_of_a_shard() {
    let store = Arc::<Store>::default();
    let open = || open_on(&Disk::of_shard_store(store.take()), Path::new("dead-letters"));
    let dead = open();
    for key in ["0-e-1", "0-e-2", "0-e-3"] {
        dead.keep(key, "400", b"body").unwrap();
    }
    assert_eq!(dead.became("0-e-1").unwrap(), None);
    assert!(dead.end("0-e-1", Became::Dropped).unwrap());
    dead.let_go("0-e-2", b"body").unwrap();
    let part = Became::TakenPartly("one was late".into());
    assert!(dead.end("0-e-3", part.clone()).unwrap());
    let dead = open();
    assert_eq!((dead.count(), dead.list().unwrap()), (0, vec![]));
    for (key, wanted) in [
        ("0-e-1", Some(Became::Dropped)),
        ("0-e-2", Some(Became::Taken)),
        ("0-e-3", Some(part)),
        ("0-e-4", None),
    ] {
        assert_eq!(dead.became(key).unwrap(), wanted, "{key}");
        assert!(!dead.end(key, Became::Dropped).unwrap());
    }
    // The request comes again and is delivered this time; and only the last entries are remembered.
    dead.keep("0-e-1", "400", b"body").unwrap();
    assert!(dead.end("0-e-1", Became::Taken).unwrap());
    assert_eq!(dead.became("0-e-1").unwrap(), Some(Became::Taken));
    for number in 10..10 + gone::MOST {
        let key = format!("0-e-{number}");
        dead.keep(&key, "400", b"body").unwrap();
        assert!(dead.end(&key, Became::Dropped).unwrap());
    }
    let dead = open();
    assert_eq!(
        (dead.became("0-e-1").unwrap(), dead.became("0-e-10").unwrap()),
        (None, Some(Became::Dropped))
    );
}

/// If the process is killed between the two, the letter is still there and can be dropped again.
#[test]
fn no_letter_of_a_shard_is_gone_without_what_became_of_it() {
    let (store, fails) = (Arc::<Store>::default(), Arc::new(AtomicU64::new(0)));
    for number in 0.. {
        let failing = fails.clone();
        let owner = store.take_with(move |step| {
            let is_change =
                matches!(step, Step::Create | Step::Write | Step::Rename | Step::Remove | Step::Sync);
            match is_change && failing.fetch_sub(1, Relaxed) == 1 {
                true => Err(crate::storage::shard_store::fenced()),
                false => Ok(()),
            }
        });
        let dead = open_on(&Disk::of_shard_store(owner), Path::new("dead-letters"));
        fails.store(u64::MAX, Relaxed);
        let key = format!("0-e-{number}");
        dead.keep(&key, "400", b"body").unwrap();
        fails.store(number + 1, Relaxed);
        let is_done = dead.end(&key, Became::Dropped).is_ok();
        fails.store(u64::MAX, Relaxed);
        let next = open_on(&Disk::of_shard_store(store.take()), Path::new("dead-letters"));
        let is_there = next.body(&key).unwrap().is_some();
        assert!(is_there || next.became(&key).unwrap() == Some(Became::Dropped), "at call {number}");
        if is_done {
            assert!(!is_there && number > 4);
            break;
        }
    }
}

/// While there is any letter, each delivery checks for one to remove, and there may be many letters.
#[test]
fn the_folder_is_listed_once_however_many_letters_come_and_go() {
    let (store, lists) = (Arc::<Store>::default(), Arc::new(AtomicU64::new(0)));
    let counted = lists.clone();
    let owner = store.take_with(move |step| {
        counted.fetch_add(u64::from(step == Step::List), Relaxed);
        Ok(())
    });
    let dead = open_on(&Disk::of_shard_store(owner), Path::new("dead-letters"));
    for number in 0..20 {
        dead.keep(&format!("0-e-{number}"), "400", b"body").unwrap();
        dead.let_go(&format!("0-e-{}", 100 + number), b"body").unwrap();
    }
    assert!(dead.end("0-e-3", Became::Dropped).unwrap());
    assert_eq!((lists.load(Relaxed), dead.count()), (1, 19));
    assert_eq!(dead.list().unwrap().len(), 19);
}

/// In a folder, the next delivery notices that letters were moved out by hand.
#[test]
fn letters_that_are_moved_out_are_counted_no_more_also_where_nobody_lists_them() {
    let folder = tempfile::tempdir().unwrap();
    let dead = open(folder.path());
    dead.keep("k", "400", b"body").unwrap();
    dead.keep("l", "400", b"body").unwrap();
    std::thread::sleep(std::time::Duration::from_millis(20)); // the folder's time changes only with the clock's ticks
    std::fs::rename(folder.path().join("k.json"), folder.path().join("k.copy")).unwrap();
    dead.let_go("m", b"body").unwrap();
    assert_eq!(dead.count(), 1);
}
