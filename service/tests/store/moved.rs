//! Tests what a store says while a folder is moved into it, and afterwards.

use super::server::{wait_until, Server};
use super::work::{take, wait};
use super::{make, open, opened};
use std::path::Path;
use std::thread;
use std::time::Duration;
use totxegun::cluster::terms::InstanceReport;
use totxegun::storage::shard_store::{is_fenced, ShardStore};
use totxegun::storage::{Durability, Folder};
use totxegun::store::moving::from_folder;
use totxegun::store::postgres::{address, Copies, StoreState};

fn refused(text: &str, part: &str) {
    match opened(&address(text).unwrap(), Copies::One, "integer-unit=auto") {
        Ok(_) => panic!("it was opened: {part}"),
        Err(fault) => assert!(fault.to_string().contains(part), "{part} in {fault}"),
    }
}

fn standing(is_filling: bool) -> StoreState {
    StoreState { is_filling, id: "0123456789abcdef".into(), folder: "/data".into() }
}

#[test]
fn nobody_takes_a_shard_or_starts_while_a_store_is_filled_but_who_fills_it() {
    let Some(server) = Server::start("") else { return };
    make(&server.address());
    let store = open(&server.address(), Copies::One);
    let before = store.standing().unwrap();
    assert!(!before.is_filling);
    let (owner, _) = take(&store, 2);
    let filling = standing(true);
    for _ in 0..2 {
        let begun = store.begin_filling(&before, &filling).unwrap();
        assert_eq!(begun, Some(filling.clone()), "a doubt has it called twice");
    }
    assert_eq!(store.change(&before, &before).unwrap(), filling, "it is no more as it was seen");
    owner.create(Path::new("journal/1")).unwrap();
    assert!(is_fenced(&owner.sync().unwrap_err()), "who had a shard writes no more");
    assert_eq!(wait(store.take(1, 1, "a")).unwrap(), None);
    refused(&server.address(), "folder /data is being moved into this store");
    assert!(store.take_to_move(1, "f00").is_err(), "another move");
    assert_eq!(store.take_to_move(2, "0123456789abcdef").unwrap(), 3);
    store.release_moved(2, 3).unwrap();
    assert!(store.release_moved(2, 2).is_err(), "another has it");
    store.change(&filling, &standing(false)).unwrap();
    assert_eq!(wait(store.take(1, 1, "a")).unwrap(), Some(2));
    assert!(store.take_to_move(1, "0123456789abcdef").is_err(), "the move has come to its end");
}

/// The store was idle and empty when that was checked, but an instance takes a post before it learns that the store is
/// being filled.
#[test]
fn what_an_instance_takes_just_before_a_store_is_filled_stays() {
    let Some(server) = Server::start("") else { return };
    make(&server.address());
    let of_store = address(&server.address()).unwrap();
    let place = tempfile::tempdir().unwrap();
    drop(Folder::open(place.path(), Durability::Disk).unwrap().shard().unwrap());
    let moved = || from_folder(place.path(), &of_store, Copies::One).map_err(|why| why.to_string());
    let store = open(&server.address(), Copies::One);
    // An instance that is gone: it takes a while to see that its heartbeats have stopped.
    wait(store.heartbeat("gone", "h:1", "h:1", InstanceReport::default(), 0)).unwrap();
    thread::scope(|scope| {
        let moving = scope.spawn(moved);
        thread::sleep(Duration::from_secs(1));
        let lock = "select 1 from totxegun_store.cluster for update; select pg_sleep(5)";
        scope.spawn(|| server.ask(lock));
        let waits = "select count(*) from pg_stat_activity where query like 'update totxegun_store.cluster set filling%'
            and wait_event_type = 'Lock'";
        wait_until("it looked, and waits for the lock", || server.ask(waits) == "1");
        let (shard_store, _) = take(&store, 0);
        let file = shard_store.create(Path::new("journal/1")).unwrap();
        shard_store.write_at(file, b"post", 0).unwrap();
        shard_store.sync().expect("the post is answered");
        while !moving.is_finished() {
            wait(store.heartbeat("a", "h:1", "h:1", InstanceReport::default(), 0)).unwrap();
            thread::sleep(Duration::from_millis(300));
        }
        let why = moving.join().unwrap().unwrap_err();
        println!("the first call: {why}");
    });
    wait(store.leave("a")).unwrap();
    let why = moved().expect_err("the store is in use");
    assert!(why.contains("the store is not empty"), "{why}");
    assert!(!store.standing().unwrap().is_filling);
    assert_eq!(take(&store, 0).1[Path::new("journal/1")], b"post");
}

/// Otherwise, if a move was killed at its very end, nobody would ever know that the folder is in the store.
#[test]
fn a_move_that_was_killed_before_its_decision_is_decided_by_the_same_call_and_by_no_other_folder() {
    let Some(server) = Server::start("") else { return };
    make(&server.address());
    let of_store = address(&server.address()).unwrap();
    let place = tempfile::tempdir().unwrap();
    let (one, other) = (place.path().join("one"), place.path().join("other"));
    for path in [&one, &other] {
        drop(Folder::open(path, Durability::Disk).unwrap().shard().unwrap());
    }
    let moved = |path: &Path| from_folder(path, &of_store, Copies::One).map_err(|why| why.to_string());
    assert!(moved(&one).unwrap().is_some());
    let store = open(&server.address(), Copies::One);
    let counts = store.standing().unwrap();
    let filling = StoreState { is_filling: true, ..counts.clone() };
    store.change(&counts, &filling).unwrap(); // as before the kill
    let why = moved(&other).unwrap_err();
    assert!(why.contains(&format!("folder {} is being moved", one.display())), "{why}");
    for _ in 0..2 {
        assert_eq!(moved(&one).unwrap(), None);
        assert_eq!(store.standing().unwrap(), counts);
    }
    let why = Folder::open(&one, Durability::Disk).err().unwrap().to_string();
    assert!(why.contains("was moved into the store postgres://"), "{why}");
    let why = moved(&other).unwrap_err();
    assert!(why.contains("the store is not empty"), "{why}");
    let another = Folder::open(&other, Durability::Disk).unwrap();
    another.set_moved("postgres://u@h:1/d").unwrap();
    drop(another);
    let why = moved(&other).unwrap_err();
    assert!(
        why.contains("was moved into the store postgres://u@h:1/d"),
        "another store knows nothing of it: {why}"
    );
    // A move into this store was killed, and the folder went into another store.
    let third = Folder::open(&place.path().join("third"), Durability::Disk).unwrap();
    let begun = StoreState { is_filling: true, id: third.epoch(), ..counts.clone() };
    assert_eq!(store.change(&counts, &begun).unwrap(), begun);
    third.set_moved("postgres://u@h:1/d").unwrap();
    drop(third);
    let why = moved(&place.path().join("third")).unwrap_err();
    assert!(why.contains("was moved into the store postgres://u@h:1/d"), "{why}");
    assert_eq!(store.standing().unwrap(), begun, "both would count");
}
