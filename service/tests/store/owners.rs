//! Tests who owns a shard: one of several instances that take it, and after that nobody else writes.

use super::proxy::Proxy;
use super::server::{wait_until, Server};
use super::work::{contents, take, wait, Chance, Contents, Work};
use super::{make, open, runs};
use std::path::Path;
use std::sync::atomic::Ordering::SeqCst;
use std::sync::{Arc, Mutex};
use std::thread;
use std::time::{Duration, Instant};
use totxegun::cluster::terms::InstanceReport;
use totxegun::storage::shard_store::{is_fenced, ShardStore};
use totxegun::store::postgres::{Copies, PostgresStore};

/// Works until the shard is lost or `most` rounds are done, and notes what was confirmed as durable.
fn works(mut work: Work, most: u64, said: Arc<Mutex<Contents>>) -> thread::JoinHandle<Work> {
    thread::spawn(move || {
        for _ in 0..most {
            if !work.round() {
                break;
            }
            said.lock().unwrap().clone_from(&work.synced);
        }
        work
    })
}

#[test]
fn an_owner_that_is_stopped_in_any_step_writes_no_more_once_another_has_the_shard() {
    let Some(server) = Server::start("") else { return };
    let proxy = Proxy::start(server.port);
    make(&server.address());
    let (through, direct) = (open(&proxy.address(), Copies::One), open(&server.address(), Copies::One));
    let (mut lost, mut later) = (0, 0);
    let rounds = runs(13, 40);
    for round in 0..rounds {
        let shard = (round % 8) as u16;
        let first = Work::take(&through, shard, round);
        let said = Arc::new(Mutex::new(first.synced.clone()));
        proxy.stop_after(round % 13);
        let works = works(first, 9, said.clone());
        wait_until("it is stopped", || proxy.holds());
        let said_before = said.lock().unwrap().clone();
        let mut second = Work::take(&direct, shard, round + 1000);
        let found = second.synced.clone();
        (0..3).for_each(|_| assert!(second.round()));
        proxy.go_on();
        let first = works.join().unwrap();
        assert!(!first.is_found(&Contents::new()) || first.synced.is_empty() || found.is_empty());
        assert!(
            first.synced == found,
            "round {round}: it said yes to what the next owner has not, or the other way"
        );
        lost += u32::from(first.begun.is_some());
        later += u32::from(first.synced != said_before);
        let (_, now) = take(&direct, shard);
        assert!(now == second.synced, "round {round}: who had lost the shard wrote to it");
    }
    println!("stopped in {rounds} rounds: {lost} lost, {later} had been done and were told later");
    assert_eq!(u64::from(lost), rounds);
}

/// A statement that is still on its way when its connection breaks may be executed at any time, under the owner's own
/// term.
#[test]
fn what_comes_late_of_a_broken_connection_is_not_done() {
    let Some(server) = Server::start("") else { return };
    let proxy = Proxy::start(server.port);
    make(&server.address());
    let store = open(&proxy.address(), Copies::One);
    let direct = open(&format!("{}?application_name=direct", server.address()), Copies::One);
    let backends = "select coalesce(string_agg(pid::text, ','), '0') from pg_stat_activity where application_name = 'totxegun'";
    let mut chance = Chance(7);
    let mut held = 0;
    for round in 0..runs(10, 40) {
        let shard = (round % 8) as u16;
        let mut work = Work::take(&store, shard, round);
        assert!(work.round());
        let before = server.ask(backends);
        proxy.stop_after(chance.below(3));
        let working = thread::spawn(move || {
            assert!(work.round() && work.round());
            work
        });
        wait_until("a statement is held", || proxy.holds());
        proxy.cut();
        let mut work = working.join().unwrap();
        (0..chance.below(5)).for_each(|_| assert!(work.round()));
        proxy.go_on();
        let left = format!("select count(*) from pg_stat_activity where pid in ({before})");
        wait_until("it is done", || server.ask(&left) == "0");
        let (next, found) = take(&direct, shard);
        assert!(found == work.synced, "round {round}: what came late was done");
        assert!(contents(&*next) == found);
        held += 1;
    }
    println!("{held} connections were cut, and what they held came late");
}

/// What keeps an earlier owner out is neither the next owner's files, which may be gone, nor that nobody had the shard
/// in between.
#[test]
fn who_had_a_shard_writes_no_more_though_nothing_is_left_of_the_next_owner() {
    let Some(server) = Server::start("") else { return };
    make(&server.address());
    let store = open(&server.address(), Copies::One);
    for is_handed_over in [false, true] {
        let shard = u16::from(is_handed_over);
        let mut first = Work::take(&store, shard, 1);
        (0..5).for_each(|_| assert!(first.round()));
        let connection_epoch =
            server.ask(&format!("select connection_epoch from totxegun_store.shard where shard = {shard}"));
        if is_handed_over {
            wait(store.release(shard, first.shard_store.term(), "next")).unwrap();
        }
        let (next, found) = take(&store, shard);
        assert!(found == first.synced && !found.is_empty());
        found.keys().for_each(|name| next.remove(name).unwrap());
        next.sync().unwrap();
        // Two owners may have the same connection epoch.
        server.ask(&format!(
            "update totxegun_store.shard set connection_epoch = {connection_epoch} where shard = {shard}"
        ));
        assert!(!first.round(), "handed over: {is_handed_over}");
        assert!(take(&store, shard).1.is_empty());
    }
}

/// The next owner's checkpoints delete files. Otherwise an earlier owner that wakes up would report them as lost by the
/// store.
#[test]
fn what_the_next_owner_has_deleted_is_no_loss_for_the_one_before() {
    let Some(server) = Server::start("") else { return };
    let proxy = Proxy::start(server.port);
    make(&server.address());
    let (store, direct) = (open(&proxy.address(), Copies::One), open(&server.address(), Copies::One));
    let (shard_store, _) = take(&store, 0);
    let file = shard_store.create(Path::new("journal/1")).unwrap();
    shard_store.write_at(file, b"a", 0).unwrap();
    shard_store.sync().unwrap();
    server.ask(
        "create function slow() returns trigger language plpgsql as $$ begin
            if new.place > 0 then perform pg_sleep(1); end if; return new; end $$",
    );
    server.ask(
        "create trigger slow before insert on totxegun_store.piece for each row execute function slow()",
    );
    // The retry has found that it still owns the shard, and then the connection goes silent.
    proxy.silence_at("as last (shard");
    shard_store.write_at(file, b"b", 1).unwrap();
    let writing = thread::spawn(move || shard_store.sync());
    let sleeps = "from pg_stat_activity where wait_event = 'PgSleep'";
    wait_until("it is on its way", || server.ask(&format!("select count(*) {sleeps}")) == "1");
    server.ask(&format!("select pg_terminate_backend(pid) {sleeps}"));
    wait_until("it is silent", || proxy.holds());
    let (next, found) = take(&direct, 0);
    found.keys().for_each(|name| next.remove(name).unwrap());
    next.sync().unwrap();
    proxy.go_on();
    assert!(is_fenced(&writing.join().unwrap().expect_err("the shard is another's")));
    let (vanished, fenced) = (&store.counts().vanished, &store.counts().fenced);
    assert_eq!((vanished.load(SeqCst), fenced.load(SeqCst)), (0, 1));
}

/// The sync needs two statements. The server takes the first, and has no room for the second.
#[test]
fn a_long_sync_is_there_wholly_or_not_at_all() {
    let Some(server) = Server::start("") else { return };
    make(&server.address());
    let store = open(&server.address(), Copies::One);
    let (shard_store, _) = take(&store, 0);
    let (name, mut chance) = (Path::new("journal/1"), Chance(1));
    let file = shard_store.create(name).unwrap();
    shard_store.write_at(file, b"before", 0).unwrap();
    shard_store.sync().unwrap();
    server.ask(
        "create function no_room() returns trigger language plpgsql as $$ begin
            if new.place > 16 << 20 then raise exception sqlstate '53100'; end if; return new; end $$",
    );
    server.ask(
        "create trigger no_room before insert on totxegun_store.piece for each row execute function no_room()",
    );
    let long: Vec<u8> = (0..20 << 20).map(|_| chance.below(256) as u8).collect();
    shard_store.write_at(file, &long, 6).unwrap();
    let syncing = thread::spawn(move || shard_store.sync());
    wait_until("it is tried again", || store.counts().doubts.load(SeqCst) > 0);
    let (_, found) = take(&store, 0);
    assert_eq!(found[name].len(), 6, "a part of it is there");
    assert!(syncing.join().unwrap().is_err(), "the shard is another's");
}

#[test]
fn one_of_those_that_take_a_shard_has_it() {
    let Some(server) = Server::start("") else { return };
    make(&server.address());
    let store = Arc::new(open(&server.address(), Copies::One));
    for term in 0..20 {
        let takers: Vec<_> = ["a", "b", "c", "d"]
            .map(|name| {
                let store = store.clone();
                thread::spawn(move || (name, wait(store.take(5, term, name)).unwrap()))
            })
            .into();
        let taken: Vec<_> = takers.into_iter().map(|taker| taker.join().unwrap()).collect();
        let won: Vec<_> = taken.iter().filter(|(_, term)| term.is_some()).collect();
        assert_eq!(won.len(), 1, "{taken:?}");
        assert_eq!(won[0].1, Some(term + 1));
        let shards = wait(store.shards()).unwrap();
        assert_eq!((shards[5].term, &shards[5].owner[..]), (term + 1, won[0].0));
    }
}

#[test]
fn beats_go_up_and_a_shard_is_given_away() {
    let Some(server) = Server::start("") else { return };
    make(&server.address());
    let store = open(&server.address(), Copies::One);
    for _ in 0..3 {
        wait(store.heartbeat("a", "h1:1", "h1:1", InstanceReport::default(), 0)).unwrap();
    }
    wait(store.heartbeat("b", "h2:1", "h2:1", InstanceReport::default(), 0)).unwrap();
    let mut instances = wait(store.instances()).unwrap().0;
    instances.sort_by(|one, other| one.name.cmp(&other.name));
    let seen: Vec<_> = instances.iter().map(|one| (&one.name[..], &one.address[..], one.beat)).collect();
    assert_eq!(seen, [("a", "h1:1", 3), ("b", "h2:1", 1)]);
    wait(store.leave("b")).unwrap();
    assert_eq!(wait(store.instances()).unwrap().0.len(), 1);
    wait(store.heartbeat("c", "h3:1", "h3:1", InstanceReport::default(), 0)).unwrap();
    assert!(!wait(store.remove_row("c", 0)).unwrap(), "it has beaten since");
    assert!(wait(store.remove_row("c", 1)).unwrap() && !wait(store.remove_row("c", 1)).unwrap());
    assert_eq!(wait(store.instances()).unwrap().0.len(), 1);
    wait(store.heartbeat("c", "h3:1", "h3:1", InstanceReport::default(), 0)).unwrap();
    assert_eq!(wait(store.instances()).unwrap().0.len(), 2, "it comes back");
    wait(store.leave("c")).unwrap();
    assert_eq!(wait(store.take(1, 0, "a")).unwrap(), Some(1));
    wait(store.release(1, 0, "a")).unwrap();
    assert_eq!(wait(store.shards()).unwrap()[1].owner, "a", "of another term");
    wait(store.release(1, 1, "b")).unwrap();
    assert_eq!(wait(store.shards()).unwrap()[1].owner, "a", "of another owner");
    wait(store.release(1, 1, "a")).unwrap();
    let shard = wait(store.shards()).unwrap().swap_remove(1);
    assert_eq!((shard.term, &shard.owner[..]), (1, ""));
    assert!(store.shard_store(1, 0).is_err(), "it has another term");
}

/// A store that was restored has lost the first take, and has then given the same term to another owner.
#[test]
fn of_two_owners_of_one_term_the_first_neither_opens_the_shard_nor_gives_it_away() {
    let Some(server) = Server::start("") else { return };
    make(&server.address());
    let (first, second) = (open(&server.address(), Copies::One), open(&server.address(), Copies::One));
    assert_eq!(wait(first.take(3, 0, "a")).unwrap(), Some(1));
    server.ask("update totxegun_store.shard set term = 0, owner = '', epoch = '' where shard = 3");
    assert_eq!(wait(second.take(3, 0, "b")).unwrap(), Some(1));
    assert!(first.shard_store(3, 1).is_err(), "it would write under the other's epoch");
    wait(first.release(3, 1, "a")).unwrap();
    assert_eq!(wait(second.shards()).unwrap()[3].owner, "b");
    let shard_store = second.shard_store(3, 1).unwrap();
    shard_store.create(Path::new("f")).unwrap();
    shard_store.sync().unwrap();
    assert!(second.shard_store(3, 1).is_ok() && first.shard_store(3, 1).is_err());
}

/// Otherwise that one and the later one would take the shards of their name from each other for ever.
#[test]
fn a_process_sees_an_earlier_one_of_its_name_however_many_began_between() {
    let Some(server) = Server::start("") else { return };
    make(&server.address());
    let store = open(&server.address(), Copies::One);
    let beat = |life: u64| wait(store.heartbeat("a", "h:1", "h:1", InstanceReport::default(), life)).unwrap();
    for number in 1..=12 {
        assert_eq!(beat(0), number);
        let of_first = || {
            beat(1);
            beat(number);
            wait(store.instances()).unwrap().0[0].lives.get(&1).copied()
        };
        let before = of_first();
        assert!(before.is_some() && of_first() > before, "by process {number}");
    }
}

/// An instance whose heartbeats wait longer counts as gone, and an operator's page is not shown meanwhile. A server that is not silent
/// to others may be waiting for its standby.
#[test]
fn a_question_to_a_silent_server_ends_soon_and_the_next_one_is_asked_anew() {
    let Some(server) = Server::start("") else { return };
    let proxy = Proxy::start(server.port);
    make(&server.address());
    let store = open(&proxy.address(), Copies::One);
    type Question = fn(&PostgresStore) -> bool;
    let questions: [Question; 4] = [
        |store| wait(store.heartbeat("a", "h:1", "h:1", InstanceReport::default(), 0)).is_ok(),
        |store| wait(store.shards()).is_ok(),
        |store| wait(store.instances()).is_ok(),
        |store| wait(store.copies()).is_ok(),
    ];
    for question in questions {
        assert!(question(&store), "it has a connection");
        proxy.stop_after(0);
        let begun = Instant::now();
        assert!(!question(&store));
        let took = begun.elapsed();
        assert!(took > Duration::from_secs(4) && took < Duration::from_secs(12), "{took:?}");
        proxy.go_on();
        wait_until("it is answered", || question(&store));
    }
}
