//! Tests servers that are killed, promoted, left alone or partitioned while an owner works.

use super::server::{wait_until, Server};
use super::work::{contents, take, wait, Work};
use super::{make, open, runs};
use nix::sys::signal::Signal;
use std::path::Path;
use std::sync::atomic::{AtomicBool, AtomicU64, Ordering::SeqCst};
use std::sync::Arc;
use std::thread::{self, sleep};
use std::time::{Duration, Instant};
use totxegun::cluster::terms::InstanceReport;
use totxegun::storage::shard_store::ShardStore;
use totxegun::store::postgres::{Copies, PostgresStore};

const WAITS: &str = "pg_stat_activity where wait_event = 'SyncRep'";

struct Pair {
    servers: [Server; 2],
    primary: usize,
}

impl Pair {
    fn start() -> Option<Pair> {
        let first = Server::start("")?;
        let second = first.standby();
        Some(Pair { servers: [first, second], primary: 0 })
    }

    fn primary(&mut self) -> &mut Server {
        &mut self.servers[self.primary]
    }

    fn standby(&mut self) -> &mut Server {
        &mut self.servers[1 - self.primary]
    }

    fn address(&self) -> String {
        let [first, second] = &self.servers;
        format!("postgres://postgres@127.0.0.1:{},127.0.0.1:{}/postgres", first.port, second.port)
    }

    fn store(&self) -> PostgresStore {
        make(&self.address());
        open(&self.address(), Copies::Two)
    }

    /// Makes the standby the primary, and the old primary its standby.
    fn go_over(&mut self) {
        self.standby().promote();
        self.primary = 1 - self.primary;
        let [first, second] = &mut self.servers;
        match self.primary {
            0 => second.be_standby_of(first),
            _ => first.be_standby_of(second),
        }
    }
}

/// The fault of a round.
fn fault(pair: &mut Pair, round: u64) -> &'static str {
    let backends = "from pg_stat_activity where application_name = 'totxegun'";
    match round % 5 {
        0 => {
            pair.primary().ask(&format!("select pg_terminate_backend(pid) {backends}"));
            "backends terminated"
        }
        1 => {
            pair.standby().hold(Signal::SIGSTOP);
            sleep(Duration::from_secs(2));
            pair.standby().hold(Signal::SIGCONT);
            "standby held"
        }
        2 => {
            pair.standby().hold(Signal::SIGSTOP);
            for _ in 0..3 {
                sleep(Duration::from_millis(200));
                pair.primary().ask(&format!("select pg_cancel_backend(pid) from {WAITS}"));
            }
            pair.standby().hold(Signal::SIGCONT);
            "waits cancelled"
        }
        3 => {
            pair.primary().kill();
            pair.primary().run();
            "primary killed and started"
        }
        _ => {
            pair.primary().kill();
            pair.go_over();
            "primary killed, standby promoted"
        }
    }
}

#[test]
fn what_a_sync_said_yes_to_is_there_whatever_befalls_the_servers() {
    let Some(mut pair) = Pair::start() else { return };
    let store = pair.store();
    let (stop, done) = (Arc::<AtomicBool>::default(), Arc::<AtomicU64>::default());
    let (ends, count) = (stop.clone(), done.clone());
    let mut work = Work::take(&store, 0, 1);
    let working = thread::spawn(move || {
        while !ends.load(SeqCst) {
            assert!(work.round(), "nobody took the shard");
            work.check();
            count.store(work.syncs, SeqCst);
        }
        work
    });
    let rounds = runs(5, 10);
    for round in 0..rounds {
        let before = done.load(SeqCst);
        wait_until("it works", || done.load(SeqCst) > before + 3 || working.is_finished());
        let begun = Instant::now();
        let what = fault(&mut pair, round);
        let before = done.load(SeqCst);
        wait_until("it goes on", || done.load(SeqCst) > before + 1 || working.is_finished());
        println!("round {round}: {what}, went on {:.1} s after its begin", begun.elapsed().as_secs_f64());
    }
    stop.store(true, SeqCst);
    let work = working.join().expect("it found what it wrote");
    let (_, found) = take(&store, 0);
    assert!(found == work.synced);
    let counts = store.counts();
    println!(
        "{rounds} faults, {} syncs, {} answers in doubt: nothing is lost",
        work.syncs,
        counts.doubts.load(SeqCst)
    );
    assert_eq!(counts.vanished.load(SeqCst), 0);
}

/// PostgreSQL then reports success, but the commit is on one server alone.
#[test]
fn a_commit_that_was_cancelled_in_the_wait_for_its_standby_is_no_answer() {
    let Some(mut pair) = Pair::start() else { return };
    let store = pair.store();
    for round in 0..2 {
        let mut work = Work::take(&store, round as u16, round);
        assert!(work.round());
        pair.standby().kill();
        let working = thread::spawn(move || {
            assert!(work.round());
            work
        });
        for _ in 0..2 {
            let waits = format!("select count(*) from {WAITS}");
            wait_until("it waits for the standby", || {
                pair.primary().ask(&waits) == "1" || working.is_finished()
            });
            pair.primary().ask(&format!("select pg_cancel_backend(pid) from {WAITS}"));
            sleep(Duration::from_millis(300));
            assert!(!working.is_finished(), "a commit without its standby was answered");
        }
        pair.primary().kill();
        pair.standby().run();
        pair.go_over();
        let work = working.join().unwrap();
        assert!(take(&store, round as u16).1 == work.synced);
    }
}

/// An operator or a cluster manager empties the setting so that a primary can go on alone. Waiting commits then end at
/// once.
#[test]
fn nothing_is_answered_once_the_server_asks_for_no_standby_any_more() {
    let Some(mut pair) = Pair::start() else { return };
    let store = Arc::new(pair.store());
    let mut work = Work::take(&store, 0, 1);
    assert!(work.round());
    wait(store.heartbeat("a", "h:1", "h:1", InstanceReport::default(), 0)).unwrap();
    pair.standby().kill();
    let working = thread::spawn(move || {
        assert!(work.round());
        work
    });
    let waits = format!("select count(*) from {WAITS}");
    wait_until("it waits for the standby", || pair.primary().ask(&waits) == "1" || working.is_finished());
    pair.primary().ask("alter system set synchronous_standby_names = ''");
    pair.primary().ask("select pg_reload_conf()");
    let few = |refused: String| refused.contains("synchronous_standby_names is empty");
    wait_until("a beat is no answer", || {
        wait(store.heartbeat("a", "h:1", "h:1", InstanceReport::default(), 0))
            .is_err_and(|doubt| few(doubt.to_string()))
    });
    sleep(Duration::from_secs(1));
    assert!(!working.is_finished(), "a commit that is on one server was answered");
    assert!(wait(store.take(1, 0, "a")).is_err_and(|doubt| few(doubt.to_string())));
    let alone = open(&pair.primary().address(), Copies::One);
    assert!(
        wait(alone.heartbeat("b", "h:1", "h:1", InstanceReport::default(), 0)).is_ok(),
        "that one was told that it may"
    );
    pair.standby().run();
    pair.primary().ask("alter system reset synchronous_standby_names");
    pair.primary().ask("select pg_reload_conf()");
    let work = working.join().unwrap();
    assert!(take(&store, 0).1 == work.synced);
    assert_eq!(store.counts().vanished.load(SeqCst), 0);
}

/// Otherwise a sync would say that the shard is still its owner's, although the server may be left behind.
#[test]
fn a_sync_of_nothing_waits_for_the_standby_too() {
    let Some(mut pair) = Pair::start() else { return };
    let store = pair.store();
    let mut work = Work::take(&store, 0, 1);
    assert!(work.round());
    pair.standby().kill();
    let syncing = thread::spawn(move || assert!(work.sync()));
    sleep(Duration::from_secs(1));
    assert!(!syncing.is_finished(), "a commit without its standby was answered");
    pair.standby().run();
    syncing.join().unwrap();
}

/// Otherwise each heartbeat would break off all connections while the server waits for another standby.
#[test]
fn a_beat_waits_for_a_standby_of_a_server_that_is_there() {
    let Some(server) = Server::start("") else { return };
    make(&server.address());
    let store = Arc::new(open(&server.address(), Copies::One));
    assert!(wait(store.heartbeat("a", "h:1", "h:1", InstanceReport::default(), 0)).is_ok());
    server.ask("alter system set synchronous_standby_names = 'nobody'");
    server.ask("select pg_reload_conf()");
    let of = store.clone();
    let beating =
        thread::spawn(move || wait(of.heartbeat("a", "h:1", "h:1", InstanceReport::default(), 1)).is_ok());
    sleep(Duration::from_secs(12));
    assert!(!beating.is_finished(), "it was broken off");
    server.ask("alter system reset synchronous_standby_names");
    server.ask("select pg_reload_conf()");
    assert!(beating.join().unwrap());
}

/// Otherwise, while a shard is opened and there is no standby, the writes of all shards would be broken off every few seconds.
#[test]
fn who_asks_how_many_copies_there_are_breaks_no_connection_of_those_that_wait_for_one() {
    let Some(server) = Server::start("") else { return };
    make(&server.address());
    let store = Arc::new(open(&server.address(), Copies::One));
    let term = wait(store.take(0, 0, "a")).unwrap().unwrap();
    server.ask("alter system set synchronous_standby_names = 'nobody'");
    server.ask("select pg_reload_conf()");
    let opener = store.clone();
    let opening = thread::spawn(move || opener.shard_store(0, term).is_ok());
    let waits = format!("select count(*) from {WAITS}");
    wait_until("it waits for the standby", || server.ask(&waits) == "1");
    assert!(wait(store.copies()).is_err(), "it waits behind that");
    sleep(Duration::from_secs(1));
    assert_eq!(store.counts().doubts.load(SeqCst), 0, "it was broken off");
    assert_eq!(wait(store.copies()).unwrap(), Some(1), "by another connection");
    server.ask("alter system reset synchronous_standby_names");
    server.ask("select pg_reload_conf()");
    assert!(opening.join().unwrap());
}

/// Otherwise a new owner would rely on what is lost with the server.
#[test]
fn what_a_server_shows_after_a_restart_is_not_believed_without_its_standby() {
    let Some(mut pair) = Pair::start() else { return };
    let store = Arc::new(pair.store());
    for round in 0..2 {
        let shard = round as u16;
        let mut first = Work::take(&store, shard, round);
        assert!(first.round());
        pair.standby().kill();
        let working = thread::spawn(move || {
            while first.round() {}
            first
        });
        let waits = format!("select count(*) from {WAITS}");
        wait_until("it waits for the standby", || pair.primary().ask(&waits) == "1");
        pair.primary().kill();
        pair.primary().run();
        let taker = store.clone();
        let taking = thread::spawn(move || take(&taker, shard));
        sleep(Duration::from_secs(1));
        assert!(!taking.is_finished(), "a shard was taken without a standby");
        pair.standby().run();
        let (_, found) = taking.join().unwrap();
        let first = working.join().unwrap();
        assert!(first.is_found(&found), "round {round}");
    }
}

/// Otherwise a start would rely on what is lost with the server.
#[test]
fn what_a_start_writes_or_reads_is_not_believed_without_its_standby() {
    let Some(mut pair) = Pair::start() else { return };
    let store = Arc::new(pair.store());
    pair.standby().kill();
    let asks = |ask: fn(&PostgresStore) -> String| {
        let store = store.clone();
        thread::spawn(move || ask(&store))
    };
    let first = asks(|store| store.set_sink("", "one").unwrap());
    let waits = format!("select count(*) from {WAITS}");
    wait_until("it waits for the standby", || pair.primary().ask(&waits) == "1" || first.is_finished());
    pair.primary().ask(&format!("select pg_cancel_backend(pid) from {WAITS}"));
    sleep(Duration::from_millis(300));
    assert!(!first.is_finished(), "a commit without its standby was believed");
    pair.primary().kill();
    pair.primary().run();
    assert_eq!(pair.primary().ask("select sink from totxegun_store.cluster"), "one", "it shows what may go");
    let reads: [fn(&PostgresStore) -> String; 3] = [
        |store| store.sink().unwrap(),
        |store| store.set_sink("", "other").unwrap(),
        |store| store.agree("integer-unit=auto").map(|()| "one".into()).unwrap(),
    ];
    let reads = reads.map(asks);
    sleep(Duration::from_secs(1));
    assert!(reads.iter().all(|one| !one.is_finished()), "what may go was believed");
    pair.standby().run();
    for one in [first].into_iter().chain(reads) {
        assert_eq!(one.join().unwrap(), "one");
    }
}

/// It accepts writes and completes none. Its clients leave it for the promoted server, and don't read from it any more.
#[test]
fn a_primary_on_the_wrong_side_answers_nobody_and_is_left() {
    let Some(mut pair) = Pair::start() else { return };
    let store = pair.store();
    let mut work = Work::take(&store, 0, 5);
    (0..3).for_each(|_| assert!(work.round()));
    assert!(contents(&*work.shard_store) == work.now);
    pair.standby().promote();
    let third = pair.standby().standby();
    let begun = Instant::now();
    assert!(work.round());
    println!("it was left after {:.0} s", begun.elapsed().as_secs_f64());
    (0..20).for_each(|_| assert!(work.round()));
    assert!(contents(&*work.shard_store) == work.now, "it was read where it was left behind");
    pair.primary().kill();
    assert!(take(&store, 0).1 == work.synced);
    drop(third);
}

#[test]
fn a_shard_waits_for_a_database_that_is_gone_and_no_longer_than_it_is_wanted() {
    let Some(mut server) = Server::start("") else {
        return;
    };
    make(&server.address());
    let store = open(&server.address(), Copies::One);
    let mut work = Work::take(&store, 0, 1);
    assert!(work.round());
    server.kill();
    let shard_store = work.shard_store.clone();
    let working = thread::spawn(move || {
        assert!(work.round());
        work
    });
    wait_until("it waits", || shard_store_waits(&shard_store));
    assert!(
        wait(store.shards()).is_err()
            && wait(store.heartbeat("a", "h", "h", InstanceReport::default(), 0)).is_err()
    );
    server.run();
    let mut work = working.join().unwrap();
    assert_eq!(totxegun::storage::shard_store::ShardStore::under_way(&*shard_store), Duration::ZERO);
    server.kill();
    let shard_store = work.shard_store.clone();
    let ending = thread::spawn(move || assert!(!work.sync(), "it is lost"));
    wait_until("it waits", || shard_store_waits(&shard_store));
    shard_store.fence_off();
    ending.join().unwrap();
}

/// As while the process ends.
#[test]
fn a_shard_is_read_and_written_though_nobody_has_the_store_any_more() {
    let Some(server) = Server::start("") else { return };
    make(&server.address());
    let store = open(&server.address(), Copies::One);
    let shard_store = take(&store, 0).0;
    let file = shard_store.create(Path::new("journal/1")).unwrap();
    // The first piece is not in memory any more.
    shard_store.write_at(file, &vec![7; 6 << 20], 0).unwrap();
    shard_store.sync().unwrap();
    drop(store);
    let mut first = [0];
    assert_eq!(shard_store.read_at(file, &mut first, 0).unwrap(), 1);
    assert_eq!(first, [7]);
    shard_store.write_at(file, &[8], 0).unwrap();
    shard_store.sync().unwrap();
}

fn shard_store_waits(shard_store: &totxegun::store::postgres::PostgresShardStore) -> bool {
    totxegun::storage::shard_store::ShardStore::under_way(shard_store) > Duration::from_millis(500)
}
