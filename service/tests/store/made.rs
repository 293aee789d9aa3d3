//! Tests what a start refuses, and what a store says of itself.

use super::server::Server;
use super::work::wait;
use super::{make, open, opened, SHARDS};
use std::thread;
use std::time::Duration;
use totxegun::cluster::terms::InstanceReport;
use totxegun::store::postgres::{address, Copies, PostgresStore, StoreFault};

fn refused(text: &str, copies: Copies, reading: &str, part: &str) {
    match opened(&address(text).unwrap(), copies, reading) {
        Ok(_) => panic!("it was opened: {part}"),
        Err(fault) => assert!(fault.to_string().contains(part), "{part} in {fault}"),
    }
}

#[test]
fn a_start_refuses_what_is_no_store_or_another_or_can_lose() {
    let Some(server) = Server::start("") else { return };
    let one = server.address();
    refused(&one, Copies::One, "a", "store init");
    refused("postgres://postgres@127.0.0.1:1/postgres", Copies::One, "a", "127.0.0.1:1");
    make(&one);
    let again = PostgresStore::make(&address(&one).unwrap(), SHARDS);
    assert!(matches!(again, Err(StoreFault::IsThere(_))));
    refused(&one, Copies::Two, "b", "no synchronous standby");
    drop(opened(&address(&one).unwrap(), Copies::One, "a").unwrap());
    refused(&one, Copies::One, "b", "There: a");
    server.ask("alter system set fsync = off");
    server.ask("select pg_reload_conf()");
    refused(&one, Copies::Two, "a", "fsync is off");
    server.ask("alter role postgres set synchronous_commit = 'local'");
    server.ask("alter system set fsync = on");
    server.ask("alter system set synchronous_standby_names = 'nobody'");
    let versions = |version| {
        format!("set synchronous_commit = 'local'; update totxegun_store.cluster set version = {version}")
    };
    server.ask("select pg_reload_conf()");
    for other in [0, 2, 3, 4] {
        server.ask(&versions(other));
        let told = format!("has format version {other}, and this totxegun reads only 1: ");
        refused(&one, Copies::Two, "a", &told);
    }
    server.ask(&versions(1));
    // A start would wait: there is no standby, so no commit ends.
    let store = PostgresStore::look_into(&address(&one).unwrap(), Copies::Two).unwrap();
    assert_eq!(wait(store.copies()).unwrap(), Some(1));
}

#[test]
fn who_may_not_look_at_standbys_does_not_know_how_many_copies_there_are() {
    let Some(server) = Server::start("") else { return };
    let standby = server.standby();
    make(&server.address());
    server.ask("create role plain login");
    server.ask("grant usage on schema totxegun_store to plain");
    server.ask("grant all on all tables in schema totxegun_store to plain");
    let plain = server.address().replace("//postgres@", "//plain@");
    assert_eq!(wait(open(&plain, Copies::Two).copies()).unwrap(), None);
    assert_eq!(wait(open(&server.address(), Copies::Two).copies()).unwrap(), Some(2));
    drop(standby);
}

#[test]
fn the_first_says_where_all_deliver_to_and_beats_say_what_is_refused() {
    let Some(server) = Server::start("") else { return };
    make(&server.address());
    let store = open(&server.address(), Copies::One);
    assert_eq!(store.sink().unwrap(), "");
    assert_eq!(store.set_sink("", "one").unwrap(), "one");
    assert_eq!(store.set_sink("", "other").unwrap(), "one", "another was first");
    assert_eq!(store.set_sink("one", "other").unwrap(), "other");
    let told = InstanceReport {
        refused: [(3, "no \"memory\"".to_string())].into(),
        clock: Some(-7),
        reached: Some(["b".to_string()].into()),
    };
    wait(store.heartbeat("a", "h:1", "h:1", told.clone(), 0)).unwrap();
    let (instances, clock) = wait(store.instances()).unwrap();
    assert_eq!(instances[0].told, told);
    assert!(clock.unwrap().abs() < 1_000_000, "its server has the clock of this machine: {clock:?}");
    wait(store.heartbeat("a", "h:1", "h:1", InstanceReport::default(), 0)).unwrap();
    let again = &wait(store.instances()).unwrap().0[0];
    assert_eq!((again.beat, &again.told), (2, &InstanceReport::default()));
}

/// The server was there when the start began. Without the repeat the start would fail.
#[test]
fn what_a_start_asks_is_asked_again_where_the_server_has_gone_away() {
    let Some(mut server) = Server::start("") else {
        return;
    };
    make(&server.address());
    let store = open(&server.address(), Copies::One);
    server.kill();
    thread::scope(|scope| {
        let asking = scope.spawn(|| {
            assert_eq!(store.sink().unwrap(), "");
            assert_eq!(store.set_sink("", "one").unwrap(), "one");
            store.agree("integer-unit=auto").unwrap();
        });
        thread::sleep(Duration::from_secs(2));
        assert!(!asking.is_finished());
        server.run();
    });
    let other = store.agree("integer-unit=off").unwrap_err();
    assert!(matches!(other, StoreFault::Reading { .. }), "{other}");
}

#[test]
fn what_waiting_does_not_mend_is_told_from_a_server_that_is_away() {
    let Some(server) = Server::start("") else { return };
    let fault = |text: &str| {
        let opened = opened(&address(text).unwrap(), Copies::One, "");
        opened.err().expect("it can't be opened")
    };
    assert!(fault("postgres://u@127.0.0.1:1/d").may_pass());
    let nowhere = server.address_of("nowhere");
    for lasting in [nowhere.as_str(), &server.address()] {
        let fault = fault(lasting);
        assert!(!fault.may_pass(), "{fault}");
    }
}
