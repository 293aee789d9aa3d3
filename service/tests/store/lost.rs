//! Tests that a store refuses a shard by name if it has lost some of its rows. No other instance owns the shard then,
//! so this must not count as a loss of ownership: the shard would be taken again and again, and nobody would be told
//! why.

use super::server::Server;
use super::work::taken;
use super::{make, open};
use std::io::ErrorKind;
use std::path::Path;
use std::sync::atomic::Ordering::SeqCst;
use totxegun::outbox::{Recents, Runs};
use totxegun::storage::shard_store::{self, ShardStore};
use totxegun::storage::Fault;
use totxegun::store::postgres::{Copies, PostgresStore};

fn made() -> Option<(Server, PostgresStore)> {
    let server = Server::start("")?;
    make(&server.address());
    let store = open(&server.address(), Copies::One);
    Some((server, store))
}

/// Why the next owner can't open the shard. Empty if it can.
fn refusal(store: &PostgresStore) -> String {
    let refused = shard_store::open(taken(store, 0) as _, "e").err();
    assert!(!matches!(refused, Some(Fault::Fenced(_))), "the shard is its own");
    refused.map(|fault| fault.to_string()).unwrap_or_default()
}

/// Commits requests that wait for the sink.
fn commit(store: &PostgresStore, requests: usize) {
    let (journal, outbox, _dead) = shard_store::open(taken(store, 0) as _, "e").unwrap();
    let body = br#"{"resourceMetrics":[]}"#.to_vec();
    outbox.commit_with(&vec![body; requests], journal.roll().0, Runs::new(), &Recents::default()).unwrap();
    outbox.sync().unwrap();
}

#[test]
fn a_piece_that_is_gone_is_named_and_the_shard_stays_its_owners() {
    let Some((server, store)) = made() else { return };
    commit(&store, 1);
    let owner = taken(&store, 0);
    let file = owner.open(Path::new("outbox/000000000001.seg")).unwrap();
    server.ask("delete from totxegun_store.piece");
    let gone = owner.read_at(file, &mut [0; 8], 0).unwrap_err();
    assert_eq!(gone.kind(), ErrorKind::InvalidData, "{gone}");
    owner.sync().expect("the shard is its own");
    let fault = owner.open_files("e").err().unwrap();
    assert!(shard_store::is_fenced(&owner.sync().unwrap_err()), "nothing of it is written any more");
    let text = fault.to_string();
    let says = ["outbox/000000000001.seg", "shard 0 is not served", "restore that row"];
    assert!(matches!(fault, Fault::Io { .. }) && says.iter().all(|part| text.contains(part)), "{text}");
}

/// Each of the two has an alert of its own.
#[test]
fn what_the_store_has_lost_is_not_counted_as_the_taking_of_another() {
    let Some((server, store)) = made() else { return };
    let owner = taken(&store, 0);
    let file = owner.create(Path::new("journal/1")).unwrap();
    owner.write_at(file, b"a", 0).unwrap();
    owner.sync().unwrap();
    server.ask("delete from totxegun_store.piece");
    server.ask("select pg_terminate_backend(pid) from pg_stat_activity where application_name = 'totxegun'");
    owner.write_at(file, b"b", 1).unwrap();
    assert!(shard_store::is_fenced(&owner.sync().unwrap_err()), "it does not go on without what it had");
    let counts = store.counts();
    assert_eq!((counts.vanished.load(SeqCst), counts.fenced.load(SeqCst)), (1, 0));
}

/// Its next requests would have keys that were used, so the sink would take them for those that it has.
#[test]
fn a_shard_without_the_files_of_which_the_sink_has_requests_is_not_begun_anew() {
    let Some((server, store)) = made() else { return };
    commit(&store, 3);
    server.ask("insert into totxegun_store.delivered values (0, 1, 4)");
    let older = refusal(&store);
    assert!(older.contains("ends at request 3, but the sink has requests up to number 4"), "{older}");
    server.ask("delete from totxegun_store.piece");
    server.ask("delete from totxegun_store.file");
    let gone = refusal(&store);
    assert!(gone.contains("has no segments, although the sink has its requests up to number 4"), "{gone}");
    server.ask("delete from totxegun_store.delivered");
    let begun = refusal(&store);
    assert!(begun.contains("has no segments, although the shard had files"), "{begun}");
    assert!(begun.contains("totxegun store restored"), "{begun}");
    assert_eq!(store.restored(&[]).unwrap(), [0]);
    assert_eq!(refusal(&store), "", "an operator has said that it begins with nothing");
    assert_eq!(store.restored(&[]).unwrap(), [0u16; 0]);
}

/// Without its own rows the shard can't be read, and what is left of it is deleted.
#[test]
fn a_shard_begins_with_nothing_where_an_operator_says_so() {
    let Some((server, store)) = made() else { return };
    commit(&store, 3);
    server.ask(
        "delete from totxegun_store.piece where number = (select min(number) from totxegun_store.piece)",
    );
    assert!(refusal(&store).contains("was changed"), "its rows are not all there");
    assert!(store.restored(&[64]).unwrap_err().to_string().contains("there is no shard 64"));
    assert_eq!(store.restored(&[0]).unwrap(), [0]);
    assert_eq!(refusal(&store), "");
    commit(&store, 1);
    assert_eq!(store.restored(&[]).unwrap(), [0u16; 0], "it has files again");
    assert_eq!(refusal(&store), "");
}
