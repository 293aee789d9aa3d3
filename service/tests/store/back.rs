//! Tests a store that goes back: its tables are as they were before, but the sink, in another database, is not.

use super::server::Server;
use super::work::{taken, wait};
use super::{make, open};
use std::sync::Arc;
use totxegun::dead_letters::DeadLetters;
use totxegun::journal::Journal;
use totxegun::outbox::{Outbox, Recents, Runs};
use totxegun::sink::{self, AheadOfOutbox, DeliveryOutcome, Forwarded, Retention, Sink};
use totxegun::storage::shard_store::{self, ShardStore};
use totxegun::store::postgres::{Copies, PostgresStore};

const TABLES: [&str; 6] = ["cluster", "instance", "shard", "delivered", "file", "piece"];
const TOTALS: &str =
    "select coalesce(string_agg(name || '=' || total, ' ' order by name), '') from totxegun.totals";
const EPOCHS: &str = "select count(distinct epoch) || ' ' || count(distinct id) from totxegun.lives";

/// Copies the tables as they are now.
fn dump(server: &Server) {
    server.ask("create schema dump");
    for table in TABLES {
        server.ask(&format!("create table dump.{table} as select * from totxegun_store.{table}"));
    }
}

fn put_back(server: &Server) {
    for table in TABLES {
        server.ask(&format!(
            "delete from totxegun_store.{table}; insert into totxegun_store.{table} select * from dump.{table}"
        ));
    }
}

/// A shard's owner.
struct Owner {
    journal: Journal,
    outbox: Outbox,
    _dead: DeadLetters,
}

impl Owner {
    fn take(store: &PostgresStore) -> Owner {
        let (journal, outbox, _dead) =
            shard_store::open(taken(store, 0) as Arc<dyn ShardStore>, &store.cluster.epoch).unwrap();
        Owner { journal, outbox, _dead }
    }

    /// Makes a request with a point of this series.
    fn make(&self, name: &str, start: u64) {
        let body = format!(
            r#"{{"resourceMetrics":[{{"resource":{{"attributes":[]}},"scopeMetrics":[{{"metrics":[{{"name":"{name}","sum":{{"aggregationTemporality":1,"dataPoints":[{{"asInt":"5","attributes":[],"startTimeUnixNano":"{start}","timeUnixNano":"{}"}}],"isMonotonic":false}},"unit":""}}],"scope":{{"attributes":[],"name":"","version":""}}}}]}}]}}"#,
            start + 10
        );
        let next = self.journal.roll().0;
        self.outbox.commit_with(&[body.into_bytes()], next, Runs::new(), &Recents::default()).unwrap();
        self.outbox.sync().unwrap();
    }

    /// What the sink has beyond the outbox.
    fn begin(&self, sink: &Arc<dyn Sink>) -> AheadOfOutbox {
        wait(sink.goes_on(0, &self.outbox.epochs())).unwrap()
    }

    fn first(&self) -> Forwarded {
        let (waiting, body) = wait(self.outbox.first()).unwrap();
        Forwarded { shard: 0, epoch: self.outbox.epoch(), number: waiting.number, body }
    }

    /// Sends the first request that waits.
    fn send(&self, sink: &Arc<dyn Sink>) -> DeliveryOutcome {
        let request = self.first();
        let tenure = self.outbox.tenure();
        let fate = wait(sink.deliver_of(&request, tenure.as_ref()));
        self.outbox.acknowledge(request.number).unwrap();
        self.outbox.sync().unwrap();
        fate
    }
}

fn started() -> Option<(Server, PostgresStore, Arc<dyn Sink>)> {
    let server = Server::start("")?;
    server.ask("create database sink");
    make(&server.address());
    let store = open(&server.address(), Copies::One);
    let sink = sink::open(&server.address_of("sink").parse().unwrap(), Retention::default(), Arc::new(()));
    Some((server, store, sink.unwrap()))
}

#[test]
fn what_is_made_after_a_store_was_put_back_has_keys_that_no_sink_has() {
    let Some((server, store, sink)) = started() else { return };
    let totals = || server.ask_in("sink", TOTALS);
    let first = Owner::take(&store);
    assert_eq!(first.begin(&sink), AheadOfOutbox::default());
    for start in [10, 20] {
        first.make("a", start);
    }
    assert_eq!(first.send(&sink), DeliveryOutcome::Taken);
    dump(&server); // one request waits in it
    first.make("a", 30);
    first.make("b", 10);
    for _ in 0..3 {
        assert_eq!(first.send(&sink), DeliveryOutcome::Taken);
    }
    assert_eq!(totals(), "a=15 b=5");
    put_back(&server);
    let next = Owner::take(&store);
    let AheadOfOutbox { requests, since, until } = next.begin(&sink);
    assert_eq!(requests, 2, "those that it does not know");
    assert!(since.starts_with("20") && until >= since, "{since} {until}");
    next.make("c", 10);
    next.make("a", 30);
    assert_eq!(next.send(&sink), DeliveryOutcome::Taken, "the one that waited is a repeat");
    assert_eq!(next.send(&sink), DeliveryOutcome::Taken);
    let again = next.send(&sink);
    let DeliveryOutcome::Refused { reason } = again else { panic!("{again:?}") };
    assert!(reason.contains("its series has points until 40"), "{reason}");
    assert_eq!(totals(), "a=15 b=5 c=5", "nothing is lost, and nothing there twice");
    // The next owner continues the epoch, and only one other life has begun.
    let last = Owner::take(&store);
    assert_eq!(last.begin(&sink), AheadOfOutbox::default());
    last.make("c", 20);
    assert_eq!(last.send(&sink), DeliveryOutcome::Taken);
    assert_eq!(totals(), "a=15 b=5 c=10");
    assert_eq!(server.ask_in("sink", EPOCHS), "4 2");
}

/// A dead letter of an earlier owner is added where it belongs, like one of a folder that only started again.
#[test]
fn a_letter_of_an_owner_before_is_of_the_same_life() {
    let Some((server, store, sink)) = started() else { return };
    let first = Owner::take(&store);
    first.begin(&sink);
    first.make("a", 10);
    assert_eq!(first.send(&sink), DeliveryOutcome::Taken);
    first.make("a", 20);
    let letter = first.first();
    first.outbox.acknowledge(letter.number).unwrap(); // it is a dead letter
    first.outbox.sync().unwrap();
    let next = Owner::take(&store);
    assert_eq!(next.begin(&sink), AheadOfOutbox::default());
    next.make("a", 30);
    assert_eq!(next.send(&sink), DeliveryOutcome::Taken);
    assert_eq!(wait(sink.deliver(&letter)), DeliveryOutcome::Taken);
    assert_eq!(server.ask_in("sink", TOTALS), "a=15");
}

/// The restored store has the term and the connection epoch of an earlier owner again, and another epoch.
#[test]
fn who_had_the_shard_before_the_store_was_put_back_writes_nothing_more() {
    let Some((server, store, _sink)) = started() else { return };
    drop(taken(&store, 0));
    dump(&server);
    let before = taken(&store, 0);
    put_back(&server);
    let now = taken(&store, 0);
    assert_eq!(before.term(), now.term());
    server.ask("update totxegun_store.shard set connection_epoch = 1");
    before.create("journal/x".as_ref()).unwrap();
    assert!(shard_store::is_fenced(&before.sync().unwrap_err()));
}
