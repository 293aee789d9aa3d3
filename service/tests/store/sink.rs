//! Tests a sink in the store's database: a request, and the note that it was delivered, are one transaction.

use super::server::Server;
use super::work::{take, wait};
use super::{make, open};
use std::sync::Arc;
use totxegun::outbox::{Recents, Runs};
use totxegun::sink::{self, DeliveryOutcome, Forwarded, Memory, Retention, Sink};
use totxegun::storage::shard_store::{self, ShardStore};
use totxegun::storage::Tenure;
use totxegun::store::postgres::{Copies, PostgresShardStore, PostgresStore};

/// Knows the store that has the shards.
struct OfStore(Arc<PostgresStore>);

impl Memory for OfStore {
    fn admit(&self, _: Option<&str>, _: bool) -> Result<(), String> {
        Ok(())
    }

    fn store_database(&self) -> Option<String> {
        self.0.identity()
    }
}

fn sink(address: &str, store: &Arc<PostgresStore>) -> Arc<dyn Sink> {
    let memory = Arc::new(OfStore(store.clone()));
    sink::open(&address.parse().unwrap(), Retention::default(), memory).unwrap()
}

fn request(shard: u16, number: u64, start: u64) -> Forwarded {
    let body = format!(
        r#"{{"resourceMetrics":[{{"resource":{{"attributes":[]}},"scopeMetrics":[{{"metrics":[{{"name":"m{shard}","sum":{{"aggregationTemporality":1,"dataPoints":[{{"asInt":"5","attributes":[],"startTimeUnixNano":"{start}","timeUnixNano":"{}"}}],"isMonotonic":false}},"unit":""}}],"scope":{{"attributes":[],"name":"","version":""}}}}]}}]}}"#,
        start + 10
    );
    Forwarded { shard, epoch: "e".into(), number, body: body.into() }
}

/// A request with points of two series.
fn of_two(shard: u16, number: u64, starts: [u64; 2]) -> Forwarded {
    let [one, other] = starts.map(|start| String::from_utf8(request(shard, number, start).body).unwrap());
    let resource = |body: &str| body["{\"resourceMetrics\":[".len()..body.len() - 2].to_string();
    let other = resource(&other).replace("\"name\":\"m", "\"name\":\"n");
    Forwarded {
        body: format!(r#"{{"resourceMetrics":[{},{other}]}}"#, resource(&one)).into(),
        ..request(shard, number, 0)
    }
}

fn deliver(sink: &Arc<dyn Sink>, request: &Forwarded, tenure: &Tenure) -> DeliveryOutcome {
    wait(sink.deliver_of(request, Some(tenure)))
}

fn tenure(of: &PostgresShardStore) -> Tenure {
    Tenure { term: of.term(), epoch: of.epoch().unwrap() }
}

const NOTED: &str =
    "select coalesce(string_agg(shard || ':' || term || ':' || number, ' ' order by shard), '')
    from totxegun_store.delivered";
const TOTALS: &str =
    "select coalesce(string_agg(name || '=' || total, ' ' order by name), '') from totxegun.totals";

#[test]
fn a_request_and_what_says_that_it_was_delivered_are_one_transaction_under_the_term() {
    let Some(server) = Server::start("") else { return };
    make(&server.address());
    let store = Arc::new(open(&server.address(), Copies::One));
    let by_other_name = server.address().replace("127.0.0.1", "localhost");
    let sink = sink(&by_other_name, &store);
    let first = tenure(&take(&store, 3).0);
    for number in 1..4 {
        assert_eq!(deliver(&sink, &request(3, number, number * 10), &first), DeliveryOutcome::Taken);
    }
    let repeated = deliver(&sink, &request(3, 3, 30), &first);
    assert_eq!(
        (repeated, server.ask(NOTED), server.ask(TOTALS)),
        (DeliveryOutcome::Taken, "3:1:3".into(), "m3=15".into())
    );
    assert_eq!(deliver(&sink, &request(3, 4, 40), &first), DeliveryOutcome::Taken);
    for _ in 0..2 {
        // The part that is left has to be kept first, so the request has to come again.
        let partly = deliver(&sink, &of_two(3, 5, [45, 45]), &first);
        assert!(matches!(partly, DeliveryOutcome::TakenPartly { rejected: 1, .. }), "{partly:?}");
        assert_eq!(server.ask(NOTED), "3:1:4");
    }
    let owner = take(&store, 3).0;
    assert_eq!(owner.delivered(), 4, "the next owner knows");
    let second = tenure(&owner);
    let next = request(3, 6, 60);
    assert_eq!(deliver(&sink, &next, &second), DeliveryOutcome::Taken);
    match deliver(&sink, &request(3, 7, 70), &first) {
        DeliveryOutcome::Again { reason, .. } => {
            let says = [&format!("with epoch {}", second.epoch), &format!("with epoch {}", first.epoch)];
            assert!(reason.contains("shard 3 was taken by another instance"), "{reason}");
            assert!(says.into_iter().all(|part| reason.contains(part)), "{reason}");
        }
        other => panic!("{other:?}"),
    }
    // As after a store was restored: an earlier owner's term is greater, but its epoch differs.
    let other = Tenure { term: second.term + 5, ..first };
    assert!(matches!(deliver(&sink, &request(3, 7, 70), &other), DeliveryOutcome::Again { .. }));
    assert_eq!(
        (server.ask(NOTED), server.ask(TOTALS)),
        ("3:2:6".into(), "m3=25 n3=5".into()),
        "nothing of it is there"
    );
    assert_eq!(wait(sink.deliver(&request(3, 8, 80))), DeliveryOutcome::Taken, "a letter has no term");
    assert_eq!(server.ask(NOTED), "3:2:6");
}

#[test]
fn a_sink_elsewhere_has_keys_alone_whatever_its_address() {
    let Some(server) = Server::start("") else { return };
    server.ask("create database sink");
    make(&server.address());
    let store = Arc::new(open(&server.address(), Copies::One));
    let tenure = tenure(&take(&store, 3).0);
    let nobodys = Tenure { term: 0, epoch: "".into() };
    let apart = sink(&server.address_of("sink"), &store);
    assert_eq!(deliver(&apart, &request(3, 1, 10), &tenure), DeliveryOutcome::Taken);
    assert_eq!(
        deliver(&apart, &request(3, 2, 20), &nobodys),
        DeliveryOutcome::Taken,
        "nobody looks at a term there"
    );
    assert_eq!(server.ask(NOTED), "");
}

/// As a start finds it after the sink's answer, and so the acknowledgement, was lost.
#[test]
fn what_was_noted_is_not_sent_again() {
    let Some(server) = Server::start("") else { return };
    make(&server.address());
    let store = Arc::new(open(&server.address(), Copies::One));
    let first = take(&store, 0).0;
    let term = first.term();
    let (journal, outbox, _dead) = shard_store::open(first as Arc<dyn ShardStore>, "e").unwrap();
    let bodies: Vec<Vec<u8>> = (1..4).map(|number| request(0, number, number * 10).body).collect();
    outbox.commit_with(&bodies, journal.roll().0, Runs::new(), &Recents::default()).unwrap();
    outbox.sync().unwrap();
    server.ask(&format!("insert into totxegun_store.delivered values (0, {term}, 2)"));
    let next = take(&store, 0).0;
    let (_journal, outbox, _dead) = shard_store::open(next as Arc<dyn ShardStore>, "e").unwrap();
    assert_eq!((outbox.waiting().0, wait(outbox.first()).unwrap().1), (1, bodies[2].clone()));
}
