//! Tests the column of series that has their senders.

use super::kept::until;
use super::model::both;
use super::rewind::key;
use super::server::{sum, sum_named, sums, Server};
use super::{open, request, taken};
use std::collections::HashMap;
use std::sync::Arc;
use totxegun::otlp::series::Digest;
use totxegun::sink::{DeliveryOutcome, KnowsOwners};

struct Names(HashMap<Digest, &'static str>);

impl KnowsOwners for Names {
    fn owner(&self, series: &Digest) -> Option<String> {
        self.0.get(series).map(|name| name.to_string())
    }
}

#[tokio::test(flavor = "multi_thread")]
async fn each_series_has_its_sender() {
    let server = Server::start();
    for database in both(&server) {
        let sink = open(&database.address());
        let senders = || database.ask("select name, sender from t.series order by 1");
        // A dead letter, while nobody delivers its shard here.
        taken(&*sink, 1, sum("early", 100, 200, 1)).await;
        assert_eq!(senders(), "early|");
        let names = [("a", "ann"), ("c", "cy"), ("early", "eve"), ("h", "-")];
        let names = Arc::new(Names(names.map(|(series, name)| (key(series).digest(), name)).into()));
        sink.owners().expect("a database has them").put(0, &names);
        let both = request(2, sums(&[("a", 100, 200, 1), ("b", 100, 200, 1)]));
        assert_eq!(sink.deliver_of(&both, None).await, DeliveryOutcome::Taken);
        let all = [request(3, sum("c", 100, 200, 1)), request(4, sum("early", 200, 300, 1))];
        assert!(sink.deliver_together(&all, None).await);
        assert_eq!(senders(), "a|ann\nb|\nc|cy\nearly|eve");
        // The sender stays, whatever name comes later.
        let others = Arc::new(Names([(key("a").digest(), "other"), (key("b").digest(), "bob")].into()));
        sink.owners().expect("a database has them").put(0, &others);
        let again = request(5, sums(&[("a", 200, 300, 1), ("b", 200, 300, 1)]));
        assert_eq!(sink.deliver_of(&again, None).await, DeliveryOutcome::Taken);
        assert_eq!(senders(), "a|ann\nb|bob\nc|cy\nearly|eve");
    }
}

/// A request that waits for a series which another transaction makes must not hold locks on existing series: the other
/// may want one of these next.
#[tokio::test(flavor = "multi_thread")]
async fn senders_are_written_down_behind_new_series() {
    let Some(server) = Server::start() else { return };
    let address = server.by_socket("postgres");
    let (one, other) = (open(&address), open(&address));
    taken(&*one, 1, sum("a", 100, 200, 1)).await;
    taken(&*one, 2, sum_named("m", "x", 100, 200, 1)).await;
    let names =
        Arc::new(Names([("a", "ann"), ("m", "mia")].map(|(of, name)| (key(of).digest(), name)).into()));
    one.owners().expect("a database has them").put(0, &names);
    // Somebody holds the hour of a metric. A request waits for it after it has made its series.
    let _held = server.hold("begin; select from totxegun.metric_hours for update; select pg_sleep(60)");
    let (sleeping, waiting) = (
        "from pg_stat_activity where query like '%pg_sleep(60)' and pid <> pg_backend_pid()",
        "select count(*) from pg_locks where not granted",
    );
    until(&server, &format!("select count(*) {sleeping}"), "1").await;
    let makes = tokio::spawn(async move { other.deliver(&request(3, sum("m", 200, 300, 1))).await });
    until(&server, waiting, "1").await;
    let both = request(4, sums(&[("a", 300, 400, 1), ("m", 300, 400, 1)]));
    let waits = tokio::spawn(async move { one.deliver(&both).await });
    until(&server, waiting, "2").await;
    server.ask("set lock_timeout = '1s'; update totxegun.series set sender = sender where name = 'a'");
    server.ask(&format!("select pg_terminate_backend(pid) {sleeping}"));
    assert_eq!(makes.await.expect("it ends"), DeliveryOutcome::Taken);
    assert_eq!(waits.await.expect("it ends"), DeliveryOutcome::Taken);
    let senders = "select name, attributes->>'k', sender from totxegun.series order by 1, 2";
    assert_eq!(server.ask(senders), "a|v|ann\nm|v|mia\nm|x|");
}
