//! Tests several services that write the same series of one database, and what others do to its tables.

use crate::server::{sum, sums, Server};
use crate::{open, refused, request, taken};
use std::collections::BTreeSet;
use std::time::Duration;
use totxegun::sink::DeliveryOutcome;

const ROUNDS: u64 = 100;
const SERVICES: u64 = 3;
/// The numbers of series in a round. A third of them is new in each round, and each service leaves out a third.
const SERIES: u64 = 60;

/// The series of a service in a round. Some are of the round before, and exist or are just being made.
fn series(round: u64, service: u64) -> BTreeSet<u64> {
    let first = round * SERIES / 3;
    (first..first + SERIES).filter(|one| !(one + service).is_multiple_of(3)).collect()
}

/// Each service has its own part of each series' time.
fn interval(round: u64, service: u64) -> (u64, u64) {
    let start = 1 + (round * SERVICES + service) * 10;
    (start, start + 10)
}

fn body(round: u64, service: u64) -> String {
    let (start, end) = interval(round, service);
    let names: Vec<String> = series(round, service).iter().map(|one| format!("n{one}")).collect();
    let points: Vec<(&str, u64, u64, i64)> = names.iter().map(|name| (&name[..], start, end, 1)).collect();
    sums(&points)
}

/// No two wait for each other: each request is answered at the first try.
#[tokio::test(flavor = "multi_thread")]
async fn services_that_make_the_same_series_never_deadlock() {
    let Some(server) = Server::start() else { return };
    let address = server.by_socket("postgres");
    // The schema exists before all of them start.
    drop(open(&address));
    let services = (0..SERVICES).map(|service| {
        let sink = open(&address);
        tokio::spawn(async move {
            let mut taken = 0;
            for round in 0..ROUNDS {
                let mut request = request(round, body(round, service));
                request.shard = service as u16;
                let all = series(round, service).len() as u64;
                // Another service may have sent later points first.
                taken += match sink.deliver(&request).await {
                    DeliveryOutcome::Taken => all,
                    DeliveryOutcome::TakenPartly { rejected, .. } => all - rejected,
                    DeliveryOutcome::Refused { reason } if reason.contains("is not added") => 0,
                    other => panic!("{service} in round {round}: {other:?}"),
                };
            }
            taken
        })
    });
    let mut taken = 0;
    for service in services.collect::<Vec<_>>() {
        taken += service.await.expect("a service");
    }
    assert_eq!(server.ask("select deadlocks from pg_stat_database where datname = 'postgres'"), "0");
    let all = (0..ROUNDS).flat_map(|round| (0..SERVICES).flat_map(move |service| series(round, service)));
    let distinct: BTreeSet<u64> = all.collect();
    let counted = format!("{}|{taken}", distinct.len());
    assert_eq!(server.ask("select count(*), sum(total) from totxegun.totals"), counted);
    assert_eq!(server.ask("select count(distinct series), count(*) from totxegun.intervals"), counted);
}

/// Names of series of `sums`, with their digests, in the order of the digests.
fn in_order(server: &Server) -> Vec<(String, String)> {
    let query = r#"select name, digest from (select 'n' || i as name, sha256(convert_to(
            '[[],"s","1",[],"n' || i || '","1","sum",[{"key":"k","value":{"stringValue":"v"}}]]', 'UTF8')) as digest
        from generate_series(1, 3) as i) as names order by digest"#;
    let both = |line: &str| line.split_once('|').map(|(name, digest)| (name.into(), digest.into()));
    server.ask(query).lines().filter_map(both).collect()
}

async fn wait_until(server: &Server, query: &str, answer: &str) {
    while server.ask(query) != answer {
        tokio::time::sleep(Duration::from_millis(20)).await;
    }
}

/// A request that waits for a series which another transaction makes must not hold the lock of a total that the other
/// wants next.
#[tokio::test(flavor = "multi_thread")]
async fn totals_are_locked_behind_new_series() {
    let Some(server) = Server::start() else { return };
    let address = server.by_socket("postgres");
    let (one, other) = (open(&address), open(&address));
    let names = in_order(&server);
    let [first, second, third] = [0, 1, 2].map(|place| &names[place].0[..]);
    let (waiting, sleeping) = (
        "select count(*) from pg_locks where not granted",
        "from pg_stat_activity where query = 'select pg_sleep(60)'",
    );
    // The first request of an epoch makes its life, and others wait for that.
    taken(&*one, 0, sum("first", 1, 2, 1)).await;
    // Somebody makes the second series. The other request waits for it after it has made the first, and has not come to
    // the third.
    let _held = server.hold(&format!(
        "begin; insert into totxegun.series (digest, identity, is_exact, name, unit, kind, is_monotonic,
            attributes, resource, scope_name, scope_version, scope_attributes)
        values ('{}', '', true, '', '', 'sum', false, '{{}}', '{{}}', '', '', '{{}}'); select pg_sleep(60)",
        names[1].1
    ));
    wait_until(&server, &format!("select count(*) {sleeping}"), "1").await;
    let of_all = sums(&[(first, 10, 11, 1), (second, 10, 11, 1), (third, 10, 11, 1)]);
    let of_all = tokio::spawn(async move { other.deliver(&request(1, of_all)).await });
    wait_until(&server, waiting, "1").await;
    taken(&*one, 2, sums(&[(third, 1, 2, 1)])).await;
    let of_two = sums(&[(first, 20, 21, 1), (third, 20, 21, 1)]);
    let of_two = tokio::spawn(async move { one.deliver(&request(3, of_two)).await });
    wait_until(&server, waiting, "2").await;
    server.ask(&format!("select pg_terminate_backend(pid) {sleeping}"));
    assert_eq!(of_all.await.expect("it ends"), DeliveryOutcome::Taken);
    assert_eq!(of_two.await.expect("it ends"), DeliveryOutcome::Taken);
    let counted = server.ask("select sum(points), sum(total) from totxegun.totals");
    assert_eq!(counted, "7|7");
}

/// However many series exist and come at once, each is looked up by an index.
#[tokio::test(flavor = "multi_thread")]
async fn no_table_is_read_whole() {
    let Some(server) = Server::start() else { return };
    let sink = open(&server.by_socket("postgres"));
    let names: Vec<String> = (0..4000).map(|one| format!("n{one}")).collect();
    for number in 0..12 {
        let (turn, block) = (number / 4, number as usize % 4);
        let part = &names[1000 * block..][..1000];
        let points: Vec<(&str, u64, u64, i64)> =
            part.iter().map(|name| (&name[..], turn + 1, turn + 2, 1)).collect();
        taken(&*sink, number, sums(&points)).await;
        // It comes again, and once more under another key.
        taken(&*sink, number, sums(&points)).await;
        refused(&*sink, 100 + number, sums(&points), "is not added").await;
    }
    // A session reports what it has read when it ends.
    drop(sink);
    wait_until(&server, "select count(*) from pg_stat_activity where application_name = 'totxegun'", "0")
        .await;
    // These tables have one row each.
    let read = "select relname, seq_tup_read from pg_stat_user_tables \
                where relname not in ('sink', 'version', 'horizon') and seq_tup_read > 0";
    assert_eq!(server.ask(read), "");
}

/// If somebody has emptied the tables, the service goes on.
#[tokio::test(flavor = "multi_thread")]
async fn series_that_are_gone_are_made_anew() {
    let Some(server) = Server::start() else { return };
    let sink = open(&server.by_socket("postgres"));
    taken(&*sink, 1, sum("a", 1, 2, 1)).await;
    server.ask("truncate totxegun.series, totxegun.series_totals, totxegun.interval_rows");
    taken(&*sink, 2, sum("a", 2, 3, 2)).await;
    assert_eq!(server.ask("select points, total from totxegun.totals"), "1|2");
}
