//! Tests what a database adds of several lives of a folder, and of dead letters. `tests/sink_model.py` tries all orders
//! up to a bound.

use super::model::{both, Database};
use super::rewind::rewind;
use super::server::{sum, sums, Server};
use super::{open, refused, request, taken};
use totxegun::sink::sql::export::What;
use totxegun::sink::sql::reading::read;
use totxegun::sink::{DeliveryOutcome, Forwarded, Sink};

fn of(epoch: &str, number: u64, body: String) -> Forwarded {
    Forwarded { shard: 0, epoch: epoch.into(), number, body: body.into_bytes() }
}

async fn taken_of(sink: &dyn Sink, epoch: &str, number: u64, body: String) {
    assert_eq!(sink.deliver(&of(epoch, number, body)).await, DeliveryOutcome::Taken, "{epoch} {number}");
}

async fn left_of(sink: &dyn Sink, epoch: &str, number: u64, body: String, until: u64) {
    let request = of(epoch, number, body);
    let fate = sink.deliver(&request).await;
    match &fate {
        DeliveryOutcome::Refused { reason } => {
            let part = format!("is not added, since its series has points until {until}");
            assert!(reason.contains(&part), "{reason}");
        }
        other => panic!("{epoch} {number}: {other:?}"),
    }
    // Repeated, as after a kill before the part was kept.
    assert_eq!(sink.deliver(&request).await, fate);
}

async fn in_order(sink: &dyn Sink, shard: u16, number: u64, body: String) {
    let request = Forwarded { shard, ..request(number, body) };
    assert_eq!(sink.deliver_of(&request, None).await, DeliveryOutcome::Taken, "{shard} {number}");
}

async fn in_order_of(sink: &dyn Sink, epoch: &str, number: u64, body: String) {
    assert_eq!(
        sink.deliver_of(&of(epoch, number, body), None).await,
        DeliveryOutcome::Taken,
        "{epoch} {number}"
    );
}

fn total(database: &Database) -> String {
    database.ask("select points, total from t.totals where name = 'a'")
}

#[tokio::test(flavor = "multi_thread")]
async fn a_folder_in_the_place_of_a_lost_one_adds_nothing_twice() {
    let server = Server::start();
    for database in both(&server) {
        let sink = open(&database.address());
        taken_of(&*sink, "e", 7, sum("a", 100, 200, 1)).await;
        // The second life knows nothing of the first, so its points begin anywhere.
        left_of(&*sink, "f", 1, sum("a", 50, 60, 2), 200).await;
        left_of(&*sink, "f", 2, sum("a", 150, 250, 4), 200).await;
        in_order_of(&*sink, "f", 4, sum("a", 300, 400, 8)).await;
        // A dead letter, and a request that begins before the floor.
        taken_of(&*sink, "f", 3, sum("a", 200, 300, 16)).await;
        left_of(&*sink, "f", 0, sum("a", 199, 200, 32), 200).await;
        // A request of the lost life, and a dead letter of it.
        taken_of(&*sink, "e", 7, sum("a", 100, 200, 1)).await;
        left_of(&*sink, "e", 6, sum("a", 90, 100, 64), 400).await;
        assert_eq!(total(&database), "3|25");
    }
}

/// Nobody noticed that the folder is a copy, so its numbers come again.
#[tokio::test(flavor = "multi_thread")]
async fn a_copy_that_goes_on_under_the_same_keys_adds_nothing_twice() {
    let server = Server::start();
    for database in both(&server) {
        let sink = open(&database.address());
        taken(&*sink, 1, sum("a", 100, 200, 1)).await;
        taken(&*sink, 2, sum("a", 200, 300, 2)).await;
        refused(&*sink, 2, sum("b", 200, 300, 4), "key is that of another request").await;
        taken(&*sink, 4, sum("b", 300, 400, 8)).await;
        // A dead letter of the copy, which has counted from 200 on; it is none of the first life.
        left_of(&*sink, "e", 3, sum("a", 200, 350, 16), 300).await;
        taken(&*sink, 7, sum("a", 350, 400, 32)).await;
        // Sent in order after a later number was taken. Only a folder that was restored does that.
        match sink.deliver_of(&of("e", 6, sum("a", 300, 310, 64)), None).await {
            DeliveryOutcome::Refused { reason } => {
                assert!(reason.contains("has points until 400"), "{reason}")
            }
            other => panic!("{other:?}"),
        }
        assert_eq!(total(&database), "3|35");
    }
}

#[tokio::test(flavor = "multi_thread")]
async fn what_was_put_aside_before_a_rewind_is_not_added_behind_it() {
    let server = Server::start();
    for database in both(&server) {
        let sink = open(&database.address());
        taken(&*sink, 1, sum("a", 100, 200, 1)).await;
        taken(&*sink, 4, rewind(&["a"], 150)).await;
        // Everything from there on is posted again.
        taken(&*sink, 5, sum("a", 150, 300, 2)).await;
        left_of(&*sink, "e", 3, sum("a", 200, 250, 4), 300).await;
        taken(&*sink, 7, sum("a", 400, 500, 8)).await;
        taken(&*sink, 6, sum("a", 300, 400, 16)).await;
        left_of(&*sink, "e", 2, sum("a", 120, 130, 32), 500).await;
        assert_eq!(total(&database), "4|27");
    }
}

/// An order to forget a series does not give the sink an earlier end.
#[tokio::test(flavor = "multi_thread")]
async fn what_was_put_aside_before_a_series_was_forgotten_is_not_added_behind_it() {
    let server = Server::start();
    for database in both(&server) {
        let sink = open(&database.address());
        taken(&*sink, 1, sum("a", 100, 200, 1)).await;
        taken(&*sink, 3, rewind(&["a"], u64::MAX)).await;
        left_of(&*sink, "e", 4, sum("a", 100, 200, 2), 200).await;
        taken(&*sink, 5, sum("a", 200, 300, 4)).await;
        left_of(&*sink, "e", 2, sum("a", 200, 250, 8), 300).await;
        assert_eq!(total(&database), "2|5");
    }
}

#[tokio::test(flavor = "multi_thread")]
async fn a_rewind_is_a_boundary_for_its_series_alone() {
    let server = Server::start();
    for database in both(&server) {
        let sink = open(&database.address());
        in_order(&*sink, 0, 1, sum("a", 100, 200, 1)).await;
        in_order(&*sink, 0, 3, sum("b", 100, 200, 1)).await;
        // One of the series is in the sink, and one is not.
        in_order(&*sink, 0, 4, rewind(&["b"], 150)).await;
        in_order(&*sink, 0, 5, rewind(&["c"], u64::MAX)).await;
        in_order(&*sink, 0, 6, sum("a", 300, 400, 2)).await;
        taken(&*sink, 2, sum("a", 200, 300, 4)).await;
        assert_eq!(total(&database), "3|7");
    }
}

/// The numbers of two shards have nothing to do with each other.
#[tokio::test(flavor = "multi_thread")]
async fn a_rewind_of_another_shard_takes_no_boundary_back() {
    let server = Server::start();
    for database in both(&server) {
        let sink = open(&database.address());
        in_order(&*sink, 0, 1, sum("a", 100, 200, 1)).await;
        in_order(&*sink, 0, 4, rewind(&["a"], 200)).await;
        in_order(&*sink, 1, 2, sum("b", 100, 200, 1)).await;
        in_order(&*sink, 1, 3, rewind(&["b"], 150)).await;
        in_order(&*sink, 0, 6, sum("a", 300, 400, 2)).await;
        // The point that is posted again, and the one from before.
        taken(&*sink, 5, sum("a", 200, 300, 4)).await;
        left_of(&*sink, "e", 3, sum("a", 200, 300, 8), 400).await;
        assert_eq!(total(&database), "3|7");
    }
}

/// As in a database that was made again, or restored.
#[tokio::test(flavor = "multi_thread")]
async fn a_rewind_is_a_boundary_for_a_series_without_points() {
    let server = Server::start();
    for database in both(&server) {
        let sink = open(&database.address());
        in_order(&*sink, 0, 3, rewind(&["a"], 100)).await;
        in_order(&*sink, 0, 5, sum("a", 200, 300, 1)).await;
        taken(&*sink, 4, sum("a", 100, 200, 2)).await;
        left_of(&*sink, "e", 1, sum("a", 100, 200, 4), 300).await;
        assert_eq!(total(&database), "2|3");
    }
}

#[tokio::test(flavor = "multi_thread")]
async fn a_letter_of_before_a_rewind_leaves_no_room_for_what_is_posted_again() {
    let server = Server::start();
    for database in both(&server) {
        let sink = open(&database.address());
        in_order(&*sink, 0, 3, rewind(&["a"], 100)).await;
        taken(&*sink, 1, sum("a", 100, 200, 4)).await;
        in_order(&*sink, 0, 5, sum("a", 200, 300, 1)).await;
        left_of(&*sink, "e", 4, sum("a", 100, 200, 2), 200).await;
        assert_eq!(total(&database), "2|5");
    }
}

/// A dead letter is late if another request passes it while it waits for a lock.
#[tokio::test(flavor = "multi_thread")]
async fn what_is_late_is_known_under_the_locks() {
    let Some(server) = Server::start() else { return };
    let address = server.by_socket("postgres");
    let (one, other) = (open(&address), open(&address));
    for sink in [&one, &other] {
        in_order(&**sink, 0, 1, sum("a", 100, 200, 1)).await;
    }
    // A new series needs the row of its metric.
    let held = server.hold("begin; lock table totxegun.metrics in share mode; select pg_sleep(60)");
    let waits = "select count(*) from pg_locks where not granted and relation = 'totxegun.metrics'::regclass";
    let metric_is_held = "select count(*) from pg_locks where granted and mode = 'ShareLock'
        and relation = 'totxegun.metrics'::regclass";
    until(&server, metric_is_held).await;
    let letter = request(2, sums(&[("a", 200, 300, 2), ("new", 200, 300, 2)]));
    let letter = tokio::spawn(async move { one.deliver(&letter).await });
    until(&server, waits).await;
    in_order(&*other, 0, 3, sum("a", 300, 400, 4)).await;
    drop(held);
    server.ask("select count(pg_terminate_backend(pid)) from pg_stat_activity where query like '%pg_sleep(60)' and pid <> pg_backend_pid()");
    assert_eq!(letter.await.unwrap(), DeliveryOutcome::Taken);
    assert_eq!(server.ask("select points, total from totxegun.totals where name = 'a'"), "3|7");
}

async fn until(server: &Server, count: &str) {
    for _ in 0..200 {
        if server.ask(count) != "0" {
            return;
        }
        tokio::time::sleep(std::time::Duration::from_millis(50)).await;
    }
    panic!("{count}");
}

/// The same reader is used for both kinds of database.
#[tokio::test(flavor = "multi_thread")]
async fn totals_are_read_alike() {
    let server = Server::start();
    for database in both(&server) {
        let address = database.address();
        let sink = open(&address);
        const SECOND: u64 = 1_000_000_000;
        taken(&*sink, 1, sums(&[("b", SECOND, 3 * SECOND, 1), ("a", SECOND, 2 * SECOND, i64::MAX)])).await;
        taken(&*sink, 2, sum("a", 2 * SECOND, 61 * SECOND, 1)).await;
        let lines = move || {
            let mut lines = Vec::new();
            let closed = read(&address.parse().unwrap(), &What::Totals, &mut |line| {
                lines.push(line);
                Ok(())
            });
            closed.unwrap();
            lines
        };
        let lines = tokio::task::spawn_blocking(lines).await.unwrap();
        let found = lines.iter().map(|line| {
            let times = line.times.as_ref().unwrap();
            format!(
                "{} {} {} {} {}",
                line.name, line.points, line.total_adjusted, times.first_start, times.last_end
            )
        });
        assert_eq!(
            found.collect::<Vec<_>>(),
            [
                "a 2 9223372036854775808 1970-01-01T00:00:01Z 1970-01-01T00:01:01Z",
                "b 1 1 1970-01-01T00:00:01Z 1970-01-01T00:00:03Z"
            ]
        );
        assert_eq!(lines[0].attributes.get(), r#"{"k":"v"}"#);
    }
}
