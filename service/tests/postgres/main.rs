//! The PostgreSQL sink against a server of its own. Without `initdb` nothing is tried, and a line says so.

mod adjust;
mod another;
mod by_hour;
mod horizon;
mod hours;
mod intervals;
mod kept;
mod lives;
mod long;
mod lost;
mod model;
mod owners;
mod periods;
mod points;
mod readers;
mod renamed;
mod rewind;
mod rivals;
mod server;
mod speed;
mod together;
mod zones;

use model::both;
use server::{histogram, sum, sum_named, Server};
use std::time::Duration;
use totxegun::sink::{self, DeliveryOutcome, Forwarded, Retention, Sink};

fn request(number: u64, body: String) -> Forwarded {
    Forwarded { shard: 0, epoch: "e".into(), number, body: body.into_bytes() }
}

fn open(address: &str) -> std::sync::Arc<dyn Sink> {
    open_with(address, Retention::default())
}

fn open_with(address: &str, retention: Retention) -> std::sync::Arc<dyn Sink> {
    sink::open(&address.parse().expect(address), retention, std::sync::Arc::new(())).expect(address)
}

async fn taken(sink: &dyn Sink, number: u64, body: String) {
    assert_eq!(sink.deliver(&request(number, body)).await, DeliveryOutcome::Taken, "{number}");
}

async fn refused(sink: &dyn Sink, number: u64, body: String, part: &str) {
    match sink.deliver(&request(number, body)).await {
        DeliveryOutcome::Refused { reason } => assert!(reason.contains(part), "{reason}"),
        other => panic!("{other:?}"),
    }
}

async fn again(sink: &dyn Sink, number: u64, body: String, part: &str) {
    match sink.deliver(&request(number, body)).await {
        DeliveryOutcome::Again { reason, .. } | DeliveryOutcome::Away { reason } => {
            assert!(reason.contains(part), "{part} in {reason}")
        }
        other => panic!("{other:?}"),
    }
}

#[tokio::test(flavor = "multi_thread")]
async fn what_is_taken() {
    let Some(server) = Server::start() else { return };
    let sink = open(&server.by_socket("postgres"));
    assert!(sink.name().starts_with("postgres postgres@/"), "{}", sink.name());
    for _ in 0..3 {
        taken(&*sink, 1, sum("a", 100, 200, 5)).await;
    }
    let other = open(&server.by_socket("postgres"));
    for number in 2..20 {
        let one = request(number, sum("b", number, number + 1, 1));
        let two = one.clone();
        let both = tokio::join!(sink.deliver(&one), other.deliver(&two));
        assert_eq!(both, (DeliveryOutcome::Taken, DeliveryOutcome::Taken), "two services with one key");
    }
    for (number, (start, end)) in (25..).zip([(100, 200), (150, 160), (50, 101), (1, 1000)]) {
        for _ in 0..2 {
            let why = "is not added, since its series has points until 200";
            refused(&*sink, number, sum("a", start, end, 1), why).await;
        }
    }
    taken(&*sink, 31, sum("a", 200, 300, -7)).await;
    // As a dead letter.
    taken(&*sink, 29, sum("a", 50, 100, 1)).await;
    assert_eq!(server.ask("select name, points, total from totxegun.totals order by 1"), "a|3|-1\nb|18|18");
    let most = u64::MAX;
    for (number, body) in [(31, sum("a", 300, 400, 1)), (31, sum("c", 200, 300, -7))] {
        refused(&*sink, number, body, "key is that of another request").await;
    }
    for number in 40..43 {
        let (start, end) = (most - 50 + number, most - 49 + number);
        taken(&*sink, number, histogram("h", start, end, Some(most), [most, 0, 1])).await;
    }
    taken(&*sink, 39, histogram("h", 1, 2, None, [0, 0, 1])).await;
    assert_eq!(
        server
            .ask("select points, total, buckets, without_sum, bounds from totxegun.totals where name = 'h'"),
        "4|55340232221128654845|{55340232221128654845,0,4}|1|{-5,10}"
    );
    taken(&*sink, 50, sum_named("n", "x\\u0000", 1, 2, 1)).await;
    taken(&*sink, 51, sum_named("n", "x\u{fffd}", 1, 2, 2)).await;
    taken(&*sink, 52, sum_named("n\\u0000", "x", 1, 2, 4)).await;
    taken(&*sink, 53, sum_named("n\u{fffd}", "x", 1, 2, 8)).await;
    assert_eq!(
        server
            .ask("select attributes->>'k', is_exact, total from totxegun.totals where name = 'n' order by 3"),
        "x\u{fffd}|f|1\nx\u{fffd}|t|2"
    );
    assert_eq!(
        server.ask("select total from totxegun.totals_by_name where name like 'n%' order by 1"),
        "3\n4\n8"
    );
    assert_eq!(
        server.ask("select extract(epoch from hour), total from totxegun.totals_by_hour where name = 'b'"),
        "0.000000|18"
    );
}

/// The other points of the request are taken, once. A repeat gets the same answer, so a kill does not lose the rest.
#[tokio::test(flavor = "multi_thread")]
async fn of_a_request_the_points_that_begin_too_early_alone_are_left() {
    let server = Server::start();
    for database in both(&server) {
        let address = database.address();
        let sink = open(&address);
        taken(&*sink, 1, sum("a", 100, 200, 1)).await;
        let all = server::sums(&[("b", 1, 2, 8), ("a", 150, 160, 9), ("a", 200, 210, 4)]);
        let left = server::sums(&[("a", 150, 160, 9)]);
        for sink in [&sink, &open(&address)] {
            match sink.deliver(&request(2, all.clone())).await {
                DeliveryOutcome::TakenPartly { rejected: 1, reason, left: Some(found) } => {
                    assert!(reason.contains("(150, 160]"), "{reason}");
                    let of = |body: &[u8]| serde_json::from_slice::<serde_json::Value>(body).expect("JSON");
                    assert_eq!(of(&found), of(left.as_bytes()));
                }
                other => panic!("{other:?}"),
            }
            let totals = database.ask("select name, points, total from t.totals order by 1");
            assert_eq!(totals, "a|2|5\nb|1|8");
        }
        assert_eq!(database.ask("select points from t.requests where number = 2"), "2");
        refused(&*sink, 3, left, "is not added").await;
    }
}

/// A folder was restored over itself: the key comes again with other points, some of which begin at the same time.
#[tokio::test(flavor = "multi_thread")]
async fn a_request_is_told_from_another_of_its_key_by_each_of_its_points() {
    let server = Server::start();
    for database in both(&server) {
        let sink = open(&database.address());
        let (a, b, c) = (("a", 1, 2, 1), ("b", 1, 9, 1), ("c", 5, 6, 1));
        taken(&*sink, 1, server::sums(&[a, b])).await;
        taken(&*sink, 2, server::sums(&[c])).await;
        let longer = ("a", 1, 3, 1);
        for other in [&[longer, b][..], &[a, b, ("d", 5, 6, 1)], &[b, longer, c]] {
            refused(&*sink, 1, server::sums(other), "key is that of another request").await;
        }
        taken(&*sink, 1, server::sums(&[a, b])).await;
        let totals = database.ask("select name, points, total from t.totals order by 1");
        assert_eq!(totals, "a|1|1\nb|1|1\nc|1|1");
    }
}

/// The server's certificate is checked by the roots of the machine.
#[tokio::test(flavor = "multi_thread")]
async fn by_tls() {
    let Some(mut server) = Server::start() else { return };
    server.ask("create role shop login superuser password 'p'");
    server.with_tls("localhost");
    let port = server.port;
    let address = |host: &str| format!("postgres://shop:p@{host}:{port}/postgres?sslmode=require");
    std::env::set_var("SSL_CERT_FILE", server.folder.path().join("root.pem"));
    let sink = open(&address("localhost"));
    taken(&*sink, 1, sum("a", 1, 2, 1)).await;
    assert_eq!(
        server.ask(
            "select distinct ssl from pg_stat_ssl join pg_stat_activity using (pid) where usename = 'shop'"
        ),
        "t"
    );
    // A root that did not sign it; a name that the certificate does not have; and an address that the certificate has,
    // but no name.
    std::env::set_var("SSL_CERT_FILE", server.folder.path().join("other.pem"));
    again(&*open(&address("localhost")), 2, sum("a", 2, 3, 1), "TLS").await;
    // The root is named in the address, and the password is in a file that nobody else may read.
    let file = server.folder.path().join("passwords");
    std::fs::write(&file, format!("# by hand\nlocalhost:{port}:*:shop:p\n")).unwrap();
    std::env::set_var("PGPASSFILE", &file);
    let root = server.folder.path().join("root.pem");
    let by_files = address("localhost").replace(":p@", "@") + &format!("&sslrootcert={}", root.display());
    for (mode, is_read) in [(0o640, false), (0o600, true)] {
        std::fs::set_permissions(&file, std::os::unix::fs::PermissionsExt::from_mode(mode)).unwrap();
        match is_read {
            true => taken(&*open(&by_files), 7, sum("a", 10, 11, 1)).await,
            false => again(&*open(&by_files), 7, sum("a", 10, 11, 1), "password").await,
        }
    }
    std::env::remove_var("PGPASSFILE");
    server.with_tls("elsewhere");
    std::env::set_var("SSL_CERT_FILE", server.folder.path().join("root.pem"));
    again(&*open(&address("localhost")), 2, sum("a", 2, 3, 1), "NotValidForName").await;
    std::env::remove_var("SSL_CERT_FILE");
    let refused = address("127.0.0.1").parse::<sink::Address>().unwrap_err();
    assert!(refused.to_string().contains("name of a host"), "{refused}");
    assert_eq!(server.ask("select points from totxegun.totals"), "2");
}

#[tokio::test(flavor = "multi_thread")]
async fn what_is_told() {
    let Some(server) = Server::start() else { return };
    server.ask(
        "create role lame login password 'right'; create database d1; create database d2; create database d3",
    );
    let by_password = |password: &str, database: &str| server.by_tcp(&format!("lame:{password}"), database);
    let body = || sum("a", 1, 2, 1);
    again(&*open(&by_password("wrong", "d1")), 1, body(), "password is wrong").await;
    let lame = open(&by_password("right", "d1"));
    assert!(!lame.name().contains("right"));
    again(&*lame, 1, body(), "lacks a privilege").await;
    server.ask("grant create on database d1 to lame");
    taken(&*lame, 1, body()).await;
    let lost = open(&server.by_socket("none"));
    again(&*lost, 1, body(), "database is missing").await;
    server.ask("create database none");
    taken(&*lost, 1, body()).await;
    server.ask("alter role lame set default_transaction_read_only = on");
    again(&*open(&by_password("right", "d1")), 2, body(), "read-only").await;
    let refuses = |database: &str, part: &str| {
        let address = server.by_socket(database).parse().expect("an address");
        let error = sink::open(&address, Retention::default(), std::sync::Arc::new(()))
            .err()
            .expect("it is refused")
            .to_string();
        assert!(error.contains(part) && error.contains(database), "{error}");
    };
    for another in [2, 12] {
        server.ask_of("d1", &format!("update totxegun.version set version = {another}"));
        refuses("d1", &format!("schema {another}; this one knows 1): use that version, or another database"));
    }
    again(&*lame, 2, body(), "version").await;
    again(&*lame, 2, body(), "another version").await;
    server.ask_of("d2", "create schema totxegun; create table totxegun.version (x int)");
    refuses("d2", "another program");
    server.ask("create database latin encoding latin1 template template0 lc_collate 'C' lc_ctype 'C'");
    refuses("latin", "LATIN1");
}

/// A server answers every request so if it has no transaction numbers left. Without this, each would become a dead
/// letter.
#[tokio::test(flavor = "multi_thread")]
async fn a_limit_of_the_server_is_waited_for() {
    let Some(server) = Server::start() else { return };
    let sink = open(&server.by_socket("postgres"));
    taken(&*sink, 1, sum("a", 1, 2, 1)).await;
    server.run_file(
        "postgres",
        "create function totxegun.limit() returns trigger language plpgsql as $$ begin
            raise exception 'database is not accepting commands' using errcode = '54000'; end $$;
        create trigger wraparound before insert on totxegun.requests execute function totxegun.limit()",
    );
    match sink.deliver(&request(2, sum("a", 2, 3, 2))).await {
        DeliveryOutcome::Failed { reason, .. } => {
            assert!(
                reason.contains("a limit of the server") && reason.contains("not accepting commands"),
                "{reason}"
            )
        }
        other => panic!("{other:?}"),
    }
    server.ask("drop trigger wraparound on totxegun.requests");
    taken(&*sink, 2, sum("a", 2, 3, 2)).await;
    assert_eq!(server.ask("select points, total from totxegun.totals"), "2|3");
}

#[tokio::test(flavor = "multi_thread")]
async fn what_is_lost_on_the_way() {
    let Some(mut server) = Server::start() else { return };
    server.ask("create table public.at_commit (x int)");
    let proxy = server::Proxy::start(server.port).await;
    server.ask("create role shop login superuser password 'p'");
    let address = format!("postgres://shop:p@127.0.0.1:{}/postgres", proxy.port);
    let sink = open(&address);
    taken(&*sink, 1, sum("a", 1, 2, 1)).await;
    proxy.cut_the_next_commit();
    again(&*sink, 2, sum("a", 2, 3, 2), "").await;
    assert_eq!(server.ask("select total from totxegun.totals"), "3", "it was committed");
    taken(&*sink, 2, sum("a", 2, 3, 2)).await;
    assert_eq!(server.ask("select points, total from totxegun.totals"), "2|3");
    // If somebody keeps a lock, the delivery is given up and leaves nothing.
    let direct = open(&server.by_socket("postgres"));
    let held = server.hold("begin; select * from totxegun.series_totals for update; select pg_sleep(13)");
    tokio::time::sleep(Duration::from_secs(1)).await;
    again(&*direct, 3, sum("a", 3, 4, 4), "took too long").await;
    drop(held);
    server.stop();
    again(&*direct, 3, sum("a", 3, 4, 4), "").await;
    again(&*sink, 3, sum("a", 3, 4, 4), "").await;
    server.run();
    taken(&*direct, 3, sum("a", 3, 4, 4)).await;
    taken(&*sink, 3, sum("a", 3, 4, 4)).await;
    assert_eq!(server.ask("select points, total from totxegun.totals"), "3|7");
}
