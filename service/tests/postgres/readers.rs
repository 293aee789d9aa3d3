//! Tests who may read the tables, what they say of themselves, and what readers leave behind and are told.

use crate::kept::{now, until};
use crate::model::both;
use crate::server::{sum, Server};
use crate::{open, taken};
use std::time::Duration;
use tokio::task::block_in_place;
use totxegun::sink::sql::export::What;
use totxegun::sink::sql::reading::{booked, hours, read, totals};
use totxegun::sink::{Address, DeliveryOutcome};

#[tokio::test(flavor = "multi_thread")]
async fn a_role_reads_all_and_writes_nothing() {
    let Some(server) = Server::start() else { return };
    let sink = open(&server.by_socket("postgres"));
    until(
        &server,
        "select has_schema_privilege(oid, 'totxegun', 'usage') from pg_roles where rolname = 'totxegun_read'",
        "t",
    )
    .await;
    taken(&*sink, 1, sum("a", now() - 10, now(), 5)).await;
    for view in ["totals", "by_hour", "by_day", "by_month", "totals_by_hour", "intervals"] {
        let found = server.ask(&format!("set role totxegun_read; select count(*) from totxegun.{view}"));
        assert_eq!(found, "1", "{view}");
    }
    let may =
        "select bool_or(has_table_privilege('totxegun_read', oid, 'insert, update, delete, truncate')) \
               from pg_class where relnamespace = 'totxegun'::regnamespace and relkind in ('r', 'p', 'v')";
    assert_eq!(server.ask(may), "f");
}

/// Each table, view and column has a text.
#[tokio::test(flavor = "multi_thread")]
async fn each_table_view_and_column_has_a_comment() {
    let Some(server) = Server::start() else { return };
    drop(open(&server.by_socket("postgres")));
    let dumb = "select count(*) from pg_attribute join pg_class on pg_class.oid = attrelid \
                where relnamespace = 'totxegun'::regnamespace and relkind in ('r', 'p', 'v') and attnum > 0 \
                and not attisdropped and (col_description(attrelid, attnum) is null or obj_description(attrelid) is null)";
    assert_eq!(server.ask(dumb), "0");
}

/// A service that can't make roles delivers nevertheless, and grants rights to the role that an administrator makes.
#[tokio::test(flavor = "multi_thread")]
async fn without_a_right_to_make_roles_all_goes_on() {
    let Some(server) = Server::start() else { return };
    server.ask("create role lame login password 'p'; create database lame owner lame");
    let lame = open(&server.by_tcp("lame:p", "lame"));
    assert_eq!(lame.deliver(&crate::request(1, sum("a", 1, 2, 1))).await, DeliveryOutcome::Taken);
    tokio::time::sleep(Duration::from_secs(3)).await;
    assert_eq!(server.ask("select count(*) from pg_roles where rolname = 'totxegun_read'"), "0");
    server.ask("create role totxegun_read nologin");
    drop(lame);
    let _lame = open(&server.by_tcp("lame:p", "lame"));
    for _ in 0..500 {
        if server.ask_of("lame", "select has_schema_privilege('totxegun_read', 'totxegun', 'usage')") == "t" {
            return;
        }
        tokio::time::sleep(Duration::from_millis(20)).await;
    }
    panic!("the role is not let in");
}

/// The SQL of docs/OPERATING.md, "PostgreSQL as the sink".
fn statements_of_page() -> Vec<String> {
    let page = std::fs::read_to_string(concat!(env!("CARGO_MANIFEST_DIR"), "/../docs/OPERATING.md")).unwrap();
    let section =
        page.split("\n### PostgreSQL as the sink\n").nth(1).unwrap().split("\n### ").next().unwrap();
    let blocks = section.split("```sql\n").skip(1).map(|rest| rest.split("```").next().unwrap().to_string());
    blocks.collect()
}

/// Else an operator who types what the page says gets an error, and a bill that nobody may read.
#[tokio::test(flavor = "multi_thread")]
async fn what_the_page_says_makes_a_role_that_reads() {
    let Some(server) = Server::start() else { return };
    let [make, grant] = &statements_of_page()[..] else { panic!("{:?}", statements_of_page()) };
    let of_here = |sql: &str| {
        let sql = sql.replace("USER", "service").replace("DB", "sums").replace("ROLE;", "clerk;");
        sql.replace("'..'", "'p'")
    };
    for line in of_here(make).lines() {
        server.ask(line);
    }
    server.ask("create role clerk login password 'q'");
    let sink = open(&server.by_tcp("service:p", "sums"));
    taken(&*sink, 1, sum("a", 1, 2, 5)).await;
    server.ask(&of_here(grant));
    let granted = "select has_schema_privilege('clerk', 'totxegun', 'usage')";
    for _ in 0..500 {
        if server.ask_of("sums", granted) == "t" {
            break;
        }
        tokio::time::sleep(Duration::from_millis(20)).await;
    }
    assert_eq!(server.ask_of("sums", "set role clerk; select total from totxegun.totals"), "5");
}

/// Else each page of totals is a line in the server's log, as of a client that crashed.
#[tokio::test(flavor = "multi_thread")]
async fn who_reads_leaves_no_transaction_open() {
    let Some(server) = Server::start() else { return };
    let address = server.by_socket("postgres");
    taken(&*open(&address), 1, sum("a", 100, 200, 5)).await;
    let connections = "select count(*) from pg_stat_activity where application_name = 'totxegun'";
    until(&server, connections, "0").await;
    let log = || std::fs::read_to_string(server.folder.path().join("log")).unwrap();
    let before = log().len();
    let sink: Address = address.parse().unwrap();
    block_in_place(|| {
        assert_eq!(totals(&sink).unwrap().len(), 1);
        assert_eq!(hours(&sink, &[0; 32], 0).unwrap(), None);
        assert!(booked(&sink).unwrap().is_empty());
        read(&sink, &What::Totals, &mut |_| Ok(())).unwrap();
        read(&sink, &What::Totals, &mut |_| anyhow::bail!("no more is wanted")).unwrap_err();
    });
    until(&server, connections, "0").await;
    assert_eq!(&log()[before..], "");
}

/// An operator may read several databases.
#[tokio::test(flavor = "multi_thread")]
async fn what_is_odd_in_a_database_says_in_which() {
    let server = Server::start();
    for database in both(&server) {
        let sink: Address = database.address().parse().unwrap();
        taken(&*open(&database.address()), 1, sum("a", 100, 200, 5)).await;
        let place = match &sink {
            Address::Sqlite(path) => path.display().to_string(),
            Address::Postgres(server) => server.to_string(),
            other => panic!("{other:?}"),
        };
        let says = |error: anyhow::Error, what: &str| {
            let error = error.to_string();
            assert!(error.starts_with(&format!("{place}: ")) && error.contains(what), "{error}");
        };
        let month = || What::Of("1970-01".parse().unwrap());
        let asked = |what: What| block_in_place(|| read(&sink, &what, &mut |_| Ok(())));
        asked(month()).unwrap();
        database.ask("update t.series set identity = '[]'");
        says(block_in_place(|| totals(&sink)).unwrap_err(), "is not as it was written");
        says(asked(What::Totals).unwrap_err(), "is not as it was written");
        database.ask("update t.horizon set hours_from = 1000");
        says(asked(month()).unwrap_err(), "were deleted");
        database.ask("delete from t.horizon");
        says(asked(month()).unwrap_err(), "horizon");
    }
}
