//! Tests a database that is not the remembered one.

use super::server::{sum, Server};
use super::{again, open, taken};
use std::sync::{Arc, Mutex};
use totxegun::sink::{self, Memory, Retention};

/// Remembers the first sink, and admits no other.
#[derive(Default)]
struct First(Mutex<Option<String>>);

impl Memory for First {
    fn admit(&self, id: Option<&str>, is_replaced: bool) -> Result<(), String> {
        let mut known = self.0.lock().unwrap();
        match (&*known, id) {
            (None, _) => *known = id.map(String::from),
            (Some(known), id) if is_replaced || id == Some(known) => {}
            _ => return Err("another sink".into()),
        }
        Ok(())
    }
}

#[tokio::test(flavor = "multi_thread")]
async fn a_database_is_known_by_its_id_once_it_is_reached() {
    let Some(server) = Server::start() else { return };
    let first = Arc::new(First::default());
    let open = |database: &str| {
        let address = server.by_socket(database).parse().unwrap();
        sink::open(&address, Retention::default(), first.clone()).map_err(|error| error.to_string())
    };
    server.ask("create database one");
    let one = open("one").ok().unwrap();
    taken(&*one, 1, sum("a", 100, 200, 5)).await;
    let id = first.0.lock().unwrap().clone();
    assert_eq!(id, Some(server.ask_of("one", "select id from totxegun.sink")));
    drop(one);
    // In another database nothing is made.
    server.ask("create database two");
    assert_eq!(open("two").err().as_deref(), Some("another sink"));
    assert_eq!(server.ask_of("two", "select count(*) from pg_namespace where nspname = 'totxegun'"), "0");
    // The same database under another name.
    server.ask("alter database one rename to three");
    taken(&*open("three").ok().unwrap(), 2, sum("a", 200, 300, 5)).await;
    // A database that could not be reached at the start is checked at the first delivery, which succeeds once the right
    // one is back.
    let late = open("late").ok().unwrap();
    server.ask("create database late");
    again(&*late, 3, sum("a", 300, 400, 5), "another sink").await;
    server.ask("drop database late");
    server.ask("alter database three rename to late");
    taken(&*late, 3, sum("a", 300, 400, 5)).await;
    assert_eq!(server.ask_of("late", "select total from totxegun.totals"), "15");
}

/// What is too old by our options stays in a database that is not ours.
#[tokio::test(flavor = "multi_thread")]
async fn nothing_is_deleted_in_another_database() {
    let Some(server) = Server::start() else { return };
    let first = Arc::new(First::default());
    let open_ours = |database: &str| {
        let keep =
            Retention { intervals: Some(std::time::Duration::from_secs(86_400)), ..Retention::default() };
        sink::open(&server.by_socket(database).parse().unwrap(), keep, first.clone()).unwrap()
    };
    server.ask("create database ours; create database theirs");
    drop(open_ours("ours"));
    taken(&*open(&server.by_socket("theirs")), 1, sum("a", 100, 200, 5)).await;
    server.ask("alter database theirs rename to hidden");
    let late = open_ours("theirs");
    server.ask("alter database hidden rename to theirs");
    again(&*late, 2, sum("a", 300, 400, 5), "another sink").await;
    tokio::time::sleep(std::time::Duration::from_secs(4)).await;
    assert_eq!(server.ask_of("theirs", "select count(*) from totxegun.intervals"), "1");
    // In ours such an interval is deleted.
    let ours = open_ours("ours");
    taken(&*ours, 1, sum("a", 100, 200, 5)).await;
    while server.ask_of("ours", "select count(*) from totxegun.intervals") != "0" {
        tokio::time::sleep(std::time::Duration::from_millis(50)).await;
    }
}
