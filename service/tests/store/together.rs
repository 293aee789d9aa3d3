//! Tests writes of several shards that share one transaction.

use super::proxy::Proxy;
use super::server::{wait_until, Server};
use super::work::{contents, take, wait, Chance};
use super::{make, open, STRAYS};
use std::path::Path;
use std::sync::Arc;
use std::thread::{self, JoinHandle};
use std::time::{Duration, Instant};
use totxegun::cluster::terms::InstanceReport;
use totxegun::storage::shard_store::{is_fenced, ShardStore};
use totxegun::store::postgres::{Copies, PostgresShardStore, PostgresStore};

const SHARDS: [u16; 4] = [0, 2, 4, 6];

/// A wait that is long for what goes from a shard's thread to the writer.
const LONG: Duration = Duration::from_millis(500);

/// The owner of a shard with a file.
#[derive(Clone)]
struct Owner {
    shard_store: Arc<PostgresShardStore>,
    file: u64,
}

impl Owner {
    fn of(store: &PostgresStore, shard: u16) -> Owner {
        let (shard_store, _) = take(store, shard);
        let file = shard_store.create(Path::new("journal/1")).unwrap();
        shard_store.sync().unwrap();
        let owner = Owner { shard_store, file };
        owner.write("a").unwrap();
        owner
    }

    fn write(&self, text: &str) -> std::io::Result<()> {
        let end = self.shard_store.length(self.file)?;
        self.shard_store.write_at(self.file, text.as_bytes(), end)?;
        self.shard_store.sync().map(drop)
    }

    /// Writes on a thread of its own. When this returns, that thread waits for the store.
    fn writes(&self, text: &'static str) -> JoinHandle<std::io::Result<()>> {
        let owner = self.clone();
        let writing = thread::spawn(move || owner.write(text));
        wait_until("it waits", || self.shard_store.under_way() > Duration::ZERO);
        writing
    }

    fn replace_file(&self) {
        self.shard_store.remove(Path::new("journal/1")).unwrap();
        self.shard_store.create(Path::new("journal/2")).unwrap();
        self.shard_store.sync().unwrap();
    }
}

/// As the journal's thread and the outbox do: neither keeps the other or other shards waiting.
#[test]
fn who_syncs_and_who_syncs_meanwhile_both_go_on() {
    let Some(server) = Server::start("") else { return };
    make(&server.address());
    let store = open(&server.address(), Copies::One);
    let owners = SHARDS.map(|shard| Owner::of(&store, shard));
    let until = Instant::now() + 4 * LONG;
    let works = |owner: &Owner, length: usize| {
        let owner = owner.clone();
        thread::spawn(move || {
            while Instant::now() < until {
                owner.shard_store.write_at(owner.file, &vec![b'x'; length], 0).unwrap();
                owner.shard_store.sync().unwrap();
            }
        })
    };
    // One of the three writes goes by the long lane.
    let all: Vec<_> =
        owners.iter().flat_map(|owner| [1, 1, 1 << 20].map(|length| works(owner, length))).collect();
    wait_until("all are done", || all.iter().all(JoinHandle::is_finished));
    all.into_iter().for_each(|one| one.join().unwrap());
    // A shard that is lost while its write waits is not waited for.
    let syncs = owners[0].clone();
    let waiting = thread::spawn(move || syncs.write("y"));
    owners[0].shard_store.fence_off();
    let _ = waiting.join().unwrap();
    owners[1].write("y").unwrap();
    assert!(is_fenced(&owners[0].write("z").unwrap_err()));
}

/// Otherwise each of them would wait for the lock, as for a write that waits for its standby.
#[test]
fn a_shard_whose_row_is_locked_keeps_no_other_shard_waiting() {
    let Some(server) = Server::start("") else { return };
    make(&server.address());
    let store = open(&server.address(), Copies::One);
    let owners = SHARDS.map(|shard| Owner::of(&store, shard));
    thread::scope(|scope| {
        let lock = "select 1 from totxegun_store.shard where shard = 0 for update; select pg_sleep(5)";
        scope.spawn(|| server.ask(lock));
        wait_until("the row is locked", || server.ask(&waiting("PgSleep")) == "1");
        let locked = owners[0].writes("b");
        thread::sleep(LONG / 2);
        let begun = Instant::now();
        for owner in &owners[1..] {
            owner.write("c").unwrap();
            owner.replace_file(); // by the long lane
        }
        assert!(begun.elapsed() < 4 * LONG, "it took {:?}", begun.elapsed());
        assert!(!locked.is_finished());
        assert_eq!(server.ask(&waiting("PgSleep")), "1", "the row was locked all the time");
        locked.join().unwrap().unwrap();
    });
    assert_eq!(take(&store, SHARDS[0]).1[Path::new("journal/1")], b"ab");
}

/// Starts a long write, which takes the server five seconds.
fn slow_write(server: &Server, owner: &Owner) -> JoinHandle<()> {
    server.ask(
        "create function slow() returns trigger language plpgsql as $$ begin
            if new.length > 100000 then perform pg_sleep(5); end if; return new; end $$",
    );
    server.ask(
        "create trigger slow before insert on totxegun_store.piece for each row execute function slow()",
    );
    let mut chance = Chance(3);
    let long: Vec<u8> = (0..300_000).map(|_| chance.below(256) as u8).collect();
    let owner = owner.clone();
    let writing = thread::spawn(move || {
        owner.shard_store.write_at(owner.file, &long, 1).unwrap();
        owner.shard_store.sync().unwrap();
    });
    wait_until("the long one is on its way", || server.ask(&waiting("PgSleep")) == "1");
    writing
}

#[test]
fn a_long_write_holds_up_no_short_ones() {
    let Some(server) = Server::start("") else { return };
    make(&server.address());
    let store = open(&server.address(), Copies::One);
    let owners = SHARDS.map(|shard| Owner::of(&store, shard));
    let writing = slow_write(&server, &owners[0]);
    let begun = Instant::now();
    owners[1..].iter().for_each(|owner| owner.write("b").unwrap());
    assert!(begun.elapsed() < 4 * LONG, "it took {:?}", begun.elapsed());
    assert!(!writing.is_finished());
    writing.join().unwrap();
}

/// Deletions of files and retries are long writes too.
#[test]
fn a_long_write_holds_up_long_ones_of_few_other_shards() {
    let Some(server) = Server::start("") else { return };
    make(&server.address());
    let store = open(&server.address(), Copies::One);
    let owners = [0, 1, 2, 3].map(|shard| Owner::of(&store, shard));
    let writing = slow_write(&server, &owners[0]);
    let begun = Instant::now();
    thread::scope(|scope| owners[1..].iter().for_each(|owner| drop(scope.spawn(|| owner.replace_file()))));
    assert!(begun.elapsed() < 4 * LONG, "it took {:?}", begun.elapsed());
    assert!(!writing.is_finished());
    writing.join().unwrap();
}

/// Neither a writer nor an instance that takes the shard may make more: each connection is one more process of the
/// server.
#[test]
fn who_waits_for_a_locked_row_makes_few_connections() {
    let Some(server) = Server::start("") else { return };
    let proxy = Proxy::start(server.port);
    make(&server.address());
    let store = open(&proxy.address(), Copies::One);
    let owner = Owner::of(&store, 0);
    let taken = wait(store.take(1, 0, "a")).unwrap().unwrap();
    thread::scope(|scope| {
        let lock = "select 1 from totxegun_store.shard where shard < 2 for update; select pg_sleep(4)";
        scope.spawn(|| server.ask(lock));
        wait_until("the rows are locked", || server.ask(&waiting("PgSleep")) == "1");
        let before = proxy.connections();
        let writing = owner.writes("b");
        let opening = scope.spawn(|| store.shard_store(1, taken).map(drop));
        wait_until("the rows are free", || server.ask(&waiting("PgSleep")) == "0");
        let made = proxy.connections() - before;
        writing.join().unwrap().unwrap();
        opening.join().unwrap().unwrap();
        assert!(made <= 3, "{made} connections were made");
    });
}

/// The shard's row is locked, and a read waits for it.
#[test]
fn who_is_read_meanwhile_keeps_no_other_shard_waiting() {
    let Some(server) = Server::start("") else { return };
    make(&server.address());
    let store = open(&server.address(), Copies::One);
    let [read, other] = [SHARDS[0], SHARDS[1]].map(|shard| Owner::of(&store, shard));
    // The first piece is neither in memory nor in the store any more, so the server that writes is asked for it.
    read.shard_store.write_at(read.file, &vec![7; 6 << 20], 1).unwrap();
    read.shard_store.sync().unwrap();
    server.ask("delete from totxegun_store.piece where shard = 0 and place = 0");
    thread::scope(|scope| {
        let lock = "select 1 from totxegun_store.shard where shard = 0 for update; select pg_sleep(5)";
        scope.spawn(|| server.ask(lock));
        wait_until("the row is locked", || server.ask(&waiting("PgSleep")) == "1");
        let reading = scope.spawn(|| read.shard_store.read_at(read.file, &mut [0], 0).unwrap_err());
        thread::sleep(LONG);
        assert!(!reading.is_finished(), "it waits");
        let writing = read.writes("b");
        thread::sleep(LONG);
        let begun = Instant::now();
        other.write("c").unwrap();
        assert!(begun.elapsed() < 4 * LONG, "it took {:?}", begun.elapsed());
        assert_eq!(server.ask(&waiting("PgSleep")), "1", "the row was locked all the time");
        let _ = writing.join().unwrap(); // the shard may be lost before, because of the missing piece
    });
}

fn waiting(event: &str) -> String {
    format!("select count(*) from pg_stat_activity where wait_event = '{event}'")
}

#[test]
fn writes_of_several_shards_are_one_transaction_and_each_is_fenced_by_itself() {
    let Some(server) = Server::start("") else { return };
    let proxy = Proxy::start(server.port);
    make(&server.address());
    let store = open(&proxy.address(), Copies::One);
    let direct = open(&server.address(), Copies::One);
    let owners = SHARDS.map(|shard| Owner::of(&store, shard));
    proxy.stop_after(0);
    let [text, texts @ ..] = ["b", "c", "d", "e"];
    let first = owners[0].writes(text);
    wait_until("the first is on its way", || proxy.holds());
    let others = owners[1..].iter().zip(texts);
    let others: Vec<_> = others.map(|(owner, text)| owner.writes(text)).collect();
    thread::sleep(LONG);
    let (_taker, found) = take(&direct, SHARDS[2]);
    proxy.go_on();
    first.join().unwrap().unwrap();
    let [second, third, fourth] = others.try_into().unwrap();
    second.join().unwrap().unwrap();
    fourth.join().unwrap().unwrap();
    assert!(is_fenced(&third.join().unwrap().unwrap_err()));
    assert_eq!(found[Path::new("journal/1")], b"a");
    let last = "select count(distinct made) from (select distinct on (shard) xmin::text as made from totxegun_store.piece
        where shard in (2, 6) order by shard, number desc) as last";
    assert_eq!(server.ask(last), "1", "one transaction for both");
    for (shard, text) in [(SHARDS[0], b"ab"), (SHARDS[1], b"ac"), (SHARDS[3], b"ae")] {
        assert_eq!(take(&direct, shard).1[Path::new("journal/1")], text, "shard {shard}");
    }
    assert_eq!(take(&direct, SHARDS[2]).1, found);
}

/// As after an opening that failed: an instance may take a shard again while a write of the earlier owner waits.
#[test]
fn of_two_owners_of_a_shard_in_one_transaction_the_later_one_alone_has_written() {
    let Some(server) = Server::start("") else { return };
    let proxy = Proxy::start(server.port);
    make(&server.address());
    let store = open(&proxy.address(), Copies::One);
    let other = Owner::of(&store, 5);
    for (shard, is_earlier_first) in [(0, true), (1, false)] {
        let earlier = Owner::of(&store, shard);
        let shard_store = take(&store, shard).0;
        let file = shard_store.open(Path::new("journal/1")).unwrap();
        let later = Owner { shard_store, file };
        proxy.stop_after(0);
        let first = other.writes("b");
        wait_until("the lane is busy", || proxy.holds());
        let writes = |is_earlier: bool| match is_earlier {
            true => earlier.writes("x"),
            false => later.writes("y"),
        };
        let both = [is_earlier_first, !is_earlier_first].map(writes);
        proxy.go_on();
        first.join().unwrap().unwrap();
        let [one, two] = both.map(|writing| writing.join().unwrap());
        let (of_earlier, of_later) = if is_earlier_first { (one, two) } else { (two, one) };
        of_later.unwrap();
        assert!(is_fenced(&of_earlier.expect_err("the shard is another's")));
        let written =
            format!("select count(*) from totxegun_store.piece where shard = {shard} and place = 1");
        assert_eq!(server.ask(&written), "1", "who had lost the shard wrote to it");
        assert_eq!(take(&store, shard).1[Path::new("journal/1")], b"ay");
    }
}

/// Otherwise a query on a connection to a silent server, which is not yet known to be useless, would wait half a
/// minute.
#[test]
fn who_asks_by_a_silent_connection_leaves_it_once_another_one_breaks() {
    let Some(server) = Server::start("") else { return };
    let proxy = Proxy::start(server.port);
    make(&server.address());
    let store = open(&proxy.address(), Copies::One);
    let owners = [0, 1].map(|shard| Owner::of(&store, shard));
    server.ask(
        "create function slow() returns trigger language plpgsql as $$ begin
            if new.place > 0 then perform pg_sleep(1); end if; return new; end $$",
    );
    server.ask(
        "create trigger slow before insert on totxegun_store.piece for each row execute function slow()",
    );
    let breaks_in_a_write = |owner: &Owner| {
        let writing = owner.writes("b");
        wait_until("it is on its way", || server.ask(&waiting("PgSleep")) == "1");
        server.ask("select pg_terminate_backend(pid) from pg_stat_activity where wait_event = 'PgSleep'");
        writing
    };
    for question in ["set connection_epoch = connection_epoch + 1", "as last (shard"] {
        // A new connection names the query too, so the connections of both are made before.
        for owner in &owners {
            owner.write("a").unwrap();
        }
        proxy.silence_at(question);
        let silent = breaks_in_a_write(&owners[0]);
        wait_until("it is silent", || proxy.holds());
        let begun = Instant::now();
        let other = breaks_in_a_write(&owners[1]);
        for one in [silent, other] {
            one.join().unwrap().unwrap();
        }
        let took = begun.elapsed();
        assert!(took < Duration::from_secs(12), "{question}: it took {took:?}");
        proxy.go_on();
    }
    proxy.silence_at("totxegun_store.instance as i");
    let begun = Instant::now();
    thread::scope(|scope| {
        let beat = scope.spawn(|| wait(store.heartbeat("a", "h:1", "h:1", InstanceReport::default(), 0)));
        wait_until("it is silent", || proxy.holds());
        breaks_in_a_write(&owners[1]).join().unwrap().unwrap();
        assert!(beat.join().unwrap().is_err(), "it is not known to be there");
    });
    let took = begun.elapsed();
    assert!(took < Duration::from_secs(12), "a beat took {took:?}");
    proxy.go_on();
    assert!(wait(store.heartbeat("a", "h:1", "h:1", InstanceReport::default(), 0)).is_ok());
}

/// Each of the shards repeats its write, and changes its data before that is done.
#[test]
fn what_comes_late_of_a_transaction_of_several_shards_is_done_for_none() {
    let Some(server) = Server::start("") else { return };
    let proxy = Proxy::start(server.port);
    make(&server.address());
    let store = open(&proxy.address(), Copies::One);
    let owners = SHARDS.map(|shard| Owner::of(&store, shard));
    for owner in &owners {
        owner.shard_store.create(Path::new("journal/0")).unwrap();
        owner.shard_store.sync().unwrap();
        owner.write("b").unwrap();
    }
    let together =
        "select string_agg(pid::text, ',') from pg_stat_activity where query like '%new.shard = mine.shard%'
        and pid != pg_backend_pid()";
    let together = server.ask(together);
    proxy.stop_after(0);
    let first = owners[0].writes("c");
    wait_until("the first is on its way", || proxy.holds());
    let others: Vec<_> = owners[1..].iter().map(|owner| owner.writes("c")).collect();
    thread::sleep(LONG);
    proxy.stop_after(2); // the first write, and its answer
    first.join().unwrap().unwrap();
    wait_until("the others are on their way", || proxy.holds());
    proxy.cut_held();
    for one in others {
        one.join().unwrap().unwrap();
    }
    for owner in &owners {
        owner.replace_file();
    }
    proxy.go_on();
    let left = format!("select count(*) from pg_stat_activity where pid in ({together})");
    wait_until("it is done", || server.ask(&left) == "0");
    assert_eq!(server.ask(STRAYS), "0", "what came late was done");
    for shard in SHARDS {
        let (next, found) = take(&store, shard);
        assert_eq!(found.len(), 2);
        assert!(contents(&*next) == found);
    }
}
