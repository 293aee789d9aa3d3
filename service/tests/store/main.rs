//! The store in PostgreSQL, against servers of its own. Without `initdb` nothing is tried, and a line says so.

mod back;
mod faults;
mod lost;
mod made;
mod moved;
mod owners;
mod proxy;
mod server;
mod sink;
mod speed;
#[path = "../../src/storage/test_runs.rs"]
mod test_runs;
mod together;
mod work;

use server::Server;
use test_runs::runs;
use totxegun::storage::shard_store::ShardStore;
use totxegun::store::postgres::{address, Copies, PostgresStore, Server as StoreServer, StoreFault};
use work::{take, Work};

const SHARDS: u16 = 64;
/// Pieces of files that don't exist any more.
const STRAYS: &str = "select count(*) from totxegun_store.piece
    where (shard, file) not in (select shard, file from totxegun_store.file)";

fn open(text: &str, copies: Copies) -> PostgresStore {
    opened(&address(text).unwrap(), copies, "integer-unit=auto").unwrap()
}

/// Opens the store like an instance that reads posts in this way.
fn opened(server: &StoreServer, copies: Copies, reading: &str) -> Result<PostgresStore, StoreFault> {
    let store = PostgresStore::join(server, copies)?;
    store.agree(reading)?;
    Ok(store)
}

fn make(text: &str) {
    PostgresStore::make(&address(text).unwrap(), SHARDS).unwrap();
}

#[test]
fn a_drive_is_as_a_map_has_it_and_the_next_owner_finds_what_was_synced() {
    let Some(server) = Server::start("") else { return };
    make(&server.address());
    let store = open(&server.address(), Copies::One);
    let (mut owners, mut syncs) = (0, 0);
    for seed in 0..runs(4, 12) {
        let shard = (seed % 3) as u16;
        let mut work = Work::take(&store, shard, seed);
        for _ in 0..12 {
            assert!(work.round());
            work.check();
        }
        assert_eq!(server.ask(STRAYS), "0");
        work.step();
        let (next, found) = take(&store, shard);
        assert!(found == work.synced, "seed {seed}");
        assert!(!work.sync(), "the shard is another's");
        assert!(work.shard_store.create("journal/x".as_ref()).is_err());
        (owners, syncs) = (owners + 1, syncs + work.syncs);
        drop(next);
    }
    println!("{owners} owners, {syncs} syncs: all of it was found");
}
