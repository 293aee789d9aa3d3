//! Measures syncs a second, compared with `fdatasync` in a folder, and how much they write. It proves nothing, so it
//! only runs when asked: `cargo test --release --test store speed -- --ignored --nocapture`.

use super::server::Server;
use super::work::take;
use super::{make, open};
use std::io::Write;
use std::os::unix::fs::FileExt;
use std::path::Path;
use std::sync::atomic::{AtomicU64, Ordering::SeqCst};
use std::sync::Mutex;
use std::thread;
use std::time::{Duration, Instant};
use totxegun::storage::shard_store::ShardStore;
use totxegun::store::postgres::Copies;

const LONG: Duration = Duration::from_secs(2);
/// About the sizes in the journal of a post with one point and one with twenty, as digits that pack as well as those of
/// a journal.
const SIZES: [usize; 2] = [800, 6_600];

fn post(size: usize, number: u64) -> Vec<u8> {
    let mut bytes = Vec::new();
    while bytes.len() < size {
        let place = bytes.len() as u64;
        write!(bytes, "{{\"asInt\":\"{}\",\"timeUnixNano\":\"17640{}\"}},", number % 97, number * 7 + place)
            .unwrap();
    }
    bytes.truncate(size);
    bytes
}

/// Runs writers, each of which waits for its post's sync. Returns posts a second, and the median and the 99th
/// percentile of the waits in ms.
fn run(writers: usize, size: usize, put: impl Fn(&[u8], u64) + Sync) -> (f64, f64, f64) {
    let at = AtomicU64::new(0);
    let begun = Instant::now();
    let waits = thread::scope(|scope| {
        let writer = || {
            let mut waits = Vec::new();
            while begun.elapsed() < LONG {
                let waited = Instant::now();
                let place = at.fetch_add(size as u64, SeqCst);
                put(&post(size, place), place);
                waits.push(waited.elapsed().as_secs_f64() * 1e3);
            }
            waits
        };
        let all: Vec<_> = (0..writers).map(|_| scope.spawn(writer)).collect();
        all.into_iter().flat_map(|one| one.join().unwrap()).collect::<Vec<f64>>()
    });
    let took = begun.elapsed().as_secs_f64();
    let mut waits = waits;
    waits.sort_by(f64::total_cmp);
    (waits.len() as f64 / took, waits[waits.len() / 2], waits[waits.len() * 99 / 100])
}

#[test]
#[ignore = "it measures"]
fn syncs_a_second() {
    let Some(server) = Server::start("") else { return };
    let standby = server.standby();
    make(&server.address());
    let store = open(&server.address(), Copies::Two);
    let folder = tempfile::tempdir().unwrap();
    let file = std::fs::File::create(folder.path().join("a")).unwrap();
    let wal = || server.ask("select pg_wal_lsn_diff(pg_current_wal_lsn(), '0/0')").parse::<f64>().unwrap();
    for (number, size) in SIZES.into_iter().cycle().take(6).enumerate() {
        let (written, durable) = (AtomicU64::new(0), Mutex::new(0));
        let on_disk = run(64, size, |bytes, at| {
            file.write_all_at(bytes, at).unwrap();
            let ticket = written.fetch_add(1, SeqCst);
            let mut durable = durable.lock().unwrap(); // one sync for all that wait, as the service does it
            if *durable <= ticket {
                let end = written.load(SeqCst);
                file.sync_data().unwrap();
                *durable = end;
            }
        });
        let (shard_store, _) = take(&store, number as u16);
        let journal = shard_store.create(Path::new("journal/1")).unwrap();
        let (before, commits) = (wal(), store.counts().commits.load(SeqCst));
        let in_store = run(64, size, |bytes, at| {
            shard_store.write_at(journal, bytes, at).unwrap();
            shard_store.sync().unwrap();
        });
        let posts = in_store.0 * LONG.as_secs_f64();
        let commits = store.counts().commits.load(SeqCst) - commits;
        println!(
            "{size} bytes: folder {:.0}/s p50 {:.1} p99 {:.1} ms; store {:.0}/s p50 {:.1} p99 {:.1} ms, {:.0} syncs/s, {:.0} bytes of WAL a post",
            on_disk.0, on_disk.1, on_disk.2, in_store.0, in_store.1, in_store.2,
            commits as f64 / LONG.as_secs_f64(), (wal() - before) / posts
        );
    }
    drop(standby);
}
