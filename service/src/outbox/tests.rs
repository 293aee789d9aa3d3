//! What is committed is read back. `brought` continues another outbox, `damage` tests what goes wrong, `many` has more
//! series than one block of keys, `model` tries any order of calls, `size` checks bytes and times.

mod brought;
mod damage;
mod many;
mod model;
mod power;
mod size;

use super::*;
use crate::runs::{EndedRun, Point};
use crate::storage::disk::Call;
use crate::storage::test_random::TestRandom;
use crate::storage::test_runs::runs;
use std::fs::File;
use std::path::Path;
use std::sync::atomic::{AtomicBool, AtomicUsize};

/// Every series is old enough.
const AT_ONCE: Age = Age { before: u64::MAX, age: Duration::ZERO };

/// The bodies in these tests: `[[[key, end], ..], filling]`.
fn body(ends: &[(&str, u64)], filling: &str) -> Vec<u8> {
    serde_json::to_vec(&(ends, filling)).unwrap()
}

fn read_ends(body: &[u8]) -> Result<Vec<(SeriesKey, u64)>, NotForwarded> {
    let read: (Vec<(String, u64)>, String) =
        serde_json::from_slice(body).map_err(|error| NotForwarded(error.to_string()))?;
    Ok(read.0.into_iter().map(|(key, end)| (key_of(&key), end)).collect())
}

fn key_of(key: &str) -> SeriesKey {
    SeriesKey(key.into())
}

fn unit_of(metric: &str, unit: &str) -> UnitOfMetric {
    (metric.into(), unit.into())
}

fn open_on(disk: &Disk, path: &Path, epoch: &str, longest: u64) -> Result<Outbox, Fault> {
    let free_space = Arc::new(FreeSpace::new(Path::new("/"))?);
    Outbox::read_with(disk, path, epoch, free_space, read_ends, longest)?.begun()
}

fn open(path: &Path) -> Outbox {
    open_on(&Disk::default(), path, "e", SEGMENT).unwrap()
}

/// The owner of each series.
fn owned(owners: &[(&str, &str)]) -> Recents {
    let noted = |owner: &str| Noted { owner: Some(owner.into()), ..Noted::default() };
    let by_digest = owners.iter().map(|(key, owner)| (key_of(key).digest(), noted(owner)));
    Recents { by_digest: by_digest.collect(), ..Recents::default() }
}

/// A group whose series have these owners.
fn commit_owned(outbox: &Outbox, bodies: &[Vec<u8>], journal: u64, owners: &[(&str, &str)]) {
    outbox.commit_with(bodies, journal, Runs::new(), &owned(owners)).unwrap();
}

/// Leaves the files as `kill -9` does.
fn kill(outbox: Outbox) {
    std::mem::forget(outbox);
}

fn last_segment(path: &Path) -> PathBuf {
    segment::path(path, *segment::numbers(&Disk::default(), path).unwrap().last().unwrap())
}

async fn take(outbox: &Outbox) -> (u64, Vec<u8>) {
    let (waiting, body) = outbox.first().await.unwrap();
    outbox.acknowledge(waiting.number).unwrap();
    (waiting.number, body)
}

/// Everything that an outbox answers, except bodies.
fn view(outbox: &Outbox) -> String {
    let mut series: Vec<_> = outbox.series().into_iter().collect();
    series.sort_by(|one, other| one.0.cmp(&other.0));
    let (count, bytes, first) = outbox.waiting();
    format!(
        "{} {} {series:?} {:?} {:?} {count} {bytes} {first:?}",
        outbox.epoch(),
        outbox.journal(),
        outbox.quarantined(),
        outbox.beside()
    )
}

/// A copy of a folder with another last segment.
fn copied(from: &Path, last: &[u8]) -> tempfile::TempDir {
    let to = crate::storage::power::place();
    for number in segment::numbers(&Disk::default(), from).unwrap() {
        std::fs::copy(segment::path(from, number), segment::path(to.path(), number)).unwrap();
    }
    std::fs::write(last_segment(from).strip_prefix(from).map(|name| to.path().join(name)).unwrap(), last)
        .unwrap();
    to
}

#[tokio::test]
async fn groups_come_back_with_their_numbers_bytes_and_series() {
    let folder = tempfile::tempdir().unwrap();
    let outbox = open(folder.path());
    let bodies = [body(&[("a", 5), ("b", 7), ("a", 9)], "one"), body(&[("c", 3)], "two")];
    let owners = owned(&[("a", "me"), ("unknown", "you")]);
    let committed = outbox.commit_with(&bodies, 4, Runs::new(), &owners).unwrap();
    assert_eq!(committed.unowned, (2, Some(key_of("b"))), "these are in no post");
    commit_owned(&outbox, &[], 5, &[("a", "another")]);
    assert_eq!((outbox.journal(), outbox.series_count(), outbox.waiting().0), (5, 3, 2));
    let before = view(&outbox);
    kill(outbox);
    let outbox = open(folder.path());
    assert_eq!(view(&outbox), before);
    let series = outbox.series();
    assert_eq!((series[&key_of("a")].frontier, series[&key_of("a")].owner.as_deref()), (9, Some("me")));
    assert_eq!(series[&key_of("c")].owner, None);
    assert!(outbox.acknowledge(2).is_err(), "it is not the first that waits");
    assert_eq!(take(&outbox).await, (1, bodies[0].clone()));
    drop(outbox);
    let outbox = open(folder.path());
    outbox.acknowledge(1).unwrap();
    assert_eq!(take(&outbox).await, (2, bodies[1].clone()));
    assert_eq!(outbox.waiting(), (0, 0, None));
    outbox.commit(&bodies[1..], 6).unwrap();
    assert_eq!(take(&outbox).await.0, 3);
    let late = Arc::new(outbox);
    let waits = late.clone();
    let first = tokio::spawn(async move { waits.first().await.unwrap().0.number });
    tokio::time::sleep(Duration::from_millis(20)).await;
    late.commit(&bodies[1..], 7).unwrap();
    assert_eq!(first.await.unwrap(), 4);
}

#[tokio::test]
async fn starts_that_end_at_once_leave_one_segment() {
    let folder = tempfile::tempdir().unwrap();
    let outbox = open(folder.path());
    let first = body(&[("a", 1)], "first");
    outbox.commit(std::slice::from_ref(&first), 2).unwrap();
    outbox.quarantine("s").unwrap();
    let before = view(&outbox);
    drop(outbox);
    for _ in 0..3 {
        drop(open(folder.path()));
        kill(open(folder.path()));
    }
    assert_eq!(segment::numbers(&Disk::default(), folder.path()).unwrap(), [1, 2]);
    let outbox = open(folder.path());
    assert_eq!(view(&outbox), before);
    assert_eq!(take(&outbox).await, (1, first));
    kill(outbox);
    drop(open(folder.path()));
    let outbox = open(folder.path());
    assert_eq!(
        (outbox.waiting().0, segment::numbers(&Disk::default(), folder.path()).unwrap().len()),
        (0, 1)
    );
}

#[tokio::test]
async fn what_waits_keeps_its_epoch() {
    let folder = tempfile::tempdir().unwrap();
    let outbox = open(folder.path());
    outbox.commit(&[body(&[], "a"), body(&[], "b")], 2).unwrap();
    drop(outbox);
    let outbox = open_on(&Disk::default(), folder.path(), "f", SEGMENT).unwrap();
    outbox.commit(&[body(&[], "c")], 3).unwrap();
    drop(outbox);
    let outbox = open_on(&Disk::default(), folder.path(), "f", SEGMENT).unwrap();
    for (epoch, number) in [("e", 1), ("e", 2), ("f", 3)] {
        assert_eq!(outbox.epoch(), epoch);
        assert_eq!(take(&outbox).await.0, number);
    }
    assert_eq!(outbox.epoch(), "f");
}

/// Otherwise a late repeat would be counted again after a renewal, if the clock was set by more than the age of a
/// series.
#[test]
fn a_clock_that_is_set_forgets_no_series_of_this_run() {
    let folder = tempfile::tempdir().unwrap();
    let outbox = open(folder.path());
    outbox.commit(&[body(&[("a", 1)], "")], 2).unwrap();
    let far_ahead = Age { before: u64::MAX, age: Duration::from_secs(3600) };
    assert_eq!(outbox.forget_of(far_ahead, &HashSet::new()).unwrap(), []);
    drop(outbox);
    let later = open(folder.path()).forget_of(far_ahead, &HashSet::new());
    assert_eq!(later.unwrap(), [key_of("a")], "a later run goes by the clock");
}

#[test]
fn a_series_that_is_kept_is_not_forgotten() {
    let folder = tempfile::tempdir().unwrap();
    let outbox = open(folder.path());
    outbox.commit(&[body(&[("a", 1), ("b", 1)], "")], 2).unwrap();
    assert_eq!(outbox.forget_series(Duration::MAX, &HashSet::new()).unwrap(), []);
    let keep = HashSet::from([key_of("b").digest()]);
    assert_eq!(outbox.forget_of(AT_ONCE, &keep).unwrap(), [key_of("a")]);
    drop(outbox);
    let outbox = open(folder.path());
    assert_eq!(outbox.series_count(), 1);
    assert!(!outbox.series().contains_key(&key_of("a")));
}

fn run_of(start: u64, time: u64, words: &[u64]) -> Arc<Run> {
    let last = Point { start, time, words: words.to_vec() };
    Arc::new(Run { last, interval: time - start, before: EndedRun { start: 1, time: 2 } })
}

/// As durable as the end of the series, and by the same record.
#[test]
fn runs_of_a_group_last() {
    let folder = tempfile::tempdir().unwrap();
    let path = folder.path();
    let since = open(path).since();
    assert!(since.made > 1_700_000_000_000_000_000 && since.forgotten == 0);
    let runs = |all: &[(&str, Arc<Run>)]| -> Runs {
        let all = all.iter().map(|(key, run)| (key_of(key).digest(), run.clone()));
        all.collect()
    };
    let found = |outbox: &Outbox| {
        let all = outbox.series().into_iter().map(|(key, series)| (key.0.to_string(), series.run));
        let mut all: Vec<_> = all.map(|(key, run)| (key, run.map(|run| (*run).clone()))).collect();
        all.sort_by(|one, other| one.0.cmp(&other.0));
        all
    };
    let (a, b, late) = (run_of(3, 10, &[5]), run_of(4, 11, &[2, 1, 9, 1, 1]), run_of(3, 20, &[6]));
    {
        let outbox = open(path);
        let given = runs(&[("a", a.clone()), ("b", b.clone()), ("held", late.clone())]);
        let bodies = [body(&[("a", 10), ("b", 11), ("c", 12)], "")];
        let saved = outbox.commit_with(&bodies, 2, given, &Recents::default()).unwrap().runs;
        assert_eq!(saved, runs(&[("a", a.clone()), ("b", b.clone())]), "what the group has");
        // The book is ahead of the run: it also has delta points.
        let late = runs(&[("a", late.clone())]);
        outbox.commit_with(&[body(&[("a", 30)], "")], 3, late, &Recents::default()).unwrap();
    }
    let wanted = [
        ("a".to_string(), Some((*late).clone())),
        ("b".to_string(), Some((*b).clone())),
        ("c".to_string(), None),
    ];
    // The first start reads the commits, the others read the snapshot that it wrote.
    for start in 0..3 {
        let outbox = open(path);
        assert_eq!(found(&outbox), wanted, "{start}");
        assert_eq!((outbox.since(), outbox.frontier(&key_of("a").digest())), (since, 30));
    }
}

/// By the id of a series if it has one, else by its key; also for a series that is in no group, since its sender is
/// quarantined.
#[test]
fn what_posts_had_last_is_known_over_starts() {
    let folder = tempfile::tempdir().unwrap();
    let path = folder.path();
    let digest = |number: u64| PointsDigest::from(number);
    let recent = |last: u64, before: u64| Recent([last, before].map(digest));
    let by_digest = |all: &[(&str, Recent)]| {
        let noted = |recent| Noted { owner: None, recent };
        let by_digest = all.iter().map(|(key, recent)| (key_of(key).digest(), noted(*recent)));
        Recents { by_digest: by_digest.collect(), ..Recents::default() }
    };
    let found = |outbox: &Outbox| {
        ["a", "b", "c", "held"].map(|key| outbox.recent(&key_of(key).digest()).0.map(u64::from))
    };
    {
        let outbox = open(path);
        let given = by_digest(&[("a", recent(5, 0)), ("b", recent(6, 4)), ("held", recent(9, 0))]);
        let bodies = [body(&[("a", 10), ("b", 11), ("c", 12)], "")];
        outbox.commit_with(&bodies, 2, Runs::new(), &given).unwrap();
        let (numbering, ids) = outbox.ids([key_of("a").digest(), key_of("held").digest()].iter());
        assert!(ids[0].is_some() && ids[1].is_none());
        let by_id = vec![(ids[0].unwrap(), recent(7, 0))];
        let given = Recents { numbering, by_id, ..by_digest(&[("b", recent(8, 6))]) };
        outbox.commit_with(&[body(&[("b", 20)], "")], 3, Runs::new(), &given).unwrap();
        // Ids of another numbering may belong to other series.
        let given =
            Recents { numbering: numbering + 1, by_id: vec![(ids[0].unwrap(), recent(1, 1))], ..given };
        outbox
            .commit_with(
                &[body(&[("b", 30)], "")],
                4,
                Runs::new(),
                &Recents { by_digest: [].into(), ..given },
            )
            .unwrap();
    }
    let wanted = [[7, 5], [8, 6], [0, 0], [0, 0]];
    // The first start reads the commits, the others read the snapshot that it wrote.
    for start in 0..3 {
        assert_eq!(found(&open(path)), wanted, "{start}");
    }
    let outbox = open(path);
    outbox.put_back(&[key_of("a"), key_of("b")], 15).unwrap();
    assert_eq!(
        found(&outbox),
        [[7, 5], [0, 0], [0, 0], [0, 0]],
        "what is taken back is no repeat when it comes again"
    );
    drop(outbox);
    assert_eq!(found(&open(path)), [[7, 5], [0, 0], [0, 0], [0, 0]]);
}

/// A run that continues after the series was forgotten must not count again.
#[test]
fn what_was_forgotten_is_known_by_when_it_ended() {
    let folder = tempfile::tempdir().unwrap();
    let made = {
        let outbox = open(folder.path());
        outbox.commit(&[body(&[("a", 40), ("b", 70), ("c", 90)], "")], 2).unwrap();
        let keep = HashSet::from([key_of("c").digest()]);
        assert_eq!(outbox.forget_of(AT_ONCE, &keep).unwrap().len(), 2);
        outbox.since().made
    };
    for _ in 0..2 {
        let (outbox, wanted) = (open(folder.path()), Since { made, forgotten: 0 });
        let ends = ["a", "b", "c"].map(|key| outbox.forgotten().of(&key_of(key).digest()));
        assert_eq!((ends, outbox.since()), ([40, 70, 0], wanted), "by series");
    }
}
