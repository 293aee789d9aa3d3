//! So many series that their keys are packed, in several parts: each is found by its own key.

use super::*;
use crate::storage::records;

const MANY: u64 = 700;

/// The end of each series in an outbox of these.
fn wanted(ends: &[(u64, u64)]) -> HashMap<SeriesKey, u64> {
    let named = |(number, end): &(u64, u64)| (key_of(&format!("[\"s{number}\"]")), *end);
    ends.iter().map(named).collect()
}

fn commit(outbox: &Outbox, ends: &[(u64, u64)], journal: u64) {
    let all = wanted(ends);
    let all: Vec<(&str, u64)> = all.iter().map(|(key, end)| (&*key.0, *end)).collect();
    let owners: Vec<String> = all.iter().map(|(key, _)| format!("s{}", key.len())).collect();
    let owners: Vec<(&str, &str)> =
        all.iter().zip(&owners).map(|((key, _), owner)| (*key, &**owner)).collect();
    commit_owned(outbox, &[body(&all, "")], journal, &owners);
}

fn found(outbox: &Outbox) -> HashMap<SeriesKey, u64> {
    let all = outbox.series().into_iter();
    let all = all.map(|(key, series)| {
        assert_eq!(outbox.frontier(&key.digest()), series.frontier, "{key:?}");
        assert_eq!(outbox.owner(&key.digest()).as_deref(), series.owner.as_deref());
        (key, series.frontier)
    });
    all.collect()
}

/// Also after a snapshot that gave series other ids, because some were forgotten.
#[test]
fn many_series_come_back_with_their_keys() {
    let folder = tempfile::tempdir().unwrap();
    let mut all: Vec<(u64, u64)> = (0..MANY).map(|number| (number, number + 1)).collect();
    {
        let outbox = open(folder.path());
        commit(&outbox, &all, 2);
        assert_eq!(outbox.series_by_owner()["s6"], 10);
        assert_eq!(outbox.ahead_of(MANY - 1), (1, Some(key_of(&format!("[\"s{}\"]", MANY - 1)))));
        kill(outbox);
    }
    for start in 0..4 {
        let outbox = open(folder.path());
        assert_eq!(found(&outbox), wanted(&all), "start {start}");
        let left: Vec<SeriesKey> = wanted(&all[..100]).into_keys().collect();
        outbox.remove_series(&left).unwrap();
        assert_eq!(found(&outbox), wanted(&all[100..]), "start {start}");
        // Some series are left out, a new one is added, and the others go on.
        all.drain(..99);
        all.push((MANY + start, 1));
        all.iter_mut().for_each(|one| one.1 += 1000);
        commit(&outbox, &all, 3 + start);
        assert_eq!(found(&outbox), wanted(&all), "start {start}");
        let to = start % 2 * 1500;
        outbox.put_back(&wanted(&all[..50]).into_keys().collect::<Vec<_>>(), to).unwrap();
        all[..50].iter_mut().for_each(|one| one.1 = one.1.min(to));
        assert_eq!(found(&outbox), wanted(&all), "start {start}");
        kill(outbox);
    }
}

/// The bytes of the format: all programs of one version write and read the same.
#[test]
fn a_snapshot_has_one_form() {
    let text = r#"{"facts":{"next":4,"acknowledged":3,"journal":7,"quarantined":["q"],"beside":[["m","ms"]],"since":{"made":1,"forgotten":2},"forgotten":[[1,2,3,4,5],[1,2,3,5,4]],"epochs":[["r",0],["e",1]]},"runs":[[1,3,4,[5,6],2,[1,2]]],"recent":[[1,281474976710655,7]],"series":[["a",5,6,null],["[\"b\"]",9,8,"me"]]}"#;
    let mut state = snapshot::Snapshot::read(&rows::deflated(text.as_bytes())).unwrap();
    let b = &state.series.get(&key_of("[\"b\"]").digest()).unwrap().series;
    assert_eq!((b.frontier, b.seen, b.owner.as_deref()), (9, 8, Some("me")));
    assert_eq!(b.run, Some(run_of(3, 5, &[5, 6])));
    assert_eq!(b.recent.0.map(u64::from), [(1 << 48) - 1, 7]);
    assert_eq!(state.facts.beside, [unit_of("m", "ms")].into());
    let digest = [1u64, 2, 3, 4].map(u64::to_be_bytes).concat().try_into().unwrap();
    assert_eq!(state.facts.forgotten.of(&digest), 5);
    let record = state.snapshot().records();
    let (mut packed, mut rest) = (Vec::new(), &record[..]);
    while let Some(head) = rest.first_chunk() {
        let length = records::whole_length(head).unwrap();
        packed.extend_from_slice(&rest[records::HEAD..length]);
        rest = &rest[length..];
    }
    let written = rows::inflated(&packed).unwrap();
    assert_eq!(String::from_utf8(written).unwrap(), text);
}

/// Otherwise such a record would be written, and no start could read it.
#[test]
fn a_commit_and_a_snapshot_may_be_longer_than_a_record() {
    let folder = tempfile::tempdir().unwrap();
    let mut numbers = TestRandom(1);
    let mut noise = || (0..48_000).map(|_| char::from(b'0' + numbers.below(64) as u8)).collect::<String>();
    let keys: Vec<String> = (0..150).map(|_| noise()).collect();
    let ends: Vec<(&str, u64)> = keys.iter().map(|key| (&**key, 7)).collect();
    let outbox = open(folder.path());
    outbox.commit(&[body(&ends, "")], 2).unwrap();
    let wanted: HashMap<SeriesKey, u64> = ends.iter().map(|(key, end)| (key_of(key), *end)).collect();
    kill(outbox);
    // The first start reads the commit, the others read the snapshot that it wrote.
    for _ in 0..3 {
        let outbox = open(folder.path());
        assert_eq!(found(&outbox), wanted);
        let snapshot = std::fs::metadata(last_segment(folder.path())).unwrap().len();
        assert!(snapshot > records::LARGEST as u64, "{snapshot}");
        kill(outbox);
    }
}
