//! Posts with units of measure that the outbox has to know first.

use super::*;
use crate::book::SharedBook;
use crate::otlp::{taken_of_test, Encoding, FinerUnits};
use crate::storage::{Disk, Durability, Folder};
use std::sync::atomic::{AtomicBool, Ordering::SeqCst};

/// Otherwise two posts could have the outbox keep the same units at once, and neither would know what it has.
#[tokio::test]
async fn the_outbox_is_told_of_units_by_one_at_a_time_also_where_the_sender_goes_away() {
    let (place, open) = (tempfile::tempdir().unwrap(), Arc::new(AtomicBool::new(true)));
    let folder = Folder::open_on(Disk::held(open.clone()), place.path(), Durability::Process).unwrap();
    let (journal, outbox) = folder.shard().unwrap();
    let finer_units = FinerUnits::of(["auto", "ms"].map(|choice| choice.parse().unwrap())).unwrap();
    let reading = Arc::new(Reading { finer_units, ..Reading::default() });
    reading.finer_units.know(&outbox, &journal).unwrap();
    for (unit, value) in [("s", r#""asDouble":0.25"#), ("ms", r#""asInt":"7""#)] {
        let unit = format!(r#""unit":"{unit}","name""#);
        let body = point(10).replace(r#""name""#, &unit).replace(r#""asInt":"1""#, value);
        taken_of_test(Encoding::Json, body.into(), &reading).unwrap();
    }
    assert!(reading.finer_units.has_unkept());
    let (shared_book, shared) = (SharedBook::new(10).unwrap(), Shared::of_test());
    let shard = Shard::of(Some(reading.clone()), 0, journal, Arc::new(outbox), shared_book, &shared);
    shard.open();
    open.store(false, SeqCst);
    let outcome = tokio::select! {
        biased;
        outcome = shard.post("A".into(), point(10).into()) => Some(outcome),
        () = std::future::ready(()) => None, // the sender goes away
    };
    let has_turn = shard.keeping.try_lock().is_err();
    // Before an assertion that may fail: the drop of the journal waits for the disk.
    open.store(true, SeqCst);
    assert!(outcome.is_none() && has_turn);
    drop(shard.keeping.lock().await);
    assert!(!reading.finer_units.has_unkept());
}
