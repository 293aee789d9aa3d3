//! Tests trouble around the file: nothing is lost, and the reason is reported.

use super::*;
use rusqlite::Connection;
use std::os::unix::fs::PermissionsExt;

#[test]
fn a_transaction_that_was_cut_is_not_there() {
    let mut trial = Trial::new();
    trial.taken(1, sum("a", 10, 20, 1));
    let other = Connection::open(trial.path()).expect("open");
    other
        .execute_batch(
            "begin immediate; insert into requests values (99, 0, 'e', 2, 0, 1, x'00', null, 1, 2)",
        )
        .expect("a row");
    drop(other);
    trial.taken(2, sum("a", 20, 30, 2));
    assert_eq!(trial.totals(), only("a", 3, 2));
    // As if killed after the log's last commit: another process opens the files as they are on disk.
    let copy = tempfile::tempdir().expect("a folder");
    for name in ["totals.db", "totals.db-wal"] {
        std::fs::copy(trial.folder.path().join(name), copy.path().join(name)).expect("a copy");
    }
    let log =
        std::fs::OpenOptions::new().write(true).open(copy.path().join("totals.db-wal")).expect("the log");
    log.set_len(log.metadata().expect("its length").len() - 100).expect("a torn end");
    let mut torn = Trial { writer: writer(&copy.path().join("totals.db")), folder: copy };
    torn.taken(1, sum("a", 10, 20, 1));
    torn.taken(2, sum("a", 20, 30, 2));
    assert_eq!(torn.totals(), only("a", 3, 2));
}

#[test]
fn a_lock_is_waited_for() {
    let mut trial = Trial::new();
    trial.taken(1, sum("a", 10, 20, 1));
    let other = Connection::open(trial.path()).expect("open");
    other.execute_batch("begin immediate").expect("a lock");
    trial.again(2, sum("new", 20, 30, 2), "locked");
    other.execute_batch("rollback").expect("no lock");
    trial.taken(2, sum("new", 20, 30, 2));
    assert_eq!(trial.totals(), [("a".into(), 1, 1), ("new".into(), 2, 1)]);
}

/// Deletions wait, and deliveries go on.
#[test]
fn a_lock_holds_up_the_upkeep_alone() {
    let mut trial = Trial::new();
    trial.taken(1, sum("a", 10, 20, 1));
    trial.writer.upkeep =
        Upkeep::new(Retention { intervals: Some(Duration::from_secs(1)), ..Retention::default() });
    let other = Connection::open(trial.path()).expect("open");
    other.execute_batch("begin immediate").expect("a lock");
    assert!(!trial.writer.keep_up());
    assert!(!trial.writer.is_kept && trial.writer.store.is_some());
    other.execute_batch("rollback").expect("no lock");
    trial.taken(2, sum("a", 20, 30, 2));
    assert!(!trial.writer.keep_up(), "it is not due yet");
    assert_eq!(trial.ask("select count(*) from intervals"), "2");
    assert_eq!(trial.step_at(10_000_000_000), Ok(true));
    assert_eq!(trial.ask("select count(*) from intervals"), "0");
    assert_eq!(trial.totals(), only("a", 3, 2));
}

/// A cached row number is not used after another process has written.
#[test]
fn another_writer_is_noticed() {
    let mut trial = Trial::new();
    trial.taken(1, sum("a", 10, 20, 1));
    let emptied = "pragma foreign_keys = off; delete from interval_rows; delete from series_totals; delete from series; delete from requests";
    trial.ask(emptied);
    trial.taken(2, sum("b", 10, 20, 2));
    trial.taken(3, sum("a", 10, 20, 4));
    assert_eq!(trial.totals(), [("a".into(), 4, 1), ("b".into(), 2, 1)]);
}

#[test]
fn a_file_that_is_moved_is_not_written_on() {
    let mut trial = Trial::new();
    trial.taken(1, sum("a", 10, 20, 1));
    std::fs::remove_file(trial.path()).expect("it is there");
    trial.taken(2, sum("a", 20, 30, 2));
    assert_eq!(trial.totals(), only("a", 2, 1));
}

/// Otherwise rows would go into a log without a name, and be lost with the process.
#[test]
fn a_log_that_is_deleted_loses_nothing() {
    for (gone, is_written) in
        [(&["-wal"][..], true), (&["-shm"], true), (&["-wal", "-shm"], true), (&["-wal"], false)]
    {
        let mut trial = Trial::new();
        trial.taken(1, sum("a", 10, 20, 1));
        for end in gone {
            std::fs::remove_file(trial.folder.path().join(format!("totals.db{end}"))).expect("it is there");
        }
        match is_written {
            true => trial.taken(2, sum("a", 20, 30, 2)),
            false => trial.writer.look(),
        }
        // As if killed after that: another process opens the files as they are on disk.
        let copy = tempfile::tempdir().expect("a folder");
        for name in ["totals.db", "totals.db-wal"] {
            std::fs::copy(trial.folder.path().join(name), copy.path().join(name)).expect("a copy");
        }
        let copied = Trial { writer: writer(&copy.path().join("totals.db")), folder: copy };
        let expected = if is_written { only("a", 3, 2) } else { only("a", 1, 1) };
        assert_eq!(copied.totals(), expected, "{gone:?}");
    }
}

#[test]
fn a_missing_folder_is_told_and_waited_for() {
    let mut trial = Trial::new();
    let folder = trial.folder.path().join("later");
    trial.writer = writer(&folder.join("totals.db"));
    trial.again(1, sum("a", 10, 20, 1), "folder is missing");
    std::fs::create_dir(&folder).expect("a folder");
    trial.taken(1, sum("a", 10, 20, 1));
}

/// Root may write everything, so only the kind of the file can prevent it.
#[test]
fn what_can_not_be_written_is_told_and_waited_for() {
    let mut trial = Trial::new();
    trial.taken(1, sum("a", 10, 20, 1));
    trial.writer.store = None;
    let mode = |mode| {
        std::fs::set_permissions(trial.folder.path(), std::fs::Permissions::from_mode(mode)).expect("a mode")
    };
    mode(0o500);
    let writable = std::fs::write(trial.folder.path().join("probe"), "").is_ok();
    mode(0o700);
    if !writable {
        mode(0o500);
        assert_eq!(trial.totals(), only("a", 1, 1), "it can be read all the same");
        trial.again(2, sum("a", 20, 30, 2), "write the file and its folder");
        trial.writer.store = None;
        std::fs::set_permissions(trial.folder.path(), std::fs::Permissions::from_mode(0o700))
            .expect("a mode");
    }
    let aside = trial.folder.path().join("aside");
    std::fs::rename(trial.path(), &aside).expect("moved");
    std::fs::create_dir(trial.path()).expect("a folder in its place");
    trial.again(2, sum("a", 20, 30, 2), "can't be opened");
    std::fs::remove_dir(trial.path()).expect("gone");
    std::fs::rename(&aside, trial.path()).expect("back");
    trial.taken(2, sum("a", 20, 30, 2));
    assert_eq!(trial.totals(), only("a", 3, 2));
}

#[test]
fn a_full_disk_is_told_and_waited_for() {
    let mut trial = Trial::new();
    trial.taken(1, sum("a", 10, 20, 1));
    let limit = |pages: &str, trial: &mut Trial| {
        let store = trial.writer.store().expect("it is open");
        store.connection.execute_batch(&format!("pragma max_page_count = {pages}")).expect("a limit");
    };
    limit("1", &mut trial);
    let many: Vec<String> = (0..2000).map(|code| sum_point(code, 20, 30, 1)).collect();
    trial.again(2, metrics(&sum_of("a", &many)), "disk is full");
    assert_eq!(trial.totals(), only("a", 1, 1));
    trial.taken(2, metrics(&sum_of("a", &many)));
    assert_eq!(trial.totals().len(), 2000);
}

#[test]
fn a_damaged_file_is_told_and_waited_for() {
    let mut trial = Trial::new();
    std::fs::write(trial.path(), "this is no database, and it is longer than a head of one".repeat(100))
        .expect("a file");
    trial.again(1, sum("a", 10, 20, 1), "no SQLite database");
    assert!(
        SqliteSink::open(&trial.path(), Retention::default(), Arc::new(())).is_ok(),
        "the service starts all the same"
    );
    std::fs::remove_file(trial.path()).expect("away");
    trial.taken(1, sum("a", 10, 20, 1));
    trial.writer.store = None;
    let mut bytes = std::fs::read(trial.path()).expect("bytes");
    let whole = bytes.clone();
    bytes[4096..].fill(0x55);
    std::fs::write(trial.path(), &bytes).expect("damage");
    trial.again(2, sum("a", 20, 30, 2), "damaged");
    std::fs::write(trial.path(), &whole).expect("put back");
    trial.taken(2, sum("a", 20, 30, 2));
    assert_eq!(trial.totals(), only("a", 3, 2));
}

#[test]
fn another_schema_is_refused_by_name_and_left_alone() {
    let mut trial = Trial::new();
    trial.taken(1, sum("a", 10, 20, 1));
    trial.writer.store = None;
    for another in [2, 12] {
        trial.ask(&format!("pragma user_version = {another}"));
        let error = SqliteSink::open(&trial.path(), Retention::default(), Arc::new(()))
            .err()
            .expect("it is another")
            .to_string();
        let known = format!("schema {another}; this one knows 1): use that version, or another file");
        let all = ["totals.db was written by another version", &known];
        assert!(all.iter().all(|part| error.contains(part)), "{error}");
        trial.again(2, sum("a", 20, 30, 2), "another version");
        assert!(read(&trial.path()).is_err());
    }
    trial.ask("pragma user_version = 1");
    trial.taken(2, sum("a", 20, 30, 2));
}

/// A reader that still sees an earlier state prevents the copying of the log, so the log is not believed.
#[test]
fn a_long_reader_is_told_and_waited_for() {
    let mut trial = Trial::new();
    trial.taken(1, sum("a", 10, 20, 1));
    let reader = Connection::open(trial.path()).expect("open");
    reader.execute_batch("begin; select * from intervals").expect("a reader");
    trial.taken(2, sum("a", 20, 30, 2));
    trial.writer.store = None;
    trial.again(3, sum("a", 30, 40, 4), "read it for long");
    assert_eq!(trial.totals(), only("a", 3, 2), "others read");
    reader.execute_batch("commit").expect("no reader");
    trial.taken(3, sum("a", 30, 40, 4));
    assert_eq!(trial.totals(), only("a", 7, 3));
}

/// The file says who counted what, and its folder may be open to others if it is not the service's own.
#[test]
fn a_file_that_is_made_is_its_owners_alone() {
    let mut trial = Trial::new();
    trial.taken(1, sum("a", 10, 20, 1));
    let mode_of = |name: &str| {
        let found = std::fs::metadata(trial.folder.path().join(name)).expect(name);
        found.permissions().mode() & 0o777
    };
    for name in ["totals.db", "totals.db-wal", "totals.db-shm"] {
        assert_eq!(mode_of(name), 0o600, "{name}");
    }
    // A file that an operator opens to others stays open.
    std::fs::set_permissions(trial.path(), std::fs::Permissions::from_mode(0o640)).expect("its rights");
    trial.reopen();
    trial.taken(2, sum("a", 20, 30, 2));
    let mode = std::fs::metadata(trial.path()).expect("it is there").permissions().mode();
    assert_eq!(mode & 0o777, 0o640);
}

/// As if an operator has made the folder for those who read the file.
#[test]
fn a_file_in_a_folder_that_hands_its_group_on_is_for_the_group_to_read() {
    let trial = Trial::new();
    for (mode, wanted) in [(0o2750, 0o640), (0o2700, 0o600), (0o750, 0o600)] {
        let folder = trial.folder.path().join(format!("{mode:o}"));
        std::fs::create_dir(&folder).expect("a folder");
        std::fs::set_permissions(&folder, std::fs::Permissions::from_mode(mode)).expect("its rights");
        let mut writer = writer(&folder.join("totals.db"));
        assert_eq!(writer.take(&[forwarded(1, sum("a", 10, 20, 1))], Sent::ByHand), DeliveryOutcome::Taken);
        for name in ["totals.db", "totals.db-wal", "totals.db-shm"] {
            let found = std::fs::metadata(folder.join(name)).expect(name);
            assert_eq!(found.permissions().mode() & 0o777, wanted, "{name} in {mode:o}");
        }
    }
}
