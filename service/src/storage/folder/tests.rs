//! Who has the folder, and what an earlier run or a copy has left in it.

mod damage;
mod rights;

use super::*;
use crate::journal::{Body, NoNames, Post};
use std::os::unix::fs::{MetadataExt, PermissionsExt};

fn open(path: &Path) -> Result<Folder, FolderFault> {
    Folder::open(path, Durability::Process)
}

/// The next test runs this in a process of its own.
#[test]
#[ignore]
fn has_a_folder() {
    let Some(path) = std::env::var_os("TOTXEGUN_TEST_FOLDER") else {
        return;
    };
    assert!(matches!(open(Path::new(&path)), Err(FolderFault::InUse(_))));
    println!("refused");
}

#[test]
fn a_second_service_is_refused_by_name_until_the_first_has_ended() {
    let place = tempfile::tempdir().unwrap();
    let first = open(place.path()).unwrap();
    let again = open(place.path()).err().unwrap().to_string();
    assert!(
        again.contains("in use by another service") && again.contains(place.path().to_str().unwrap()),
        "{again}"
    );
    let mut this = std::process::Command::new(std::env::current_exe().unwrap());
    this.args(["--exact", "--ignored", "--nocapture", "storage::folder::tests::has_a_folder"]);
    let other = this.env("TOTXEGUN_TEST_FOLDER", place.path()).output().unwrap();
    assert!(other.status.success() && String::from_utf8_lossy(&other.stdout).contains("refused"));
    std::fs::remove_file(place.path().join("lock")).unwrap();
    assert!(matches!(open(place.path()), Err(FolderFault::InUse(_))), "its lock was deleted");
    drop(first);
    open(place.path()).unwrap();
}

#[test]
fn all_of_it_is_its_owners_alone() {
    let place = tempfile::tempdir().unwrap();
    let path = place.path().join("new/folder");
    let folder = open(&path).unwrap();
    let (journal, _outbox) = folder.shard().unwrap();
    let post = Post { sender: "s".into(), foreign: 0, body: Body::Text(bytes::Bytes::from_static(b"{}")) };
    journal.write(journal.append(&post, &NoNames)).unwrap();
    folder.dead().unwrap().keep("0-e-1", "400", b"{}").unwrap();
    let mut left = vec![path];
    let mut files = 0;
    while let Some(path) = left.pop() {
        let about = std::fs::metadata(&path).unwrap();
        let mode = about.permissions().mode() & 0o777;
        assert_eq!(mode, if about.is_dir() { 0o700 } else { 0o600 }, "{}", path.display());
        if about.is_dir() {
            left.extend(std::fs::read_dir(&path).unwrap().map(|entry| entry.unwrap().path()));
        } else {
            files += 1;
        }
    }
    assert_eq!(files, 5);
    assert!(folder.free_space.is_left());
}

#[test]
fn the_epoch_stays_until_the_folder_is_copied_or_it_is_renewed() {
    let place = tempfile::tempdir().unwrap();
    let (first, second) = (place.path().join("first"), place.path().join("second"));
    let folder = open(&first).unwrap();
    let drawn = folder.epoch();
    let (journal, outbox) = folder.shard().unwrap();
    assert_eq!((outbox.epoch(), drawn.len()), (drawn.clone(), 16));
    drop((folder, journal, outbox));
    let folder = open(&first).unwrap();
    assert_eq!(folder.epoch(), drawn);
    // The file system soon uses a free inode again, so the first folder stays while it is copied.
    let copied = std::process::Command::new("cp").arg("-a").args([&first, &second]).status().unwrap();
    assert!(copied.success());
    let copy = open(&second).unwrap();
    assert_ne!(copy.epoch(), drawn);
    assert_eq!(copy.shard().unwrap().1.epoch(), copy.epoch());
    let renewed = folder.renew_epoch().unwrap();
    assert_ne!(renewed, drawn);
    drop(folder);
    assert_eq!(open(&first).unwrap().epoch(), renewed);
}

/// After the first folder is deleted, its lock's inode is free; and another file system may use the same numbers.
#[test]
fn a_copy_whose_lock_has_the_same_inode_is_told_too() {
    let place = tempfile::tempdir().unwrap();
    let version = place.path().join("version");
    let text = || std::fs::read_to_string(&version).unwrap();
    let folder = open(place.path()).unwrap();
    let drawn = folder.epoch();
    let Some(born) = folder.identity().unwrap().born else {
        return; // this file system does not record birth times
    };
    drop(folder);
    let born = format!("\"born\":{born}");
    assert!(text().contains(&born), "{}", text());
    assert_eq!(open(place.path()).unwrap().epoch(), drawn);
    std::fs::write(&version, text().replace(&born, "\"born\":5")).unwrap();
    let copy = open(place.path()).unwrap();
    assert_ne!(copy.epoch(), drawn);
    assert!(text().contains(&born), "{}", text());
    // Most file systems give this file's inode to the next file.
    let drawn = copy.epoch();
    drop(copy);
    std::fs::remove_file(place.path().join("lock")).unwrap();
    assert_ne!(open(place.path()).unwrap().epoch(), drawn);
}

#[test]
fn a_folder_that_is_made_has_a_name_that_lasts() {
    use crate::storage::disk::Call;
    let place = tempfile::tempdir().unwrap();
    let synced = Arc::new(Mutex::new(Vec::new()));
    let seen = synced.clone();
    let disk = Disk::failing(move |call, path: &Path| {
        if call == Call::SyncFolder {
            locked(&seen).push(path.to_path_buf());
        }
        Ok(())
    });
    let (above, place) = (place.path().join("new"), place.path().to_path_buf());
    let path = above.join("folder");
    for is_left in [false, true] {
        if is_left {
            // As left by an earlier start that ended right after making it.
            std::fs::remove_dir_all(&above).unwrap();
            std::fs::create_dir_all(&path).unwrap();
        }
        drop(Folder::open_on(disk.clone(), &path, Durability::Disk).unwrap());
        let synced = std::mem::take(&mut *locked(&synced));
        let first = |folder| synced.iter().position(|one| one == folder);
        assert!(first(&above).is_some() && first(&place).is_some(), "{synced:?}");
        assert!(first(&path) > first(&above).max(first(&place)), "its version is the last");
    }
}

#[test]
fn another_or_missing_version_is_refused_by_name() {
    let place = tempfile::tempdir().unwrap();
    drop(open(place.path()).unwrap().shard().unwrap());
    let version = place.path().join("version");
    let text = std::fs::read_to_string(&version).unwrap();
    let refused = || open(place.path()).err().unwrap().to_string();
    for number in [0, 2, 3] {
        let of = |number| format!("\"totxegun\":{number}");
        std::fs::write(&version, text.replacen(&of(1), &of(number), 1)).unwrap();
        let why = refused();
        assert!(
            why.contains(&format!("has format version {number}")) && why.contains("another --data"),
            "{why}"
        );
    }
    for number in [1, 3] {
        std::fs::write(&version, format!("totxegun {number}\nepoch 0123456789abcdef\nlock 1\n")).unwrap();
        let why = refused();
        assert!(why.contains("an earlier build") && why.contains("another --data"), "{why}");
    }
    for wrong in [
        "",
        r#"{"totxegun":1,"epoch":"12","lock":{"inode":1}}"#,
        r#"{"totxegun":1,"epoch":"0123456789abcdef"}"#,
        r#"{"totxegun":1,"epoch":"0123456789abcdef","lock":{"inode":1},"begun":"x"}"#,
        r#"{"totxegun":1,"epoch":"0123456789abcdef","lock":{"inode":1},"sink":"x"}"#,
    ] {
        std::fs::write(&version, wrong).unwrap();
        assert!(refused().contains("restore it from a copy"), "{}", refused());
    }
    std::fs::remove_file(&version).unwrap();
    assert!(refused().contains("missing"), "{}", refused());
    std::fs::write(&version, text).unwrap();
    open(place.path()).unwrap();
}

#[test]
fn the_journal_goes_on_behind_what_the_outbox_knows() {
    let place = tempfile::tempdir().unwrap();
    let folder = open(place.path()).unwrap();
    let (journal, outbox) = folder.shard().unwrap();
    outbox.commit(&[], 9).unwrap();
    drop((journal, outbox, folder));
    // The first start was killed before it recorded the segment that it began.
    let version = place.path().join("version");
    let text = std::fs::read_to_string(&version).unwrap();
    std::fs::write(&version, text.replace("\"begun\":1", "\"begun\":null")).unwrap();
    let folder = open(place.path()).unwrap();
    let (journal, _outbox) = folder.shard().unwrap();
    assert_eq!(journal.roll().0, 10);
}

#[test]
fn no_service_starts_on_a_folder_that_was_moved_and_it_says_where_it_is() {
    const STORE: &str = "postgres://u@h:1/d";
    let place = tempfile::tempdir().unwrap();
    let folder = open(place.path()).unwrap();
    let drawn = folder.epoch();
    Folder::check_usable(place.path()).unwrap();
    folder.set_moved(STORE).unwrap();
    drop(folder);
    let refused = [open(place.path()).map(drop), Folder::check_usable(place.path())];
    for why in refused.map(Result::unwrap_err) {
        assert!(matches!(&why, FolderFault::Moved { epoch, .. } if *epoch == drawn));
        let why = why.to_string();
        assert!(
            why.contains(&format!("was moved into the store {STORE}: start with --store {STORE}.")),
            "{why}"
        );
        assert!(
            why.contains(&format!("`totxegun store move --from {} {STORE}` again", place.path().display()))
        );
    }
}
