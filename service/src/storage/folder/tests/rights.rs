//! Folders that this user can't use, and paths that are no folders.

use super::*;

fn unusable(path: &Path) -> String {
    match open(path).err().unwrap() {
        FolderFault::Unusable { path, what } => format!("{} {what}", path.display()),
        other => panic!("{other}"),
    }
}

#[test]
fn what_is_no_folder_is_refused_by_name_and_stays() {
    let place = tempfile::tempdir().unwrap();
    let file = place.path().join("file");
    std::fs::write(&file, "a").unwrap();
    let text = unusable(&file);
    assert!(text.contains("file is a file, but --data needs a folder"), "{text}");
    let text = unusable(&file.join("below"));
    assert!(text.contains("a part of its path is a file"), "{text}");
    assert_eq!(std::fs::read(&file).unwrap(), b"a");
    let folder = place.path().join("folder");
    drop(open(&folder).unwrap());
    std::fs::remove_file(folder.join("lock")).unwrap();
    std::fs::create_dir(folder.join("lock")).unwrap();
    let text = unusable(&folder);
    assert!(text.contains("lock is a folder, but has to be a file: remove it"), "{text}");
}

/// The next test runs this in a process of its own, as a user who is not root.
#[test]
#[ignore]
fn has_no_rights() {
    let Some(path) = std::env::var_os("TOTXEGUN_TEST_FOLDER") else {
        return;
    };
    println!("refused: {}", unusable(Path::new(&path)));
}

/// As when root calls `totxegun store move` on the folder of the service's user and is refused: that user can still
/// start on it.
#[test]
fn what_root_makes_in_a_folder_of_another_user_is_that_user_s() {
    use std::os::unix::fs::chown;
    const USER: u32 = 65534;
    fn all(path: &Path) -> Vec<PathBuf> {
        let below = std::fs::read_dir(path).into_iter().flatten().flatten();
        std::iter::once(path.to_path_buf()).chain(below.flat_map(|entry| all(&entry.path()))).collect()
    }
    let place = tempfile::tempdir().unwrap();
    drop(open(place.path()).unwrap().shard().unwrap());
    if all(place.path()).iter().any(|path| chown(path, Some(USER), Some(USER)).is_err()) {
        return eprintln!("skipped: no right to give files away");
    }
    let folder = open(place.path()).unwrap();
    drop(folder.shard().unwrap());
    folder.renew_epoch().unwrap();
    for path in all(place.path()) {
        assert_eq!(std::fs::metadata(&path).unwrap().uid(), USER, "{}", path.display());
    }
}

/// Otherwise the folder's owner could have root give away any file.
#[test]
fn what_a_link_in_place_of_the_lock_leads_to_is_not_given_away() {
    use std::os::unix::fs::{chown, symlink};
    const USER: u32 = 65534;
    let (place, elsewhere) = (tempfile::tempdir().unwrap(), tempfile::tempdir().unwrap());
    let of_root = elsewhere.path().join("shadow");
    std::fs::write(&of_root, "root").unwrap();
    if chown(place.path(), Some(USER), Some(USER)).is_err() {
        return eprintln!("skipped: no right to give files away");
    }
    let owner = std::fs::metadata(&of_root).unwrap().uid();
    symlink(&of_root, place.path().join("lock")).unwrap();
    let _ = open(place.path());
    assert_eq!(std::fs::metadata(&of_root).unwrap().uid(), owner);
}

#[test]
fn a_folder_without_rights_is_refused_by_name() {
    use std::os::unix::process::CommandExt;
    const NOBODY: u32 = 65534;
    let place = tempfile::tempdir().unwrap();
    let all_may =
        |path: &Path, mode| std::fs::set_permissions(path, std::fs::Permissions::from_mode(mode)).unwrap();
    all_may(place.path(), 0o755);
    let folder = place.path().join("folder");
    drop(open(&folder).unwrap().shard().unwrap());
    let is_root = std::fs::metadata("/proc/self").unwrap().uid() == 0;
    let refused = |path: &Path| {
        let mut this = std::process::Command::new("/proc/self/exe");
        this.args(["--exact", "--ignored", "--nocapture", "storage::folder::tests::rights::has_no_rights"]);
        if is_root {
            this.uid(NOBODY);
        }
        let ended = this.env("TOTXEGUN_TEST_FOLDER", path).output().unwrap();
        String::from_utf8_lossy(&ended.stdout).into_owned()
    };
    let journal = folder.join("shard-0/journal");
    for (closed, named) in [(&folder, "folder can't"), (&journal, "shard-0/journal can't")] {
        all_may(&folder, 0o777);
        for (path, mode) in
            [("lock", 0o666), ("version", 0o666), ("shard-0", 0o777), ("shard-0/outbox", 0o777)]
        {
            all_may(&folder.join(path), mode);
        }
        for file in std::fs::read_dir(folder.join("shard-0/outbox")).unwrap() {
            all_may(&file.unwrap().path(), 0o666);
        }
        all_may(closed, 0o555);
        let text = refused(&folder);
        assert!(text.contains(named) && text.contains("chown -R"), "{text}");
    }
    all_may(&folder, 0o700);
    all_may(place.path(), 0o555);
    let text = refused(&place.path().join("new"));
    assert!(text.contains("new can't be read and written") && text.contains("chown -R"), "{text}");
}
