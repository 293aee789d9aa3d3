//! Tests what `totxegun check` refuses, and what it leaves behind.

use super::*;
use crate::journal::{Body, Names, Points, Post};
use anyhow::Result;
use bytes::Bytes;
use std::os::unix::fs::{MetadataExt, PermissionsExt};
use std::os::unix::process::CommandExt;
use tempfile::tempdir;

#[test]
fn what_is_no_folder_is_named() -> Result<()> {
    let folder = tempdir()?;
    let error = format!("{:#}", lock(folder.path()).unwrap_err());
    assert!(error.contains("no folder of totxegun: there is no"), "{error}");
    let file = folder.path().join("file");
    std::fs::write(&file, "a")?;
    let error = lock(&file).unwrap_err().to_string();
    assert!(error.contains("can't be read as a folder"), "{error}");
    std::fs::create_dir(folder.path().join("lock"))?;
    let error = lock(folder.path()).unwrap_err().to_string();
    assert!(error.contains("lock is a folder"), "{error}");
    Ok(())
}

#[test]
fn what_is_in_a_store_is_shown_by_the_status() -> Result<()> {
    let folder = tempdir()?;
    std::fs::write(folder.path().join("acts.jsonl"), "")?;
    let error = lock(folder.path()).unwrap_err().to_string();
    assert!(error.contains("totxegun status") && error.contains("--store"), "{error}");
    let error = lock("postgres://me:secret@db/x".as_ref()).unwrap_err().to_string();
    assert!(error.starts_with("a store has no folder") && !error.contains("secret"), "{error}");
    killed(folder.path())?;
    assert!(lock(folder.path()).is_ok(), "a folder may have acts too");
    Ok(())
}

/// What a check of a folder prints, and how it ends.
fn checked(data: &Path) -> Result<Vec<u8>, Ended> {
    let temporary = tempdir().unwrap();
    let _kept_still = lock(data)?;
    Folder::check_usable(data)?;
    let copy = Copy::made(temporary.path())?;
    copy.fill(data, temporary.path())?;
    let found = found(&copy.0).map_err(|failure| in_the_original(failure, &copy.0, data))?;
    show_found(found, &copy.0, data, Form { json: false })
}

/// Makes a folder with a group of two requests, as a killed service leaves it.
fn killed(data: &Path) -> Result<()> {
    let folder = Folder::open(data, Durability::Disk).unwrap();
    let (journal, outbox) = folder.shard()?;
    let (next, _) = journal.roll();
    let request = br#"{"resourceMetrics":[]}"#.to_vec();
    outbox.commit(&[request.clone(), request], next)?;
    let segment = data.join("shard-0/outbox/000000000001.seg");
    let killed = std::fs::read(&segment)?;
    drop(outbox);
    std::fs::write(&segment, killed)?; // as `kill -9` leaves it
    Ok(())
}

/// Sets the modes of a file, or of a folder and everything in it.
fn may(path: &Path, folder: u32, file: u32) {
    let is_folder = path.is_dir();
    let mode = if is_folder { folder } else { file };
    std::fs::set_permissions(path, std::fs::Permissions::from_mode(mode)).unwrap();
    let below = is_folder.then(|| std::fs::read_dir(path).unwrap());
    below.into_iter().flatten().for_each(|entry| may(&entry.unwrap().path(), folder, file));
}

/// The next test runs it in a process of its own, as a user who is not root.
#[test]
#[ignore]
fn says_what_it_finds() {
    if let Some(path) = std::env::var_os("TOTXEGUN_TEST_FOLDER") {
        let found = checked(Path::new(&path)).map(|text| String::from_utf8(text).unwrap());
        println!("found: {}", found.unwrap_or_else(|failure| failure.to_string()));
    }
}

/// As with a backup that is mounted read-only.
#[test]
fn a_folder_that_can_only_be_read_is_checked() -> Result<()> {
    const NOBODY: u32 = 65534;
    let data = tempdir()?;
    killed(data.path())?;
    let is_root = std::fs::metadata("/proc/self")?.uid() == 0;
    let said = || {
        let mut this = std::process::Command::new("/proc/self/exe");
        this.args(["--exact", "--ignored", "--nocapture", "command::check::tests::says_what_it_finds"]);
        if is_root {
            this.uid(NOBODY);
        }
        let ended = this.env("TOTXEGUN_TEST_FOLDER", data.path()).output().unwrap();
        String::from_utf8_lossy(&ended.stdout).into_owned()
    };
    may(data.path(), 0o555, 0o444);
    let text = said();
    assert!(text.contains("requests for the sink  2,") && text.contains("none"), "{text}");
    let segment = data.path().join("shard-0/outbox/000000000001.seg");
    std::fs::set_permissions(&segment, std::fs::Permissions::from_mode(0o000))?;
    let text = said();
    assert!(text.contains(&format!("{} can't be read: Permission denied", segment.display())), "{text}");
    may(data.path(), 0o000, 0o444);
    assert!(said().contains("can't be read as a folder: Permission denied"), "{text}");
    std::fs::set_permissions(data.path(), std::fs::Permissions::from_mode(0o700))?;
    may(data.path(), 0o755, 0o644);
    Ok(())
}

#[test]
fn a_lock_that_is_gone_or_a_version_alone_are_as_a_start_takes_them() -> Result<()> {
    let data = tempdir()?;
    killed(data.path())?;
    let text = String::from_utf8(checked(data.path()).unwrap())?;
    assert!(text.contains("none") && !text.contains("new ones"), "{text}");
    std::fs::remove_file(data.path().join("lock"))?;
    let text = String::from_utf8(checked(data.path()).unwrap())?;
    assert!(text.contains("new ones from a start on"), "{text}");
    assert!(!data.path().join("lock").exists(), "nothing is changed");
    std::fs::rename(data.path().join("shard-0"), data.path().join("aside"))?;
    let checked = checked(data.path()).unwrap_err().to_string();
    let started = Folder::open(data.path(), Durability::Disk).unwrap().shard();
    assert_eq!(checked, started.err().unwrap().to_string());
    Ok(())
}

#[test]
fn a_request_that_was_changed_is_a_fault_and_the_rest_is_told() -> Result<()> {
    let data = tempdir()?;
    killed(data.path())?;
    let path = data.path().join("shard-0/outbox/000000000001.seg");
    let mut bytes = std::fs::read(&path)?;
    let item = bytes.windows(9).position(|part| part == [18, 2, 0, 0, 0, 0, 0, 0, 0]);
    bytes[item.unwrap() + 12] ^= 1;
    std::fs::write(&path, bytes)?;
    let error = checked(data.path()).unwrap_err();
    assert!(matches!(error, Ended::Changed(_)));
    let text = error.to_string();
    assert!(text.contains(path.to_str().unwrap()) && text.contains("request 2"), "{text}");
    let outbox = Folder::open(data.path(), Durability::Disk).unwrap().shard()?.1;
    assert_eq!(outbox.waiting().0, 2, "a start goes on");
    Ok(())
}

#[test]
fn units_that_decide_nothing_are_told() -> Result<()> {
    let data = tempdir()?;
    killed(data.path())?;
    let outbox = Folder::open(data.path(), Durability::Disk).unwrap().shard()?.1;
    outbox.put_beside(&[("a\nb".to_string(), "ms".to_string())])?;
    drop(outbox);
    let text = String::from_utf8(checked(data.path()).unwrap())?;
    assert!(text.contains("by a rule alone") && text.contains("ms of a b\n"), "{text}");
    Ok(())
}

#[test]
fn a_folder_in_use_is_not_read() -> Result<()> {
    let folder = tempdir()?;
    std::fs::write(folder.path().join("version"), "")?;
    let file = File::create(folder.path().join("lock"))?;
    flock(file.as_raw_fd(), FlockArg::LockExclusiveNonblock)?;
    let error = lock(folder.path()).unwrap_err().to_string();
    assert!(error.contains("totxegun status"), "{error}");
    Ok(())
}

#[test]
fn a_copy_has_what_a_start_reads_and_goes_away() -> Result<()> {
    let (data, temporary) = (tempdir()?, tempdir()?);
    std::fs::create_dir_all(data.path().join("shard-0/journal"))?;
    std::fs::write(data.path().join("shard-0/journal/1"), "a")?;
    std::fs::write(data.path().join("metrics.db"), "not copied")?;
    let copy = Copy::made(temporary.path())?;
    copy.fill(data.path(), temporary.path())?;
    assert_eq!(std::fs::read(copy.0.join("shard-0/journal/1"))?, b"a");
    assert!(!copy.0.join("metrics.db").exists());
    drop(copy);
    assert_eq!(std::fs::read_dir(temporary.path())?.count(), 0);
    Ok(())
}

#[test]
fn what_is_in_the_place_of_a_copy_stays() -> Result<()> {
    let temporary = tempdir()?;
    let place = Copy::made(temporary.path())?.0.clone();
    std::fs::create_dir(&place)?;
    std::fs::write(place.join("another's"), "a")?;
    let Err(error) = Copy::made(temporary.path()) else {
        bail!("it is taken for a place of its own");
    };
    assert!(format!("{error:#}").contains("can't be made"), "{error:#}");
    assert!(place.join("another's").exists());
    Ok(())
}

/// The names of a sum and a histogram.
struct Two;

impl Names for Two {
    fn generation(&self) -> u64 {
        1
    }

    fn text(&self, number: u64) -> Bytes {
        let data = match number {
            0 => r#""sum":{"aggregationTemporality":1,"isMonotonic":true,"dataPoints":[{"asInt":"0""#,
            _ => {
                r#""histogram":{"aggregationTemporality":1,"dataPoints":[{"count":"0","bucketCounts":["0","0"],"explicitBounds":[5]"#
            }
        };
        format!(
            r#"{{"resourceMetrics":[{{"scopeMetrics":[{{"metrics":[{{"name":"m{number}",{data},"startTimeUnixNano":"1","timeUnixNano":"2"}}]}}}}]}}]}}]}}"#
        )
        .into()
    }
}

#[test]
fn posts_are_told_by_the_names_of_their_series_and_with_their_values() -> Result<()> {
    let data = tempdir()?;
    let folder = Folder::open(data.path(), Durability::Process).unwrap();
    let (journal, outbox) = folder.shard()?;
    let mut points = Points::default();
    points.push(0, 10, 20, [-7i64 as u64]);
    points.push(1, 30, 40, [3, 1, 12, 1, 2]);
    points.push(1, 40, 50, [1, 0, 0, 0, 1]);
    let post = |sender: &str, body: Body| Post { sender: sender.into(), foreign: 2, body };
    journal.append(&post("a", Body::Points(points)), &Two);
    let text = "{\n  \"resourceMetrics\": 12345678901234567890123\n}";
    journal.append(&post("b", Body::Text(text.into())), &Two);
    let mut lines = Vec::new();
    posts::put_lines(&journal, &outbox, |text| {
        lines.extend_from_slice(text);
        Ok(())
    })
    .unwrap();
    let expected = [
        r#"{"sender":"a","rejected":2,"points":["#,
        r#"{"series":[[],"","",[],"m0","","monotonic",[]],"start":10,"end":20,"value":-7},"#,
        r#"{"series":[[],"","",[],"m1","",[5],[]],"start":30,"end":40,"count":3,"sum":12,"buckets":[1,2]},"#,
        r#"{"series":[[],"","",[],"m1","",[5],[]],"start":40,"end":50,"count":1,"buckets":[0,1]}]}"#,
        "\n",
        r#"{"sender":"b","rejected":2,"body":{   "resourceMetrics": 12345678901234567890123 }}"#,
        "\n",
    ];
    assert_eq!(String::from_utf8(lines)?, expected.concat());
    Ok(())
}
