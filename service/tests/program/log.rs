//! Tests a log that can't be written, one that nobody reads, and the fields of its lines in JSON.

use crate::stuck::change_request;
use crate::support::{points, signal, until, Place, Service, NO_SINK, PROGRAM};
use nix::fcntl::OFlag;
use nix::sys::stat::Mode;
use serde_json::Value;
use std::fs::File;
use std::io::{ErrorKind, Read, Write};
use std::os::unix::fs::OpenOptionsExt;
use std::path::PathBuf;
use std::process::Command;
use std::time::{Duration, Instant};

/// How long a service that waits for nobody may take for what it was told to do.
const SOON: Duration = Duration::from_secs(20);

/// The program with its standard error redirected as a shell writes it.
fn into(log: &str) -> Command {
    let mut command = Command::new("bash");
    command.args(["-c", &format!("exec \"$@\" {log}"), "bash", PROGRAM]);
    command
}

/// The log's disk is usually full when the folder's is, and a program that reads the log may have ended.
#[test]
fn a_log_that_nobody_can_write_ends_nothing() {
    for log in ["2>/dev/full", "2>&-", "2> >(true)"] {
        let place = Place::new();
        let service = place.begin_by(into(log), &["--sink", NO_SINK]);
        until("it is ready", || service.is_ready());
        assert_eq!(service.post_until_answered("A", &points(&["a"], 100, 5)).0, 200, "{log}");
        assert_eq!(service.end(), Some(0), "{log}");
        std::fs::write(place.data().join("version"), "of nothing").unwrap();
        let mut damaged = place.begin_by(into(log), &["--sink", NO_SINK]);
        assert_eq!(damaged.status_of_end(), Some(70), "{log}");
    }
}

/// A pipe whose reader hangs, as journald or a pager may.
struct Pipe {
    end: File,
    log: String,
}

impl Pipe {
    fn new(place: &Place) -> Pipe {
        let path = place.folder.path().join("pipe");
        nix::unistd::mkfifo(&path, Mode::S_IRUSR | Mode::S_IWUSR).unwrap();
        let end = File::options()
            .read(true)
            .write(true)
            .custom_flags(OFlag::O_NONBLOCK.bits())
            .open(&path)
            .unwrap();
        let log = format!("2<>{}", path.display());
        Pipe { end, log }
    }

    fn fill(&mut self) {
        while self.end.write(b"\n").is_ok() {}
    }

    /// Reads the log until a line contains this.
    fn read_until(&mut self, last: &str) -> String {
        let mut text = String::new();
        until(&format!("`{last}` in the log"), || {
            let mut bytes = [0; 1 << 16];
            match self.end.read(&mut bytes) {
                Ok(length) => text += std::str::from_utf8(&bytes[..length]).unwrap(),
                Err(error) => assert_eq!(error.kind(), ErrorKind::WouldBlock),
            }
            text.ends_with('\n') && text.lines().any(|line| line.contains(last))
        });
        text
    }
}

fn lost_lines(service: &Service) -> u64 {
    let page = service.metrics();
    let line = page.lines().find_map(|line| line.strip_prefix("totxegun_log_lines_lost_total "));
    line.expect("no metric").parse().unwrap()
}

#[test]
fn a_log_that_nobody_reads_holds_up_nothing() {
    let place = Place::new();
    let mut pipe = Pipe::new(&place);
    pipe.fill();
    let begun = Instant::now();
    let service = place.begin_by(into(&pipe.log), &["--sink", NO_SINK]);
    until("it is ready", || {
        assert!(begun.elapsed() < SOON, "a start waits for its log");
        service.is_ready()
    });
    let answer = service.post_until_answered("A", &points(&["a"], 100, 5));
    assert_eq!((answer.0, service.order("/flush").0), (200, 200));
    assert_eq!(service.end(), Some(0));
    std::fs::write(place.data().join("version"), "of nothing").unwrap();
    let mut damaged = place.begin_by(into(&pipe.log), &["--sink", NO_SINK]);
    assert_eq!(damaged.status_of_end(), Some(70));
    assert!(begun.elapsed() < 2 * SOON, "it took {:?}", begun.elapsed());
}

/// Each post of B to a series of A gives a line, which names the series.
#[test]
fn lines_that_find_no_room_are_counted_where_they_are_missing() {
    let place = Place::new();
    let mut pipe = Pipe::new(&place);
    let service = place.begin_by(into(&pipe.log), &["--sink", NO_SINK]);
    until("it is ready", || service.is_ready());
    let names: Vec<String> = (0..900).map(|number| format!("{number:>4000}")).collect();
    let named: Vec<&str> = names.iter().map(String::as_str).collect();
    for half in named.chunks(450) {
        assert_eq!(service.post("A", &points(half, 100, 5)).unwrap().0, 200);
    }
    assert_eq!(service.order("/flush").0, 200);
    let mut others = named.iter().cycle();
    until("a line is lost", || {
        let name = others.next().unwrap();
        assert_eq!(service.post("B", &points(&[name], 100, 5)).unwrap().0, 400);
        lost_lines(&service) > 0
    });
    let text = pipe.read_until(" log lines were dropped here");
    let note = format!("totxegun: {} log lines were dropped here", lost_lines(&service));
    assert!(text.lines().any(|line| line == note), "no `{note}`");
    let is_whole = |line: &str| line.starts_with("20") || line.starts_with("totxegun: ");
    assert!(text.lines().all(is_whole));
    signal(service.pid(), "TERM");
    let rest = pipe.read_until(" ended");
    assert!(rest.lines().all(is_whole), "{rest}");
    assert_eq!(service.end(), Some(0));
}

/// Replaces the folder by a copy of it.
fn copy_folder(place: &Place) {
    let (data, copy) = (place.data(), place.folder.path().join("copy"));
    let copied = Command::new("cp").arg("-a").args([&data, &copy]).status().unwrap();
    assert!(copied.success());
    std::fs::remove_dir_all(&data).unwrap();
    std::fs::rename(copy, data).unwrap();
}

/// Makes a service log that its folder was copied and that a request was changed. Returns the request's file, and the
/// lines.
fn told_in_json(place: &Place) -> (PathBuf, Vec<Value>) {
    let service = place.serve_with(&["--sink", NO_SINK]);
    assert_eq!(service.post("A", &points(&["a"], 100, 5)).unwrap().0, 200);
    assert_eq!(service.order("/flush").0, 200);
    assert_eq!(service.end(), Some(0));
    std::fs::remove_file(place.folder.path().join("log.txt")).unwrap();
    let file = change_request(place).0;
    copy_folder(place);
    let service = place.serve_with(&["--sink", NO_SINK, "--log-json"]);
    until("the delivery stops", || !service.status()["shards"][0]["stuck"].is_null());
    assert_eq!(service.end(), Some(0));
    let log = place.log();
    let lines = log.lines().map(|line| serde_json::from_str(line).unwrap());
    (file, lines.collect())
}

/// A line of each level: its text is the same for all values.
#[test]
fn what_a_line_of_json_names_is_in_its_fields() {
    let place = Place::new();
    let (file, lines) = told_in_json(&place);
    let line = |part: &str| lines.iter().find(|line| line["msg"].as_str().unwrap().contains(part)).unwrap();
    let begun = line("the shard is ready");
    assert_eq!(begun["level"], "INFO");
    assert_eq!(begun["shard"], 0);
    assert_eq!(begun["series_count"], 1);
    assert_eq!(begun["posts"], 0);
    let copied = line(" was copied or restored");
    assert_eq!(copied["level"], "WARN");
    assert_eq!(copied["folder"], place.data().to_str().unwrap());
    assert!(copied["epoch"].is_string(), "{copied}");
    let stopped = line("delivery stops");
    assert_eq!(stopped["level"], "ERROR");
    assert_eq!(stopped["folder"], place.data().join("shard-0/outbox").to_str().unwrap());
    let reason = stopped["reason"].as_str().unwrap();
    assert!(reason.contains(file.to_str().unwrap()), "{reason}");
}
