//! Tests what an operator is told.

use crate::support::{points, until, Place, NO_SINK, PROGRAM};
use nix::fcntl::{flock, FlockArg};
use std::os::fd::AsRawFd;
use std::os::unix::fs::OpenOptionsExt;
use std::os::unix::net::UnixDatagram;
use std::process::Command;
use std::time::Duration;

#[test]
fn a_quarantined_sender_that_names_none_is_shown() {
    let place = Place::new();
    let service = place.serve();
    let is_shown = || service.said(&["status"]).contains("\nquarantined: 1 sender: - (who names none); ");
    assert!(!is_shown());
    assert_eq!(service.order("/quarantine/-").0, 200);
    assert!(is_shown(), "{}", service.said(&["status"]));
    assert_eq!(service.end(), Some(0));
    let checked = Command::new(PROGRAM).arg("check").arg(place.data()).output().unwrap();
    let text = String::from_utf8(checked.stdout).unwrap();
    assert!(text.contains("1 sender: - (who names none)"), "{text}");
}

#[test]
fn an_operator_sees_the_limits() {
    let place = Place::new();
    let service = place.serve();
    assert_eq!(service.post("A", &points(&["a", "b"], 100, 5)).unwrap().0, 200);
    let (status, report) = service.at_socket("GET", "/report").unwrap();
    assert_eq!((status, report.matches("owner A frontier 100").count()), (200, 2), "{report}");
    assert!(report.ends_with("end\n") && report.matches("end\n").count() == 1, "{report}");
    assert_eq!(service.order("/renew").0, 404);
    let limits = &service.status()["limits"];
    assert_eq!(limits["series"]["limit"], 100_000);
    assert!(limits["memory_bytes"]["limit"].as_u64() > limits["memory_bytes"]["used"].as_u64(), "{limits}");
    let said = service.said(&["status"]);
    let is_shown = |line: &str| line.starts_with("series ") && line.contains(" 100,000 ");
    assert!(said.lines().any(is_shown), "{said}");
    let page = service.metrics();
    let value = |name: &str| {
        let line = page.lines().find_map(|line| line.strip_prefix(&format!("{name} ")));
        line.unwrap_or_else(|| panic!("{name} in\n{page}")).parse::<f64>().unwrap()
    };
    assert!(value("totxegun_memory_bytes") > 0.0);
    assert!(value("totxegun_memory_limit_bytes") > value("totxegun_memory_bytes"));
    assert_eq!(value("totxegun_rounds_closed_total"), 0.0);
    assert_eq!(service.end(), Some(0));
}

/// This holds for requests that are taken. Of others no point is accepted or rejected.
#[test]
fn each_point_of_what_is_taken_is_accepted_or_rejected() {
    let place = Place::new();
    let service = place.serve();
    assert_eq!(service.post("A", &points(&["a", "b"], 100, 5)).unwrap().0, 200);
    assert_eq!(service.post("A", &points(&["a"], 100, 5)).unwrap().0, 200, "a repeat");
    assert_eq!(service.post("A", &points(&["a"], 100, 6)).unwrap().0, 400);
    // The first point is noted, and the last one is a duplicate.
    for end in [20, 30, 30] {
        let point = format!(r#"{{"asInt":"7","startTimeUnixNano":"10","timeUnixNano":"{end}"}}"#);
        let sum = format!(r#"{{"aggregationTemporality":2,"isMonotonic":true,"dataPoints":[{point}]}}"#);
        let metrics =
            format!(r#"{{"name":"c","sum":{sum}}},{{"name":"g","gauge":{{"dataPoints":[{{}},{{}}]}}}}"#);
        let body = format!(r#"{{"resourceMetrics":[{{"scopeMetrics":[{{"metrics":[{metrics}]}}]}}]}}"#);
        let (status, answer) = service.post("A", &body).unwrap();
        assert!(status == 200 && answer.contains("\"rejectedDataPoints\":\"2\""), "{answer}");
    }
    let page = service.metrics();
    for line in [
        "totxegun_accepted_points_total{sender=\"A\"} 5",
        "totxegun_duplicate_points_total{sender=\"A\"} 1",
        "totxegun_rejected_points_total{reason=\"gauge\",sender=\"A\"} 6",
        "totxegun_requests_total{code=\"200\",reason=\"\"} 5",
        "totxegun_request_duration_seconds_count{code=\"200\",encoding=\"json\"} 5",
        "totxegun_request_duration_seconds_count{code=\"400\",encoding=\"json\"} 1",
        "totxegun_request_size_bytes_count 6",
    ] {
        assert!(page.lines().any(|found| found == line), "{line} in\n{page}");
    }
    assert_eq!(service.end(), Some(0));
}

#[test]
fn a_wrong_key_is_that_of_no_request() {
    let place = Place::new();
    let service = place.serve();
    for what in ["show", "resend", "drop"] {
        let said = service.said(&["dead-letters", what, "0-a-1"]);
        assert!(said.contains("no such request"), "{what}: {said}");
    }
}

/// Otherwise checkpoints and deliveries would stop meanwhile, and a supervisor would think that the service hangs.
#[test]
fn letters_that_take_long_hold_up_nothing_else() {
    let place = Place::new();
    let service = place.serve();
    // Reading it waits until somebody writes to it.
    let letter = place.data().join("dead-letters/0-a-1.json");
    let made = Command::new("mkfifo").arg(&letter).status();
    assert!(made.unwrap().success());
    std::thread::scope(|scope| {
        let lists: Vec<_> =
            (0..4).map(|_| scope.spawn(|| service.at_socket("GET", "/dead-letters"))).collect();
        std::thread::sleep(Duration::from_millis(300));
        let (answered, answer) = std::sync::mpsc::channel();
        let asked = &service;
        scope.spawn(move || answered.send(asked.asked_for("/healthz")));
        let health = answer.recv_timeout(Duration::from_secs(3));
        let mut write = std::fs::OpenOptions::new();
        write.write(true).custom_flags(nix::libc::O_NONBLOCK); // it fails if nobody reads
        while !lists.iter().all(|list| list.is_finished()) {
            drop(write.open(&letter));
            std::thread::sleep(Duration::from_millis(5));
        }
        assert_eq!(health.ok().flatten().map(|(status, _)| status), Some(200));
    });
}

/// A supervisor that learns it only later would end a long start again and again.
#[test]
fn a_start_asks_for_time_before_its_files_are_open() {
    let place = Place::new();
    std::fs::create_dir(place.data()).unwrap();
    let lock = std::fs::File::create(place.data().join("lock")).unwrap();
    flock(lock.as_raw_fd(), FlockArg::LockExclusive).unwrap();
    let path = place.folder.path().join("notify");
    let supervisor = UnixDatagram::bind(&path).unwrap();
    supervisor.set_read_timeout(Some(Duration::from_secs(5))).unwrap();
    let mut command = Command::new(PROGRAM);
    command.env("NOTIFY_SOCKET", &path);
    let mut service = place.begin_by(command, &["--sink", NO_SINK]);
    assert_eq!(service.status_of_end(), Some(1), "another has its files");
    let mut told = [0; 100];
    let length = supervisor.recv(&mut told).expect("it was told nothing");
    assert!(told[..length].starts_with(b"EXTEND_TIMEOUT_USEC="));
}

/// A command that starts the program with a small disk of its own as its folder.
fn on_a_small_disk(place: &Place) -> Command {
    std::fs::create_dir(place.data()).unwrap();
    let mut command = Command::new("unshare");
    let script = "mount -t tmpfs -o size=80m tmpfs \"$1\" && shift && exec \"$@\"";
    command.args(["--mount", "sh", "-c", script, "sh"]).arg(place.data()).arg(PROGRAM);
    command
}

fn may_mount() -> bool {
    let tried = Command::new("unshare").args(["--mount", "mount", "-t", "tmpfs", "tmpfs", "/mnt"]).status();
    tried.is_ok_and(|status| status.success())
}

/// Like all folders but its own for a unit with `ProtectSystem=strict`.
#[test]
fn a_sink_in_a_folder_that_is_sealed_is_told_with_what_opens_it() {
    if !may_mount() {
        eprintln!("skipped: no right to mount");
        return;
    }
    let place = Place::new();
    let folder = place.folder.path().join("totals");
    std::fs::create_dir(&folder).unwrap();
    let mut command = Command::new("unshare");
    let script = "mount -t tmpfs tmpfs \"$1\" && mount -o remount,ro \"$1\" && shift && exec \"$@\"";
    command.args(["--mount", "sh", "-c", script, "sh"]);
    command.arg(&folder).arg(PROGRAM);
    let sink = format!("sqlite:{}", folder.join("metrics.db").display());
    let service = place.begin_by(command, &["--sink", &sink]);
    until("it is ready", || service.is_ready());
    let log = place.log();
    assert!(log.contains(&format!("`ReadWritePaths={}`", folder.display())), "{log}");
}

#[test]
fn a_disk_without_room_is_told() {
    if !may_mount() {
        eprintln!("skipped: no right to mount");
        return;
    }
    let place = Place::new();
    let sink = format!("sqlite:{}", place.folder.path().join("sink.db").display());
    let service = place.begin_by(on_a_small_disk(&place), &["--sink", &sink]);
    until("it is ready", || service.is_ready());
    assert_eq!(service.post("A", &points(&["a"], 100, 5)).unwrap().0, 200);
    assert!(service.metrics().contains("totxegun_ready 1"));
    let disk = place.data();
    let filling = service.root().join(disk.strip_prefix("/").unwrap()).join("filling");
    std::fs::write(&filling, vec![0; 20 << 20]).unwrap();
    until("posts are refused", || service.post("A", &points(&["a"], 110, 5)).unwrap().0 == 503);
    let (status, text) = service.asked_for("/readyz").unwrap();
    assert!(status == 503 && text.contains("no room for the journal"), "{text}");
    assert!(service.metrics().contains("totxegun_ready 0"));
    let socket = format!("unix:{}", service.reached().display());
    let said = service.said(&["status", "--admin", &socket]);
    let lines: Vec<&str> = said.lines().collect();
    assert!(lines[0].contains("not ready"), "{said}");
    let why = format!("no room for the journal: make room on the disk of {}", disk.display());
    assert!(lines[1].starts_with("posts get 503") && lines[1].ends_with(&why), "{said}");
    let log = place.log();
    assert!(log.contains("posts get 503 until more is free"), "{log}");
    std::fs::remove_file(&filling).unwrap();
    until("it is ready again", || service.is_ready());
    let answer = service.post_until_answered("A", &points(&["a"], 120, 5));
    assert_eq!(answer.0, 200, "{answer:?}");
    service.drain();
    assert_eq!(service.end(), Some(0));
}

/// Without --max-age a clock that begins in 1970 counts, and nothing else would say so.
#[test]
fn a_point_that_ended_long_ago_is_taken_with_a_warning() {
    let place = Place::new();
    let service = place.serve();
    for end in [100, 200] {
        assert_eq!(service.post("A", &points(&["a"], end, 5)).unwrap().0, 200);
    }
    let line =
        "a point of A is taken that ended at 1970-01-01 00:00:00, over a year before the service's clock";
    until("the log says so", || place.log().contains(line));
    assert_eq!(place.log().matches(line).count(), 1, "once an hour");
    let now = std::time::SystemTime::now().duration_since(std::time::UNIX_EPOCH).unwrap().as_nanos() as u64;
    assert_eq!(service.post("B", &points(&["b"], now, 5)).unwrap().0, 200);
    assert!(!place.log().contains("a point of B is taken"), "{}", place.log());
    assert_eq!(service.end(), Some(0));
}
