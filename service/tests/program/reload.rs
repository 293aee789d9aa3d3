//! Tests SIGHUP: what can change does, what can't is named, and meanwhile no post is lost or counted twice.

use super::support::*;
use std::path::Path;
use std::sync::atomic::{AtomicBool, Ordering::Relaxed};
use std::thread::JoinHandle;
use std::time::Duration;

const TIMES: usize = 20;

/// A sender that posts until it is told to stop. Returns how often it was answered 200.
fn sender(service: &Service, name: &'static str, stop: &'static AtomicBool) -> JoinHandle<i64> {
    let listen = service.listen.clone();
    std::thread::spawn(move || {
        let mut taken = 0;
        while !stop.load(Relaxed) {
            let body = points(&[name], 20 + 10 * taken as u64, 1);
            let (status, text) = asked(&listen, "POST", "/v1/metrics", name, &body).unwrap();
            assert_eq!(status, 200, "{text}");
            taken += 1;
        }
        taken
    })
}

fn write(path: &Path, text: &str) {
    std::fs::write(path, text).unwrap();
}

#[test]
fn nothing_is_lost_while_settings_change() {
    static STOP: AtomicBool = AtomicBool::new(false);
    let place = Place::new();
    let path = place.folder.path().join("totxegun.toml");
    write(&path, "log-level = \"info\"\n");
    let service = place.serve_with(&["--config", path.to_str().unwrap(), "--sink", &place.sink()]);
    let senders = ["a", "b", "c"].map(|name| sender(&service, name, &STOP));
    for time in 0..TIMES {
        let (level, cause) = [("debug", "gauge"), ("info", "summary")][time % 2];
        let (reasons, most) = (time + 1, 100_000 + time);
        let settings = format!(
            "log-level = \"{level}\"\nlog-rejected = {reasons}\nexpect-rejected = [\"{cause}\"]\nsender-series = {most}\nsender-points = {most}\n"
        );
        write(&path, &settings);
        signal(service.pid(), "HUP");
        let line = "SIGHUP: settings changed, and count from now on \
                    settings=\"expect-rejected, log-level, log-rejected, sender-points, sender-series\"";
        until("it is read", || place.log().matches(line).count() > time);
    }
    STOP.store(true, Relaxed);
    let taken = senders.map(|sender| sender.join().unwrap());
    assert!(taken.iter().all(|taken| *taken > 0), "{taken:?}");
    let all: i64 = taken.iter().sum();
    assert_eq!(service.order("/flush").0, 200);
    until("all is there", || place.totals_if_any().values().sum::<i64>() >= all);
    assert_eq!(place.totals().values().sum::<i64>(), all);
    assert_eq!(service.end(), Some(0));
}

#[test]
fn what_needs_a_restart_is_named_and_a_fault_changes_nothing() {
    let place = Place::new();
    let path = place.folder.path().join("totxegun.toml");
    write(&path, "threads = 2\n");
    let service = place.serve_with(&["--config", path.to_str().unwrap(), "--sink", &place.sink()]);
    let said = |text: &str, wanted: &str| {
        write(&path, text);
        signal(service.pid(), "HUP");
        until(wanted, || place.log().contains(wanted));
    };
    said("threads = 3\nkeep-hours = \"7d\"\n", "systemctl restart totxegun settings=\"keep-hours, threads\"");
    said("threads = 2\nsender-points = 1\n", "count from now on settings=\"sender-points\"");
    // A minute's points at once.
    let many = |time: u64| {
        asked(&service.listen, "POST", "/v1/metrics", "a", &points(&["a"], 20 + 10 * time, 1)).unwrap().0
    };
    let answers: Vec<u16> = (0..80).map(many).collect();
    assert!(answers.contains(&429), "{answers:?}");
    // What a start would refuse: a setting, a file, or settings that don't go together.
    for (fault, wanted) in [
        ("thread = 2\n", "no setting `thread`"),
        (
            "sender-points = 7\ntokens = \"/none\"\n",
            "can't be used, and stay as they were reason=\"--tokens can't be used",
        ),
        ("sender-points = 7\n[sink]\ngzip = true\n", "are for a sink of OTLP"),
    ] {
        said(fault, wanted);
    }
    assert!(service.metrics().contains("totxegun_stale_files{option=\"--config\"} 1"));
    said("threads = 2\nlog-level = \"error\"\n", "count from now on settings=\"log-level, sender-points\"");
    assert_eq!(many(99), 200);
    let stale = service.metrics();
    assert!(stale.contains("totxegun_stale_files{option=\"--config\"} 0"), "{stale}");
    assert_eq!(service.end(), Some(0));
    assert!(!place.log().contains("ended\n"), "{}", place.log());
}

/// Like a file on a disk that stalls.
#[test]
fn settings_that_are_never_read_hold_no_end_up() {
    let place = Place::new();
    let path = place.folder.path().join("totxegun.toml");
    write(&path, "threads = 2\n");
    let service = place.serve_with(&["--config", path.to_str().unwrap(), "--sink", &place.sink()]);
    std::fs::remove_file(&path).unwrap();
    nix::unistd::mkfifo(&path, nix::sys::stat::Mode::from_bits_truncate(0o600)).unwrap();
    signal(service.pid(), "HUP");
    std::thread::sleep(Duration::from_millis(500)); // until it is being read
    assert_eq!(service.post("a", &points(&["a"], 20, 1)).unwrap().0, 200);
    signal(service.pid(), "TERM");
    until("it has ended", || place.log().contains("ended\n"));
    assert_eq!(service.end(), Some(0));
}

/// Without a handler, the signal would have ended the service.
#[test]
fn a_service_without_a_file_goes_on() {
    let place = Place::new();
    let service = place.serve();
    signal(service.pid(), "HUP");
    until("it is said", || place.log().contains("SIGHUP: no setting has changed"));
    assert!(service.is_ready());
    assert_eq!(service.end(), Some(0));
}
