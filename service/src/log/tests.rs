//! Logs whose reader stops reading, or can't be reached.

use super::*;
use std::io::Read;
use std::os::unix::process::ExitStatusExt;
use std::sync::atomic::{AtomicBool, Ordering::Relaxed};

fn log() -> Arc<Log> {
    Arc::new(Log::new(IntCounter::new("lost", "lost").unwrap(), Form::default()))
}

fn line(number: usize) -> String {
    format!("{number:>999}\n")
}

/// Starts the thread that writes.
fn write(log: &Arc<Log>, out: impl Write + Send + 'static) {
    let log = log.clone();
    std::thread::spawn(move || log.write_to(out));
}

fn wait(log: &Log) {
    log.wait_until_written(Instant::now() + Duration::from_secs(60));
}

/// The number in a line that says how many are missing.
fn missing(line: &str) -> Option<u64> {
    line.strip_prefix("totxegun: ")?.strip_suffix(" log lines were dropped here")?.parse().ok()
}

#[test]
fn lines_without_room_are_counted_and_missed_in_their_place() {
    let (mut reader, writer) = io::pipe().unwrap();
    let log = log();
    write(&log, writer);
    log.put(&[&[b'-'; MOST_WAITING / 2][..], b"\n"].concat()); // more than a pipe takes: the thread blocks
    while !locked(&log.state).waiting.is_empty() {
        std::thread::yield_now();
    }
    let all = 3 * MOST_WAITING / 1000;
    (0..all).for_each(|number| log.put(line(number).as_bytes()));
    let lost = log.lost.get();
    assert!(lost > 0, "all found room");
    assert!(locked(&log.state).waiting.text.len() <= MOST_WAITING);
    let reading = std::thread::spawn(move || {
        let mut text = String::new();
        while !text.ends_with("last\n") {
            let mut bytes = [0; 4096];
            let length = reader.read(&mut bytes).unwrap();
            text += std::str::from_utf8(&bytes[..length]).unwrap();
        }
        text
    });
    wait(&log);
    log.put(b"last\n");
    let text = reading.join().unwrap();
    let lines: Vec<&str> = text.lines().skip(1).collect();
    let kept = all - lost as usize;
    for (number, found) in lines[..kept].iter().enumerate() {
        assert_eq!(*found, line(number).trim_end_matches('\n'));
    }
    assert_eq!(missing(lines[kept]), Some(lost), "{}", lines[kept]);
    assert_eq!(lines[kept + 1..], ["last"]);
}

/// Fails while the flag is set.
#[derive(Clone, Default)]
struct Failing {
    fails: Arc<AtomicBool>,
    text: Arc<Mutex<Vec<u8>>>,
}

impl Write for Failing {
    fn write(&mut self, bytes: &[u8]) -> io::Result<usize> {
        if self.fails.load(Relaxed) {
            return Err(io::Error::other("no room"));
        }
        self.text.lock().unwrap().write(bytes)
    }

    fn flush(&mut self) -> io::Result<()> {
        Ok(())
    }
}

#[test]
fn what_can_not_be_written_is_missed_in_its_place() {
    let (log, out) = (log(), Failing::default());
    write(&log, out.clone());
    let say = |text: &str| {
        log.put(text.as_bytes());
        wait(&log);
    };
    say("first\n");
    out.fails.store(true, Relaxed);
    say("second\n");
    say("third\n");
    out.fails.store(false, Relaxed);
    say("fourth\n");
    let text = String::from_utf8(out.text.lock().unwrap().clone()).unwrap();
    let lines: Vec<&str> = text.lines().collect();
    assert_eq!((lines[0], missing(lines[1]), &lines[2..]), ("first", Some(2), &["fourth"][..]));
    assert_eq!(log.lost.get(), 2);
}

#[test]
fn an_end_waits_for_a_reader_no_longer_than_it_may() {
    let log = log();
    log.put(b"nobody takes it\n");
    let begun = Instant::now();
    log.wait_until_written(begun + Duration::from_millis(50));
    assert!(begun.elapsed() >= Duration::from_millis(50));
    assert!(begun.elapsed() < Duration::from_secs(10));
}

/// The next test runs this in a process of its own.
#[test]
#[ignore]
fn ends_by_a_panic() {
    end_by_panics();
    let ended = std::thread::spawn(|| panic!("that can't be")).join();
    println!("it goes on: {ended:?}");
}

#[test]
fn a_panic_of_a_thread_ends_the_process_with_a_named_line() {
    let mut this = std::process::Command::new(std::env::current_exe().unwrap());
    this.args(["--exact", "--ignored", "--nocapture", "log::tests::ends_by_a_panic"]);
    let ended = this.output().unwrap();
    let line = String::from_utf8_lossy(&ended.stderr);
    assert_eq!(ended.status.signal(), Some(libc::SIGABRT), "{ended:?}");
    assert!(
        line.starts_with("totxegun: ") && line.contains(file!()) && line.contains("that can't be"),
        "{line}"
    );
    assert!(!String::from_utf8_lossy(&ended.stdout).contains("it goes on"), "{ended:?}");
}
