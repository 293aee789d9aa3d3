//! Tests the command line with the program itself: what it prints, and the status with which it ends.

mod config;
mod tokens;

use std::process::{Command, Output, Stdio};

fn program(words: &[&str]) -> Command {
    let mut command = Command::new(env!("CARGO_BIN_EXE_totxegun"));
    for (name, _) in std::env::vars() {
        if name.starts_with("TOTXEGUN_") {
            command.env_remove(name);
        }
    }
    command.args(words);
    command
}

fn totxegun(words: &[&str]) -> Output {
    program(words).output().unwrap()
}

fn refused(words: &[&str], status: i32, part: &str) {
    let output = totxegun(words);
    let text = String::from_utf8_lossy(&output.stderr).into_owned();
    assert_eq!(output.status.code(), Some(status), "{words:?}: {text}");
    assert!(text.contains(part), "{words:?}: {text}");
}

/// As before `| head -c 0`.
#[test]
fn who_reads_no_further_ends_it_quietly() {
    let (reader, writer) = std::io::pipe().unwrap();
    drop(reader);
    let output = program(&["version"]).stdout(writer).stderr(Stdio::piped()).spawn();
    let output = output.unwrap().wait_with_output().unwrap();
    assert_eq!((output.status.code(), output.stderr), (Some(0), Vec::new()));
}

#[test]
fn an_answer_that_can_not_be_written_is_a_fault() {
    let full = std::fs::File::create("/dev/full").unwrap();
    let output = program(&["version"]).stdout(full).stderr(Stdio::piped()).spawn();
    let output = output.unwrap().wait_with_output().unwrap();
    let text = String::from_utf8_lossy(&output.stderr).into_owned();
    assert_eq!(output.status.code(), Some(1), "{text}");
    assert!(text.contains("standard output can't be written"), "{text}");
}

#[test]
fn help_names_each_command_and_option() {
    let help = String::from_utf8(totxegun(&["--help"]).stdout).unwrap();
    for command in [
        "serve",
        "status",
        "config",
        "totals",
        "flush",
        "quarantine",
        "release",
        "senders",
        "dead-letters",
        "close",
        "reopen",
        "adjust",
        "late",
        "export",
        "check",
        "store",
        "version",
    ] {
        assert!(help.contains(command), "{command} in\n{help}");
    }
    let help = String::from_utf8(totxegun(&["serve", "--help"]).stdout).unwrap();
    for option in [
        "data",
        "listen",
        "admin",
        "admin-tokens",
        "config",
        "log-level",
        "allowed-hosts",
        "sender-series",
        "sender-points",
        "store",
        "instance",
        "peer",
        "store-copies",
        "sink",
        "sink-header-file",
        "sink-ca",
        "sink-cert",
        "sink-key",
        "forward-unsupported-header-file",
        "forward-unsupported-ca",
        "forward-unsupported-cert",
        "forward-unsupported-key",
        "flush-interval",
        "durability",
        "series-ttl",
        "split-at",
        "max-ahead",
        "max-age",
        "keep-intervals",
        "keep-hours",
        "drop-attribute",
        "integer-unit",
        "forward-unsupported",
        "cumulative",
        "exponential",
        "initial-value",
        "reset",
        "max-series",
        "max-memory",
        "max-bytes",
        "max-connections",
        "threads",
    ] {
        assert!(help.contains(&format!("--{option} ")), "--{option} in\n{help}");
        let variable = format!("[env: TOTXEGUN_{}=", option.to_uppercase().replace('-', "_"));
        assert!(
            help.contains(&variable) || help.contains(&variable[..variable.len() - 1]),
            "{variable} in\n{help}"
        );
    }
    let version = String::from_utf8(totxegun(&["version"]).stdout).unwrap();
    assert!(version.starts_with(concat!("totxegun ", env!("CARGO_PKG_VERSION"), "; ")), "{version}");
}

#[test]
fn a_faulty_line_has_status_2() {
    refused(&[], 2, "Usage");
    refused(&["serve"], 2, "--data");
    refused(&["serve", "--data", "d", "--max-series", "0"], 2, "1..=1000000");
    refused(&["serve", "--data", "d", "--flush-interval", "10"], 2, "10s");
    refused(&["serve", "--data", "d", "--sink", "localhost:4318"], 2, "`localhost:` is not a kind of sink");
    refused(&["quarantine", "no name"], 2, "1 to 64");
    let serve = ["serve", "--data", "d"];
    for (words, part) in [
        (&[&serve[..], &["--sink-gzip"]].concat()[..], "for a sink of OTLP"),
        (&[&serve[..], &["--listen", "4318"]].concat(), "write HOST:PORT"),
        (&[&serve[..], &["--sink-header", "host: h"]].concat(), "`host`"),
        (&[&serve[..], &["--integer-unit", "s=us,s=ms"]].concat(), "two rules for the unit `s`"),
        (&[&serve[..], &["--integer-unit", "auto,off"]].concat(), "both auto and off"),
        (
            &[&serve[..], &["--forward-unsupported", "h:4318"]].concat(),
            "--forward-unsupported takes http://HOST:PORT or https://HOST",
        ),
        (&[&serve[..], &["--admin", "unix:o", "--admin-tokens", "t"]].concat(), "for orders over TCP"),
        (
            &[&serve[..], &["--forward-unsupported", "http://127.0.0.1:4318"]].concat(),
            "points would come again for ever",
        ),
        (&[&serve[..], &["--forward-unsupported-ca", "f"]].concat(), "are for --forward-unsupported"),
        (&[&serve[..], &["--sink-ca", "f"]].concat(), "for a sink of OTLP"),
        (&["explain", "-", "--integer-unit", "s=us,s=ms"], "two rules for the unit `s`"),
    ] {
        refused(words, 2, part);
    }
    refused(&["dead-letters"], 2, "Usage");
}

#[test]
fn a_password_of_the_sink_is_not_shown() {
    for sink in ["postgres://u:secret@h", "http://u:secret@h/", "secret://h"] {
        for words in [&["serve", "--data", "d"][..], &["totals"]] {
            let mut command = Command::new(env!("CARGO_BIN_EXE_totxegun"));
            let by_variable = command.args(words).env("TOTXEGUN_SINK", sink).output().unwrap();
            let by_option = totxegun(&[words, &["--sink", sink]].concat());
            for output in [by_variable, by_option] {
                let text = String::from_utf8_lossy(&output.stderr).into_owned();
                let is_told =
                    text.contains("--sink") && !text.contains(":secret@") && !text.contains("'secret:");
                assert!(output.status.code() == Some(2) && is_told, "{text}");
            }
        }
    }
    let mut command = Command::new(env!("CARGO_BIN_EXE_totxegun"));
    command.args(["serve", "--data", "d"]).env("TOTXEGUN_SINK_HEADER", "secret");
    let text = String::from_utf8_lossy(&command.output().unwrap().stderr).into_owned();
    assert!(text.contains("a name, a colon") && !text.contains("secret"), "{text}");
    for command in ["serve", "totals"] {
        let mut command_line = Command::new(env!("CARGO_BIN_EXE_totxegun"));
        command_line.args([command, "--help"]).env("TOTXEGUN_SINK", "postgres://u:secret@h/d");
        let help = String::from_utf8_lossy(&command_line.output().unwrap().stdout).into_owned();
        assert!(help.contains("TOTXEGUN_SINK") && !help.contains("secret"), "{help}");
    }
}

/// Otherwise half a file would look like a bill without series.
#[test]
fn an_export_that_fails_prints_nothing() {
    let export = ["export", "--month", "2026-11", "--csv"];
    let nowhere = [&export[..], &["--sink", "postgres://u@127.0.0.1:1/d"]].concat();
    let output = totxegun(&nowhere);
    assert_eq!((output.status.code(), output.stdout), (Some(1), Vec::new()));
    refused(&[&export[..], &["--data", "/nowhere"]].concat(), 1, "give the sink by --sink");
}

/// Otherwise idle connections could take the files that the journal needs.
#[test]
fn few_open_files_are_few_connections() {
    let folder = tempfile::tempdir().unwrap();
    let taken = std::net::TcpListener::bind("127.0.0.1:0").unwrap();
    let line = format!(
        "ulimit -n 1000; exec {} serve --data {} --listen {}",
        env!("CARGO_BIN_EXE_totxegun"),
        folder.path().display(),
        taken.local_addr().unwrap()
    );
    for (more, connections) in [(" --listen-grpc off", 808), ("", 404)] {
        let output = Command::new("sh").args(["-c", &format!("{line}{more}")]).output();
        let text = String::from_utf8_lossy(&output.unwrap().stderr).into_owned();
        let told = format!("lower --max-connections open_files=1000 connections={connections} wanted=1024");
        assert!(text.contains(&told), "{more}: {text}");
    }
}

/// The copy may have gigabytes of what senders sent.
#[test]
fn an_interrupt_leaves_no_copy_of_a_folder() {
    use nix::sys::signal::{kill, Signal};
    let (data, temporary) = (tempfile::tempdir().unwrap(), tempfile::tempdir().unwrap());
    std::fs::write(data.path().join("lock"), "").unwrap();
    std::fs::write(
        data.path().join("version"),
        r#"{"totxegun":1,"epoch":"0123456789abcdef","lock":{"inode":1}}"#,
    )
    .unwrap();
    std::fs::create_dir(data.path().join("dead-letters")).unwrap();
    // Copying this file waits for somebody who writes to it.
    let pipe = data.path().join("dead-letters/0-a-1.json");
    nix::unistd::mkfifo(&pipe, nix::sys::stat::Mode::from_bits_truncate(0o600)).unwrap();
    for signal in [Signal::SIGINT, Signal::SIGTERM] {
        let words = ["check", data.path().to_str().unwrap(), "--temporary"];
        let mut check = program(&words).arg(temporary.path()).spawn().unwrap();
        let copied = || std::fs::read_dir(temporary.path()).unwrap().count();
        while copied() == 0 {
            assert!(check.try_wait().unwrap().is_none(), "it ended by itself");
            std::thread::sleep(std::time::Duration::from_millis(10));
        }
        std::thread::sleep(std::time::Duration::from_millis(100));
        kill(nix::unistd::Pid::from_raw(check.id() as i32), signal).unwrap();
        let status = check.wait().unwrap();
        assert_eq!((status.code(), copied()), (Some(128 + signal as i32), 0), "{signal}");
    }
}

#[test]
fn what_is_not_possible_has_status_1_and_is_named() {
    let folder = tempfile::tempdir().unwrap();
    let data = folder.path().to_str().unwrap();
    let taken = std::net::TcpListener::bind("127.0.0.1:0").unwrap();
    let address = taken.local_addr().unwrap().to_string();
    let serve = ["serve", "--data", data];
    refused(
        &[&serve[..], &["--listen", &address]].concat(),
        1,
        &format!("--listen {address} can't be listened on (Address already in use (os error 98)): stop what listens there"),
    );
    let told = format!(
        "--listen-grpc {address} can't be listened on (Address already in use (os error 98)): end what listens there, give another --listen-grpc, or --listen-grpc off"
    );
    refused(&[&serve[..], &["--listen", "127.0.0.1:0", "--listen-grpc", &address]].concat(), 1, &told);
    let serve = [&serve[..], &["--listen-grpc", "off"]].concat();
    refused(
        &[&serve[..], &["--listen", "127.0.0.1:0", "--admin", &address]].concat(),
        1,
        &format!("--admin {address}"),
    );
    let other = tempfile::tempdir().unwrap();
    let place = ["--data", other.path().to_str().unwrap(), "--listen", "127.0.0.1:0", "--listen-grpc", "off"];
    let short = ["--admin", "127.0.0.1:0", "--max-memory", "64MiB", "--max-series", "1000000"];
    refused(&[&["serve"][..], &place, &short].concat(), 1, "raise --max-memory, or lower --max-series");
    drop(taken);
    for words in [
        &["status"][..],
        &["flush"],
        &["totals"],
        &["release", "A"],
        &["dead-letters", "list"],
        &["close", "2026-01"],
        &["reopen", "2026-01"],
        &["late"],
        &["adjust", "1", "2026-01-05T13", "-1", "--reason", "x"],
        &["export", "--month", "2026-01", "--csv"],
        &["dead-letters", "resend", "0-a-1"],
    ] {
        refused(&[words, &["--admin", &address]].concat(), 1, &address);
    }
    refused(&["check", data], 1, "no folder of totxegun");
    refused(&["totals", "--sink", "http://h/"], 1, "SQLite");
    refused(&["totals", "--data", "/nowhere"], 1, "give the sink by --sink sqlite:PATH");
    refused(&["totals", "--sink", "sqlite:/nowhere/none.db"], 1, "there is no such file");
    refused(&["export", "--month", "2026-01", "--json", "--sink", "http://h/"], 1, "ask the sink itself");
    refused(&["totals", "--sink", "postgresql://u@/d?host=/nowhere"], 1, "/nowhere");
}

#[test]
fn an_option_may_come_by_the_environment() {
    let mut command = Command::new(env!("CARGO_BIN_EXE_totxegun"));
    let output =
        command.arg("serve").env("TOTXEGUN_DATA", "d").env("TOTXEGUN_MAX_SERIES", "none").output().unwrap();
    let text = String::from_utf8_lossy(&output.stderr).into_owned();
    assert!(output.status.code() == Some(2) && text.contains("--max-series"), "{text}");
}
