//! Tests the file of settings with the program: what comes before what, what is refused, and what is not shown.

use super::{program, refused, totxegun};

const FILE: &str = "data = \"d\"\nthreads = 2\nflush-interval = \"5s\"\n[sink]\naddress = \"http://h:1\"\n";

fn written(text: &str) -> (tempfile::TempDir, String) {
    let folder = tempfile::tempdir().unwrap();
    let path = folder.path().join("totxegun.toml");
    std::fs::write(&path, text).unwrap();
    let path = path.display().to_string();
    (folder, path)
}

/// The command line wins over the environment, and the environment over the file.
#[test]
fn each_value_is_shown_with_where_it_comes_from() {
    let (_folder, path) = written(FILE);
    let mut command = program(&["config", "show", "--config", &path, "--flush-interval=7s"]);
    let output = command.env("TOTXEGUN_THREADS", "3").env("TOTXEGUN_FLUSH_INTERVAL", "8s").output().unwrap();
    let text = String::from_utf8(output.stdout).unwrap();
    for line in [
        "threads = 3 # environment, TOTXEGUN_THREADS".to_string(),
        "flush-interval = \"7s\" # command line".into(),
        format!("data = \"d\" # {path}"),
        format!("address = \"http://h:1\" # {path}"),
        "listen = \"127.0.0.1:4318\" # default".into(),
    ] {
        assert!(text.lines().any(|it| it == line), "{line} in\n{text}");
    }
    let mut named = program(&["config", "show"]);
    let named = named.env("TOTXEGUN_CONFIG", &path).output().unwrap();
    assert!(String::from_utf8(named.stdout).unwrap().contains(&format!("threads = 2 # {path}")));
}

#[test]
fn secrets_are_not_shown() {
    let (_folder, path) = written("data = \"d\"\n");
    let mut command = program(&["config", "show", "--config", &path, "--sink", "postgres://u:secret@h/d"]);
    let output = command.env("TOTXEGUN_SINK_HEADER", "a: secret").output().unwrap();
    let text = String::from_utf8([output.stdout, output.stderr].concat()).unwrap();
    assert!(
        text.contains("address = \"postgres://u@h/d\" # command line") && !text.contains("secret"),
        "{text}"
    );
}

#[test]
fn what_can_not_be_used_is_refused_before_a_start() {
    let (_folder, path) = written(FILE);
    let output = totxegun(&["config", "check", "--config", &path]);
    let text = String::from_utf8([output.stdout, output.stderr].concat()).unwrap();
    assert_eq!((output.status.code(), text.contains("a service starts")), (Some(0), true), "{text}");
    for (added, part) in [
        ("", "write `flush-interval`"),
        ("tokens = \"/none\"\n", "--tokens can't be used"),
        ("keep-hours = \"7d\"\n", "--keep-hours are for a sink of SQLite"),
    ] {
        let text = match added {
            "" => FILE.replace("flush-interval", "flush-evry"),
            _ => added.to_string() + FILE,
        };
        let (_folder, path) = written(&text);
        for words in [&["config", "check", "--config", &path][..], &["serve", "--config", &path]] {
            let status = if added.starts_with("tokens") { 1 } else { 2 };
            refused(words, status, part);
        }
    }
}
