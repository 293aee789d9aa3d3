//! Tests orders at a socket of this machine, beside an address of TCP that everybody may read and that takes orders by
//! token.

use crate::support::{points, until, Place, Service, PROGRAM};
use std::os::unix::fs::MetadataExt;
use std::path::Path;
use std::process::{Command, Output};

/// Runs a command, with a setting of the service in its environment.
fn told(words: &[&str], operate: &str) -> Output {
    let command = Command::new(PROGRAM).args(words).env("TOTXEGUN_ADMIN", operate).output();
    command.unwrap()
}

fn text(output: &Output) -> String {
    String::from_utf8([&output.stdout[..], &output.stderr].concat()).unwrap()
}

/// Asks over TCP, with a header. An order is a POST.
fn over_tcp(service: &Service, path: &str, header: &str) -> String {
    let method = match path.starts_with("/dead-letters") && path.matches('/').count() < 3 {
        true => "GET",
        false => "POST",
    };
    let mut command = Command::new("curl");
    command.args(["-sS", "-i", "-X", method, "-H", header]);
    let output = command.arg(format!("http://{}{path}", service.operate)).output();
    text(&output.unwrap())
}

/// Routes that change something, or show bodies.
const ORDERS: [&str; 7] = [
    "/flush",
    "/quarantine/A",
    "/release/A",
    "/dead-letters",
    "/dead-letters/k",
    "/dead-letters/k/resend",
    "/dead-letters/k/drop",
];

#[test]
fn orders_are_taken_at_the_socket_alone() {
    let place = Place::new();
    let service = place.serve_with(&["--sink", &place.sink(), "--flush-interval", "1h"]);
    let socket = service.socket();
    assert_eq!(std::fs::metadata(&socket).unwrap().mode() & 0o777, 0o660);
    assert_eq!(service.post("A", &points(&["a"], 100, 1)).unwrap().0, 200);
    for path in ORDERS {
        let answer = over_tcp(&service, path, "Authorization: Bearer t0ken");
        let is_refused = answer.starts_with("HTTP/1.1 403") && answer.contains(&socket.display().to_string());
        assert!(is_refused, "{path}: {answer}");
    }
    assert_eq!(place.totals_if_any().len(), 0, "nothing was flushed");
    for path in ["/metrics", "/totals", "/healthz", "/readyz", "/status"] {
        assert_eq!(service.asked_for(path).unwrap().0, 200, "{path}");
    }
    for (words, said) in [
        (&["quarantine", "A"][..], "done"),
        (&["release", "A"], "done"),
        (&["flush"], "done: 1 request went into the outbox"),
        (&["dead-letters", "list"], ""),
        (&["status"], "ready"),
    ] {
        assert!(service.said(words).contains(said), "{words:?}");
    }
    until("it is delivered", || place.totals_if_any().get("a") == Some(&1));
    assert!(place.log().contains(&format!("order at unix:{}", socket.display())));
    assert_eq!(service.end(), Some(0));
}

/// The report is made under a lock that posts wait for, so somebody who may only read could stop them.
#[test]
fn the_report_is_at_the_socket_alone() {
    let place = Place::new();
    let made = Command::new(PROGRAM).args(["token", "ann"]).output().unwrap();
    let token = String::from_utf8(made.stderr).unwrap().lines().last().unwrap().to_string();
    let operators = place.folder.path().join("operators");
    std::fs::write(&operators, &made.stdout).unwrap();
    let operators = operators.display().to_string();
    let service = place.serve_with(&["--sink", &place.sink(), "--admin-tokens", &operators]);
    for header in ["x: y", &format!("Authorization: Bearer {token}")] {
        let mut command = Command::new("curl");
        let output =
            command.args(["-sS", "-i", "-H", header]).arg(format!("http://{}/report", service.operate));
        let answer = text(&output.output().unwrap());
        let place = service.socket().display().to_string();
        assert!(answer.starts_with("HTTP/1.1 403") && answer.contains(&place), "{answer}");
    }
    let (status, report) = service.at_socket("GET", "/report").unwrap();
    assert!(status == 200 && report.ends_with("end\n"), "{status} {report}");
    assert_eq!(service.end(), Some(0));
}

/// By the folder, by the service's own setting, or by an option.
#[test]
fn a_command_finds_the_socket() {
    let place = Place::new();
    let elsewhere = format!("unix:{}", place.folder.path().join("elsewhere").display());
    let service = place.serve_with(&["--sink", &place.sink(), "--admin", &elsewhere]);
    let data = place.data().display().to_string();
    let both = format!("{},{elsewhere}", service.operate);
    for (words, setting) in [
        (&["flush"][..], &*both),
        (&["flush", "--data", &data], &elsewhere),
        (&["flush", "--admin", &elsewhere], &service.operate),
        (&["status", "--admin", &service.operate], &elsewhere),
    ] {
        let output = told(words, setting);
        assert!(output.status.success(), "{words:?}: {}", text(&output));
    }
    for (words, why) in [
        (&["flush", "--data", &data][..], "there is no unix:"),
        (&["flush", "--admin", &service.operate], "run totxegun on the service's machine with its --data"),
    ] {
        let output = told(words, "");
        assert!(text(&output).contains(why), "{words:?}: {}", text(&output));
    }
    assert_eq!(service.end(), Some(0));
}

#[test]
fn a_token_is_taken_over_tcp() {
    let place = Place::new();
    let at = |name: &str| place.folder.path().join(name).display().to_string();
    let made = Command::new(PROGRAM).args(["token", "ann"]).output().unwrap();
    let shown = String::from_utf8(made.stderr).unwrap();
    let token = shown.lines().last().unwrap().to_string();
    std::fs::write(at("operators"), &made.stdout).unwrap();
    std::fs::write(at("token"), format!("{token}\n")).unwrap();
    let words = ["--sink", &place.sink(), "--admin-tokens", &at("operators")];
    let service = place.serve_with(&words);
    for path in ORDERS {
        for header in ["x: y", "Authorization: Bearer t0ken", &format!("Authorization: {token}")] {
            let answer = over_tcp(&service, path, header);
            let is_refused =
                answer.starts_with("HTTP/1.1 401") && answer.contains("www-authenticate: Bearer");
            assert!(is_refused, "{path}: {answer}");
        }
    }
    let without = text(&told(&["flush", "--admin", &service.operate], ""));
    assert!(without.contains("give the file that has it by --token FILE"), "{without}");
    let both = ["--admin", &service.operate, "--token", &at("token")];
    let by_token = |words: &[&str]| text(&told(&[words, &both].concat(), ""));
    assert!(by_token(&["quarantine", "A"]).starts_with("done: nothing of A is known yet"));
    let acts = || std::fs::read_to_string(place.data().join("acts.jsonl")).unwrap();
    assert!(acts().contains("\"who\":\"ann\",\"action\":\"quarantine\""), "{}", acts());
    // Even with a token, a web page is a page of somebody else.
    let mut command = Command::new("curl");
    command.args([
        "-sS",
        "-X",
        "POST",
        "-H",
        "Origin: null",
        "-H",
        &format!("Authorization: Bearer {token}"),
    ]);
    let answer = command.arg(format!("http://{}/release/A", service.operate)).output();
    assert!(text(&answer.unwrap()).contains("it has an Origin"));
    std::fs::write(at("operators"), "").unwrap();
    until("its line is gone", || by_token(&["flush"]).contains("the token is not known"));
    assert_eq!(service.said(&["release", "A"]), "done\n", "the socket wants none");
    assert!(!place.log().contains(&token) && !acts().contains(&token));
    assert_eq!(service.end(), Some(0));
}

/// There is no encryption there.
#[test]
fn tokens_of_operators_stay_on_this_machine() {
    let place = Place::new();
    let file = place.folder.path().join("operators");
    std::fs::write(&file, format!("ann sha256:{}", "0".repeat(64))).unwrap();
    let mut command = Command::new(PROGRAM);
    command.args([
        "serve",
        "--listen",
        "127.0.0.1:0",
        "--listen-grpc",
        "off",
        "--admin",
        "0.0.0.0:0",
        "--admin-tokens",
    ]);
    let output = command.arg(&file).arg("--data").arg(place.data()).output().unwrap();
    assert_eq!(output.status.code(), Some(2));
    assert!(text(&output).contains("--behind-proxy"), "{}", text(&output));
}

/// The list of them needs an operator.
#[test]
fn a_page_says_of_dead_letters_how_many_they_are() {
    let place = Place::new();
    assert_eq!(place.serve().end(), Some(0));
    let letter = r#"{"key":"0-a-1","since":1,"reason":"400 of host h1","bytes":2}"#;
    std::fs::write(place.data().join("dead-letters/0-a-1.json"), format!("{letter}\n{{}}")).unwrap();
    let service = place.serve();
    for (status, page) in [service.asked_for("/").unwrap(), service.at_socket("GET", "/").unwrap()] {
        assert_eq!(status, 200);
        assert!(page.contains("<b>1</b><span>dead letters") && page.contains("totxegun dead-letters list"));
        assert!(!page.contains("0-a-1") && !page.contains("host h1"), "{page}");
    }
    let (_, list) = service.at_socket("GET", "/dead-letters").unwrap();
    assert!(list.contains("0-a-1") && list.contains("400 of host h1"), "{list}");
}

/// The socket's file stays, and the next run replaces it.
#[test]
fn a_socket_of_a_killed_service_is_taken_over() {
    let place = Place::new();
    let mut service = place.serve();
    service.kill();
    assert!(service.said(&["flush"]).contains("no service answers at unix:"));
    let service = place.serve();
    assert!(service.said(&["flush"]).contains("done"));
    assert_eq!(service.end(), Some(0));
}

/// Another service on the folder leaves the socket where it is.
#[test]
fn a_second_service_takes_nobody_s_socket() {
    let place = Place::new();
    let service = place.serve();
    let inode = |path: &Path| std::fs::metadata(path).unwrap().ino();
    let before = inode(&service.socket());
    assert_eq!(place.begin(&["--sink", &place.sink()]).status_of_end(), Some(1));
    assert!(place.log().contains("is in use by another service"));
    assert_eq!(inode(&service.socket()), before);
    assert!(service.said(&["flush"]).contains("done"));
}

#[test]
fn a_socket_may_be_the_only_address() {
    let place = Place::new();
    let socket = format!("unix:{}", place.folder.path().join("admin.sock").display());
    let mut command = Command::new(PROGRAM);
    command.args(["serve", "--listen", "127.0.0.1:0", "--listen-grpc", "off", "--admin", &socket, "--data"]);
    let mut service = command.arg(place.data()).stderr(std::process::Stdio::null()).spawn().unwrap();
    until("it is ready", || text(&told(&["status"], &socket)).contains("ready"));
    for (more, why) in [("unix:/x", "a second address"), ("127.0.0.1:1,127.0.0.1:2", "a second address")] {
        let both = format!("{socket},{more}");
        let twice = told(&["serve", "--listen", "127.0.0.1:0", "--data", "/nowhere"], &both);
        assert!(twice.status.code() == Some(2) && text(&twice).contains(why), "{}", text(&twice));
    }
    service.kill().unwrap();
    service.wait().unwrap();
}

/// As in the package: the folder belongs to root, and the message says so.
#[test]
fn who_has_no_rights_is_told_what_to_do() {
    let place = Place::new();
    let service = place.serve();
    let of_nobody = |words: &[&str]| {
        let mut command = Command::new("setpriv");
        command.args(["--reuid=65533", "--regid=65533", "--clear-groups", "--", PROGRAM]);
        command.args(words).arg("--data").arg(place.data()).output()
    };
    let Ok(output) = of_nobody(&["flush"]) else {
        return eprintln!("skipped: no setpriv");
    };
    let said = text(&output);
    if said.contains("setpriv:") {
        return eprintln!("skipped: no right to be somebody else");
    }
    assert!(said.contains("is closed to this user: run this as root"), "{said}");
    assert_eq!(output.status.code(), Some(1));
    assert_eq!(service.end(), Some(0));
}
