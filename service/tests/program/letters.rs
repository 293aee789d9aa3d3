//! Tests dead letters that are sent again.

use crate::support::{points, until, Place, Service};
use std::io::{BufRead, BufReader, ErrorKind, Read, Write};
use std::net::{TcpListener, TcpStream};
use std::time::Duration;

/// An OTLP sink whose answers the test gives.
struct Sink {
    listener: TcpListener,
    address: String,
}

/// A request that waits for its answer.
struct Asked {
    stream: TcpStream,
    key: String,
    body: Vec<u8>,
}

impl Sink {
    fn new() -> Sink {
        let listener = TcpListener::bind("127.0.0.1:0").unwrap();
        let address = format!("http://{}/v1/metrics", listener.local_addr().unwrap());
        Sink { listener, address }
    }

    fn next(&self) -> Asked {
        let mut next = None;
        self.listener.set_nonblocking(true).unwrap();
        until("the sink is asked", || {
            next = self.listener.accept().ok();
            next.is_some()
        });
        let stream = next.unwrap().0;
        stream.set_nonblocking(false).unwrap();
        Asked::read(stream)
    }

    fn is_asked(&self) -> bool {
        self.listener.set_nonblocking(true).unwrap();
        match self.listener.accept() {
            Ok(_) => true,
            Err(error) => {
                assert_eq!(error.kind(), ErrorKind::WouldBlock);
                false
            }
        }
    }

    /// Answers this many requests, with these statuses and then with 200. Returns their keys.
    fn answers(&self, count: usize, statuses: &[&str]) -> Vec<String> {
        let statuses = statuses.iter().copied().chain(std::iter::repeat("200 OK"));
        let asked = statuses.take(count).map(|status| self.next().answer(status));
        asked.collect()
    }
}

impl Asked {
    fn read(stream: TcpStream) -> Asked {
        let mut reader = BufReader::new(stream);
        let (mut key, mut length, mut line) = (String::new(), 0, String::new());
        while reader.read_line(&mut line).unwrap() > 2 {
            let (name, value) = line.split_once(' ').unwrap();
            match name {
                "idempotency-key:" => key = value.trim().to_string(),
                "content-length:" => length = value.trim().parse().unwrap(),
                _ => {}
            }
            line.clear();
        }
        let mut body = vec![0; length];
        reader.read_exact(&mut body).unwrap();
        Asked { stream: reader.into_inner(), key, body }
    }

    fn answer(mut self, status: &str) -> String {
        let text = format!("HTTP/1.1 {status}\r\ncontent-length: 0\r\nconnection: close\r\n\r\n");
        self.stream.write_all(text.as_bytes()).unwrap();
        self.key
    }
}

fn put_letter(place: &Place, key: &str, body: &[u8]) {
    let head = serde_json::json!({"key": key, "since": 1, "reason": "400", "bytes": body.len()});
    let letter = [format!("{head}\n").as_bytes(), body].concat();
    std::fs::write(place.data().join(format!("dead-letters/{key}.json")), letter).unwrap();
}

fn service(place: &Place, sink: &Sink) -> Service {
    let service = place.begin(&["--sink", &sink.address]);
    until("it is ready", || service.is_ready());
    service
}

/// As if a run was killed before the outbox noted that the request is a dead letter.
#[test]
fn a_letter_that_is_being_delivered_is_not_sent_meanwhile() {
    let (place, sink) = (Place::new(), Sink::new());
    let service = service(&place, &sink);
    let posted = service.post_until_answered("A", &points(&["a"], 100, 5));
    assert_eq!(posted.0, 200, "{posted:?}");
    let delivered = sink.next();
    let key = delivered.key.clone();
    put_letter(&place, &key, &delivered.body);
    std::thread::scope(|scope| {
        let resent = scope.spawn(|| service.said(&["dead-letters", "resend", &key]));
        for _ in 0..20 {
            std::thread::sleep(Duration::from_millis(50));
            assert!(!sink.is_asked(), "one key was sent twice at once");
        }
        delivered.answer("200 OK");
        assert_eq!(sink.next().answer("200 OK"), key);
        assert_eq!(resent.join().unwrap(), format!("done: the sink has {key}\n"));
    });
    assert_eq!(service.said(&["dead-letters", "list"]), "the sink has refused nothing for good\n");
}

#[test]
fn all_letters_are_sent_until_the_sink_fails() {
    let (place, sink) = (Place::new(), Sink::new());
    let service = service(&place, &sink);
    let resend = ["dead-letters", "resend", "--all"];
    assert_eq!(service.said(&resend), "the sink has refused nothing for good\n");
    let keys = ["0-a-1", "0-a-2", "0-a-3"];
    for key in keys.iter().chain(&["0-a-4-partial"]) {
        put_letter(&place, key, b"{}");
    }
    std::thread::scope(|scope| {
        let said = scope.spawn(|| service.said(&resend));
        let asked = sink.answers(2, &["200 OK", "503 Service Unavailable"]);
        let said = said.join().unwrap();
        assert!(said.contains("the sink has taken 1 request; it was given up at 0-a-2: "), "{said}");
        assert_eq!(asked.len(), 2);
    });
    std::thread::scope(|scope| {
        let said = scope.spawn(|| service.said(&resend));
        sink.answers(2, &["400 Bad Request"]);
        let said = said.join().unwrap();
        let refused =
            "the sink has taken 1 request; refused, taken in part or not readable: 1 request\n0-a-2: ";
        assert!(said.contains(refused), "{said}");
    });
    std::thread::scope(|scope| {
        let said = scope.spawn(|| service.said(&resend));
        sink.answers(1, &[]);
        assert_eq!(said.join().unwrap(), "done: the sink has taken 1 request\n");
    });
    assert!(service.said(&["dead-letters", "list"]).contains("0-a-4-partial"));
}

/// The page shows none of them, so that nobody takes some for all.
#[test]
fn the_page_says_how_many_letters_there_are() {
    let (place, sink) = (Place::new(), Sink::new());
    let service = service(&place, &sink);
    (0..60).for_each(|number| put_letter(&place, &format!("0-a-{number}"), b"{}"));
    assert!(service.said(&["dead-letters", "list"]).contains("0-a-59"));
    let (status, page) = service.at_socket("GET", "/").unwrap();
    assert_eq!((status, page.matches("0-a-").count()), (200, 0), "{page}");
    assert!(
        page.contains("60 requests that the sink refused for good: `totxegun dead-letters list`"),
        "{page}"
    );
}

/// Otherwise no later one would reach the sink.
#[test]
fn of_all_letters_those_that_can_t_be_sent_are_named_and_the_others_are_sent() {
    let (place, sink) = (Place::new(), Sink::new());
    let service = service(&place, &sink);
    for key in ["0-a-2", "0-a-3", "0-a-4"] {
        put_letter(&place, key, b"{}");
    }
    let damaged = place.data().join("dead-letters/0-a-1.json");
    std::fs::write(&damaged, "{}").unwrap();
    std::fs::File::open(&damaged).unwrap().set_modified(std::time::UNIX_EPOCH).unwrap();
    std::thread::scope(|scope| {
        let resent = scope.spawn(|| service.ended_by(&["dead-letters", "resend", "--all"]));
        let keys = sink.answers(3, &["200 OK", "400 Bad Request"]);
        assert_eq!(keys, ["0-a-2", "0-a-3", "0-a-4"]);
        let (status, said) = resent.join().unwrap();
        assert_eq!(status, Some(1), "{said}");
        for part in [
            "the sink has taken 2 requests; refused, taken in part or not readable: 2 requests\n",
            "\n0-a-1: ",
            "dead-letters/0-a-1.json",
            "\n0-a-3: ",
        ] {
            assert!(said.contains(part), "{part} in {said}");
        }
    });
    std::fs::remove_file(damaged).unwrap();
    std::thread::scope(|scope| {
        let resent = scope.spawn(|| service.ended_by(&["dead-letters", "resend", "--all"]));
        sink.answers(1, &[]);
        assert_eq!(resent.join().unwrap(), (Some(0), "done: the sink has taken 1 request\n".to_string()));
    });
}
