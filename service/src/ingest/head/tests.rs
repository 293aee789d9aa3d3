//! Parsing of heads, and which are refused.

use super::*;
use crate::identity::Door;

fn read(input: &[u8]) -> Result<Option<(usize, Asked)>, Refusal> {
    super::read(input, &Door::default().who(None, None))
}

fn text(method: &str, path: &str, headers: &[(&str, &str)]) -> String {
    let mut text = format!("{method} {path} HTTP/1.1\r\nHost: a\r\n");
    for (name, value) in headers {
        text.push_str(&format!("{name}: {value}\r\n"));
    }
    text + "\r\n"
}

fn head(method: &str, path: &str, headers: &[(&str, &str)]) -> Result<Head, u16> {
    let text = text(method, path, headers);
    let (end, asked) = read(text.as_bytes()).unwrap().expect("a whole head");
    assert_eq!(end, text.len());
    asked.head.map_err(|turned| turned.refusal.reason().status())
}

fn asked(text: &str) -> Result<Asked, u16> {
    match read(text.as_bytes()) {
        Ok(read) => Ok(read.expect("a whole head").1),
        Err(refusal) => Err(refusal.reason().status()),
    }
}

/// A method, a path, headers, and the status of the refusal.
type Case<'a> = (&'a str, &'a str, &'a [(&'a str, &'a str)], u16);

const JSON: (&str, &str) = ("content-type", "application/json");
const LENGTH: (&str, &str) = ("content-length", "0");

#[test]
fn a_head_is_read() {
    let read = head(
        "POST",
        "/v1/metrics?a=b",
        &[("content-type", "Application/X-Protobuf; a=b"), ("content-encoding", ", GZIP,"), LENGTH],
    );
    assert_eq!(read, Ok(Head { sender: "-".into(), encoding: Encoding::Protobuf, packing: Packing::Gzip }));
    let read = head(
        "POST",
        "http://any/v1/metrics",
        &[
            JSON,
            ("x-sender", "A.b_c-9"),
            ("content-encoding", "identity"),
            ("content-encoding", ""),
            ("transfer-encoding", "chunked"),
        ],
    );
    assert_eq!(
        read,
        Ok(Head { sender: "A.b_c-9".into(), encoding: Encoding::Json, packing: Packing::Plain })
    );
}

#[test]
fn the_first_thing_that_is_wrong_is_answered() {
    let long = "a".repeat(65);
    let table: &[Case] = &[
        ("GET", "/flush", &[], 404),
        ("POST", "/v1/metrics/", &[JSON], 404),
        ("POST", "/v1/metricsa", &[JSON], 404),
        ("POST", "*", &[JSON], 404),
        ("POST", "http://any/v1/metrics/a", &[JSON], 404),
        ("POST", "/quarantine/A", &[JSON], 404),
        ("GET", "/v1/metrics", &[("x-sender", "!")], 405),
        ("POST", "/v1/metrics", &[("x-sender", "!")], 400),
        ("POST", "/v1/metrics", &[JSON, ("x-sender", "")], 400),
        ("POST", "/v1/metrics", &[JSON, ("x-sender", &long)], 400),
        ("POST", "/v1/metrics", &[JSON, ("x-sender", "A"), ("x-sender", "A")], 400),
        ("POST", "/v1/metrics", &[], 415),
        ("POST", "/v1/metrics", &[("content-type", "text/plain")], 415),
        ("POST", "/v1/metrics", &[JSON, ("content-encoding", "br")], 415),
        ("POST", "/v1/metrics", &[JSON, ("content-encoding", "gzip, gzip")], 415),
        ("POST", "/v1/metrics", &[JSON, ("content-encoding", "gzip, zstd")], 415),
        ("POST", "/v1/metrics", &[JSON, ("content-encoding", "deflate")], 415),
        ("POST", "/v1/metrics", &[JSON, ("content-encoding", "gzip"), ("content-encoding", "gzip")], 415),
        ("POST", "/v1/metrics", &[JSON, ("content-encoding", "deflate")], 415),
        ("POST", "/v1/metrics", &[JSON], 411),
    ];
    for (method, path, headers, status) in table {
        assert_eq!(head(method, path, headers), Err(*status), "{method} {path} {headers:?}");
    }
}

#[test]
fn a_head_is_read_once_it_is_whole() {
    let text = text("POST", "/v1/metrics", &[JSON, ("content-length", "2")]);
    for cut in 0..text.len() {
        assert!(read(&text.as_bytes()[..cut]).unwrap().is_none(), "{cut}");
    }
    let (end, asked) = read(format!("{text}{{}}").as_bytes()).unwrap().unwrap();
    assert_eq!((end, asked.body), (text.len(), Body::Length(2)));
}

#[test]
fn what_could_be_read_in_two_ways_is_refused() {
    let body = |headers: &str| {
        asked(&format!("POST / HTTP/1.1\r\nHost: a\r\n{headers}\r\n")).map(|asked| asked.body)
    };
    let cases: &[(&str, Result<Body, u16>)] = &[
        ("", Ok(Body::Length(0))),
        ("Content-Length: 7\r\n", Ok(Body::Length(7))),
        ("Content-Length: 7\r\ncontent-length: 7\r\n", Ok(Body::Length(7))),
        ("Transfer-Encoding: Chunked\r\n", Ok(Body::Line)),
        ("Content-Length: 7\r\nContent-Length: 8\r\n", Err(400)),
        ("Content-Length: +7\r\n", Err(400)),
        ("Content-Length: -1\r\n", Err(400)),
        ("Content-Length: \r\n", Err(400)),
        ("Content-Length: 7, 7\r\n", Err(400)),
        ("Content-Length: 99999999999999999999\r\n", Err(400)),
        ("Content-Length: 7\r\nTransfer-Encoding: chunked\r\n", Err(400)),
        ("Transfer-Encoding: gzip, chunked\r\n", Err(400)),
        ("Transfer-Encoding: chunked\r\nTransfer-Encoding: chunked\r\n", Err(400)),
        ("Content-Length : 7\r\n", Err(400)),
        ("Host: a\r\n", Err(400)),
        ("A: b\r\n c\r\n", Err(400)),
    ];
    for (headers, expected) in cases {
        assert_eq!(&body(headers), expected, "{headers:?}");
    }
    assert_eq!(asked("POST / HTTP/1.0\r\nTransfer-Encoding: chunked\r\n\r\n").err(), Some(400));
    assert_eq!(asked("POST / HTTP/1.1\r\n\r\n").err(), Some(400), "no host");
    assert!(asked("POST / HTTP/1.0\r\n\r\n").is_ok());
    assert_eq!(asked("no head\r\n\r\n").err(), Some(400));
    let many = "a: b\r\n".repeat(HEADERS + 1);
    assert_eq!(asked(&format!("POST / HTTP/1.1\r\nHost: a\r\n{many}\r\n")).err(), Some(431));
    let long = "a".repeat(READ_AHEAD);
    assert_eq!(asked(&format!("POST / HTTP/1.1\r\nHost: a\r\na: {long}")).err(), Some(431));
    assert_eq!(asked(&format!("POST / HTTP/1.1\r\nHost: a\r\na: {long}\r\n\r\n")).err(), Some(431));
}

#[test]
fn what_becomes_of_the_connection() {
    let cases = [
        ("1.1", "", Connection::Kept),
        ("1.1", "Connection: Close\r\n", Connection::Closed),
        ("1.1", "Connection: te, close\r\n", Connection::Closed),
        ("1.1", "Connection: keep-alive\r\n", Connection::Kept),
        ("1.0", "", Connection::Closed),
        ("1.0", "Connection: Keep-Alive\r\n", Connection::KeptIfSaid),
    ];
    for (version, headers, expected) in cases {
        let asked = asked(&format!("POST / HTTP/{version}\r\nHost: a\r\n{headers}\r\n")).unwrap();
        assert_eq!(asked.connection, expected, "{version} {headers}");
    }
    let waits = |version: &str| {
        asked(&format!("POST / HTTP/{version}\r\nHost: a\r\nExpect: 100-Continue\r\n\r\n")).unwrap().waits
    };
    assert!(waits("1.1") && !waits("1.0"));
}
