//! Writes the HTTP/1.1 response to a sender: status line, headers, body. `front` calls it with the outcome of a
//! request.

use super::head::Connection;
use crate::log::seconds;
use crate::otlp::{Encoding, Outcome};
use hyper::StatusCode;
use std::cell::RefCell;
use std::io::Write;
use std::time::{Duration, UNIX_EPOCH};

/// The head of the most common response, up to the date; a body of `{}` follows.
const TAKEN: &str = "HTTP/1.1 200 OK\r\ncontent-type: application/json\r\ncontent-length: 2\r\ndate: ";

/// Writes a response in the encoding of its request.
pub fn write(out: &mut Vec<u8>, outcome: &Outcome, encoding: Encoding, connection: Connection) {
    let is_usual =
        encoding == Encoding::Json && connection == Connection::Kept && *outcome == Outcome::taken(0);
    with_date(|date| match is_usual {
        true => [TAKEN, date, "\r\n\r\n{}"].iter().for_each(|part| out.extend_from_slice(part.as_bytes())),
        false => write_any(out, outcome, encoding, connection, date),
    });
}

/// Writes the response to a HEAD request: the same headers, including the body's length, without the body.
pub fn write_head(out: &mut Vec<u8>, outcome: &Outcome, encoding: Encoding, connection: Connection) {
    write(out, outcome, encoding, connection);
    out.truncate(out.len() - outcome.body(encoding).len());
}

fn write_any(out: &mut Vec<u8>, outcome: &Outcome, encoding: Encoding, connection: Connection, date: &str) {
    let body = outcome.body(encoding);
    let status = outcome.status();
    let kind = encoding.media_type();
    let again = outcome.again_in();
    let again = again.map_or(String::new(), |seconds| format!("retry-after: {seconds}\r\n"));
    let told = match status {
        405 => "allow: POST\r\n",
        401 => "www-authenticate: Bearer realm=\"totxegun\"\r\n",
        _ => &again,
    };
    let kept = match connection {
        Connection::Kept => "",
        Connection::KeptIfSaid => "connection: keep-alive\r\n",
        Connection::Closed => "connection: close\r\n",
    };
    let reason = StatusCode::from_u16(status).ok().and_then(|status| status.canonical_reason());
    // Writing into a vector never fails.
    let _ = write!(
        out,
        "HTTP/1.1 {status} {}\r\ncontent-type: {kind}\r\ncontent-length: {}\r\n{told}{kept}date: {date}\r\n\r\n",
        reason.unwrap_or(""),
        body.len()
    );
    out.extend_from_slice(&body);
}

thread_local! {
    /// The current second and its text as an HTTP date.
    static DATE: RefCell<(u64, String)> = const { RefCell::new((0, String::new())) };
}

fn with_date(write: impl FnOnce(&str)) {
    let now = seconds();
    DATE.with_borrow_mut(|(second, text)| {
        if *second != now || text.is_empty() {
            *second = now;
            *text = httpdate::fmt_http_date(UNIX_EPOCH + Duration::from_secs(now));
        }
        write(text)
    })
}

#[cfg(test)]
mod tests {
    use super::*;
    use crate::otlp::{Reason, Rejection};

    fn written(outcome: &Outcome, encoding: Encoding, connection: Connection) -> String {
        let mut out = Vec::new();
        write(&mut out, outcome, encoding, connection);
        String::from_utf8(out).unwrap()
    }

    #[test]
    fn an_answer_has_what_its_status_wants() {
        let taken = written(&Outcome::taken(0), Encoding::Json, Connection::Kept);
        assert!(taken
            .starts_with("HTTP/1.1 200 OK\r\ncontent-type: application/json\r\ncontent-length: 2\r\ndate: "));
        assert!(taken.ends_with(" GMT\r\n\r\n{}"), "{taken}");
        let any = Outcome::taken(0);
        let mut out = Vec::new();
        with_date(|date| write_any(&mut out, &any, Encoding::Json, Connection::Kept, date));
        assert_eq!(out.len(), taken.len(), "the usual answer is as any other");
        let refused = |reason| Outcome::refused(reason, "why");
        let busy = written(&refused(Reason::Full), Encoding::Json, Connection::KeptIfSaid);
        assert!(
            busy.starts_with("HTTP/1.1 503 Service Unavailable\r\n")
                && busy.contains("\r\nretry-after: 1\r\n")
        );
        assert!(
            busy.contains("\r\nconnection: keep-alive\r\n") && busy.contains("\"message\":\"why\""),
            "{busy}"
        );
        let later = Rejection { seconds: Some(7), ..Rejection::new(Reason::OverQuota, "why") }.into();
        let later = written(&later, Encoding::Json, Connection::Kept);
        assert!(later.starts_with("HTTP/1.1 429 Too Many Requests\r\n"), "{later}");
        assert!(later.contains("\r\nretry-after: 7\r\n") && later.contains("\"message\":\"why\""), "{later}");
        let wrong = written(&refused(Reason::WrongMethod), Encoding::Protobuf, Connection::Closed);
        assert!(
            wrong.contains("\r\nallow: POST\r\n") && wrong.contains("\r\nconnection: close\r\n"),
            "{wrong}"
        );
        assert!(wrong.contains("\r\ncontent-type: application/x-protobuf\r\n"), "{wrong}");
    }
}
