//! Receivers as threads, each of which serves one connection after another.

use std::borrow::Cow;
use std::net::{TcpListener, TcpStream};
use std::time::Duration;

use crate::http;

/// How many series a flush takes at most.
pub const FLUSH_SERIES: usize = 1000;
const SECONDS: Duration = Duration::from_secs(30);

/// What answers requests.
pub trait Gateway: Sync {
    /// What is read of a request's head.
    type Head: http::Head;

    fn answer(&self, request: &http::Request<Self::Head>, back_end: &str) -> Answer;
}

pub struct Answer {
    pub status: &'static str,
    pub kind: &'static str,
    pub allow: &'static str,
    pub body: Cow<'static, str>,
}

impl Answer {
    pub fn new(status: &'static str, body: impl Into<Cow<'static, str>>) -> Answer {
        Answer {
            status,
            kind: "application/json",
            allow: "",
            body: body.into(),
        }
    }

    pub fn text(body: String) -> Answer {
        Answer {
            kind: "text/plain",
            ..Answer::new("200 OK", body)
        }
    }

    /// A refusal by its message, which has nothing in it that JSON escapes.
    pub fn refusal(status: &'static str, message: &str) -> Answer {
        Answer::new(status, format!("{{\"message\":\"{message}\"}}"))
    }
}

/// The value behind an option of the command line.
fn option(words: &[String], name: &str) -> Option<String> {
    let place = words.iter().position(|word| word == name)?;
    words.get(place + 1).cloned()
}

/// Serves until the process is ended.
pub fn serve<G: Gateway>(gateway: &G) {
    let words: Vec<String> = std::env::args().collect();
    let listen = option(&words, "--listen").unwrap_or_else(|| "127.0.0.1:4318".to_owned());
    let back_end = option(&words, "--backend").expect("--backend ADDR");
    let receivers: usize = option(&words, "--receivers").map_or(2, |word| word.parse().expect("a number"));
    let listener = TcpListener::bind(listen).expect("an address to listen on");
    std::thread::scope(|scope| {
        for _ in 0..receivers {
            scope.spawn(|| loop {
                if let Ok((stream, _)) = listener.accept() {
                    // A connection that breaks off concerns nobody else.
                    let _ = serve_one(stream, gateway, &back_end);
                }
            });
        }
    });
}

/// Serves the one request of a connection.
fn serve_one<G: Gateway>(mut stream: TcpStream, gateway: &G, back_end: &str) -> std::io::Result<()> {
    stream.set_read_timeout(Some(SECONDS))?;
    stream.set_write_timeout(Some(SECONDS))?;
    let answer = match http::read(&mut stream)? {
        Ok(request) => gateway.answer(&request, back_end),
        Err(http::Fault::Malformed) => Answer::refusal("400 Bad Request", "malformed request"),
        Err(http::Fault::TooLong) => Answer::refusal("413 Payload Too Large", "body too long"),
    };
    http::answer(&mut stream, &answer)
}
