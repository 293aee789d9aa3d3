//! The routes of `plain` and `plain-fast`, which differ in how they read a body and keep series.

use crate::http::{self, Head, Request};
use crate::output;
use crate::series::Taken;
use crate::serve::{Answer, Gateway, FLUSH_SERIES};

/// The line of a request, and its sender.
pub struct Line {
    method: String,
    path: String,
    sender: Option<String>,
}

impl Head for Line {
    fn of(head: &httparse::Request) -> Line {
        let sender = head
            .headers
            .iter()
            .find(|header| header.name.eq_ignore_ascii_case("x-sender"));
        Line {
            method: head.method.unwrap_or_default().to_owned(),
            path: head.path.unwrap_or_default().to_owned(),
            sender: sender
                .and_then(|header| std::str::from_utf8(header.value).ok())
                .map(str::to_owned),
        }
    }
}

/// Series, behind their lock.
pub trait Series: Sync {
    /// Adds the points of a body: all, or none.
    fn admit(&self, sender: &str, body: &[u8]) -> Result<(), String>;

    /// Takes what is stored of so many series.
    fn take(&self, most: usize) -> Vec<Taken>;

    /// Counts what was taken as acknowledged, or gives it back.
    fn end_flush(&self, taken: Vec<Taken>, is_taken: bool);

    /// A line for each series.
    fn report(&self) -> String;
}

pub struct Simple<S>(pub S);

impl<S: Series> Gateway for Simple<S> {
    type Head = Line;

    fn answer(&self, request: &Request<Line>, back_end: &str) -> Answer {
        let Line { method, path, sender } = &request.head;
        match (method.as_str(), path.as_str()) {
            ("POST", "/v1/metrics") => {
                let admitted = sender.as_deref().ok_or_else(|| "no sender".to_owned());
                match admitted.and_then(|sender| self.0.admit(sender, request.body())) {
                    Ok(()) => Answer::new("200 OK", "{}"),
                    Err(why) => Answer {
                        kind: "text/plain",
                        ..Answer::new("400 Bad Request", why)
                    },
                }
            }
            ("POST", "/flush") => self.flush(back_end),
            ("GET", "/report") => Answer::text(self.0.report() + "end\n"),
            _ => Answer::refusal("404 Not Found", "no such path"),
        }
    }
}

impl<S: Series> Simple<S> {
    fn flush(&self, back_end: &str) -> Answer {
        let taken = self.0.take(FLUSH_SERIES);
        if taken.is_empty() {
            return Answer::new("200 OK", "{\"act\":\"nothing\"}");
        }
        let text = output::request_text(&taken);
        let status = http::post(back_end, text.as_bytes()).map_or(0, |(status, _)| status);
        let is_taken = (200..300).contains(&status);
        self.0.end_flush(taken, is_taken);
        let act = if is_taken { "settled" } else { "returned" };
        Answer::new("200 OK", format!("{{\"act\":\"{act}\"}}"))
    }
}
