//! `plain` with each of the gateway's answers to posts, quarantines and flushes. What a field may be is wider here than
//! what is taken, so that a wrong value makes a point foreign and a wrong container refuses the body.

mod body;
mod lenient;
mod order;
mod reading;
mod refusal;
mod store;

use std::sync::{Mutex, MutexGuard, PoisonError};

use plain::http::{self, Request};
use plain::output;
use plain::series::Taken;
use plain::serve::{self, Answer, Gateway, FLUSH_SERIES};

use crate::order::{Asked, Order};
use crate::reading::Reading;
use crate::refusal::Refusal;
use crate::store::Store;

#[derive(Default)]
struct Answers(Mutex<Store>);

impl Gateway for Answers {
    type Head = Asked;

    fn answer(&self, request: &Request<Asked>, back_end: &str) -> Answer {
        let answer = match &request.head.0 {
            Ok(Order::Admit { sender }) => self.admit(sender, request.body()),
            Ok(Order::Quarantine { sender }) => self.lock().quarantine(sender).map(|()| done()),
            Ok(Order::Lift { sender }) => self.lock().lift(sender).map(|()| done()),
            Ok(Order::Flush) => Ok(self.flush(back_end)),
            Ok(Order::Report) => Ok(Answer::text(self.lock().report() + "end\n")),
            Err(refusal) => Err(*refusal),
        };
        answer.unwrap_or_else(Answer::from)
    }
}

fn done() -> Answer {
    Answer::new("200 OK", "{}")
}

/// What a flush has come to.
enum Act {
    Settled,
    Dropped,
    Returned { after: Option<u64> },
}

impl Answers {
    fn lock(&self) -> MutexGuard<'_, Store> {
        self.0.lock().unwrap_or_else(PoisonError::into_inner)
    }

    fn admit(&self, sender: &str, body: &[u8]) -> Result<Answer, Refusal> {
        let Reading { points, foreign } = reading::read(body)?;
        if !points.is_empty() {
            self.lock().admit(sender, points)?;
        }
        if foreign == 0 {
            return Ok(done());
        }
        let text = format!(
            "{{\"partialSuccess\":{{\"errorMessage\":\"points outside the profile\",\"rejectedDataPoints\":\"{foreign}\"}}}}"
        );
        Ok(Answer::new("200 OK", text))
    }

    fn flush(&self, back_end: &str) -> Answer {
        let Some((flush, taken)) = self.lock().take(FLUSH_SERIES) else {
            return Answer::new("200 OK", "{\"act\":\"nothing\"}");
        };
        let (points, act) = (taken.len(), send(back_end, &taken));
        let mut store = self.lock();
        let (name, after) = match act {
            Act::Settled => {
                store.settle(&taken);
                ("settled", None)
            }
            Act::Dropped => ("dropped", None),
            Act::Returned { after } => {
                store.give_back(taken);
                ("returned", after)
            }
        };
        let after = after.map_or_else(String::new, |seconds| format!(",\"retryAfter\":\"{seconds}\""));
        let text = format!("{{\"act\":\"{name}\",\"flush\":\"{flush}\",\"points\":\"{points}\"{after}}}");
        Answer::new("200 OK", text)
    }
}

fn send(back_end: &str, taken: &[Taken]) -> Act {
    let text = output::request_text(taken);
    let seconds = |text: String| match text.bytes().all(|byte| byte.is_ascii_digit()) {
        true => text.parse().ok(),
        false => None,
    };
    match http::post(back_end, text.as_bytes()) {
        Ok((200..=299, _)) => Act::Settled,
        Ok((429 | 503, after)) => Act::Returned {
            after: after.and_then(seconds),
        },
        Ok((502 | 504, _)) => Act::Returned { after: None },
        Ok((400..=599, _)) => Act::Dropped,
        _ => Act::Returned { after: None },
    }
}

fn main() {
    serve::serve(&Answers::default());
}
