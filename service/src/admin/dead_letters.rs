//! Dead letters: `/dead` lists, shows, resends and drops them.
//!
//! Only the running service resends a dead letter, since it has the folder and the sink. It holds the letter's key,
//! which a delivery may need too, so a key is never sent twice at a time. A letter is removed only after the sink has
//! it: if the service ends before, the letter is sent again under the same key.

use super::reach::Answer;
use super::{AdminApi, Asked, LocalShard};
use crate::dead_letters::DeadLetters;
use crate::dead_letters::{sent_as, Became};
use crate::sink::{of_part, DeliveryOutcome, Forwarded};
use crate::storage::Fault;
use crate::work::blocking;
use serde::{Deserialize, Serialize};
use serde_json::json;

/// The outcome of a resend.
#[derive(Debug, PartialEq, Eq, Serialize, Deserialize)]
pub struct ResendOutcome {
    pub key: String,
    pub taken: bool,
    /// Why the sink did not take it, or not all of it.
    #[serde(default, skip_serializing_if = "Option::is_none")]
    pub reason: Option<String>,
    /// Whether the sink may take it later: now it fails, denies access or does not answer.
    #[serde(default, skip_serializing_if = "std::ops::Not::not")]
    pub later: bool,
}

/// What to do with a letter.
#[derive(Clone, Copy)]
pub(super) enum DeadLetterOrder {
    Show,
    Resend,
    Drop,
}

impl DeadLetterOrder {
    /// What the audit log has of it. None if it changes nothing.
    pub fn act(self, key: &str) -> Option<Asked> {
        match self {
            DeadLetterOrder::Show => None,
            DeadLetterOrder::Resend => Some(Asked::new("dead-letters resend", key)),
            DeadLetterOrder::Drop => Some(Asked::new("dead-letters drop", key)),
        }
    }
}

impl AdminApi {
    /// The letters of the shards that are here, the oldest first.
    pub(super) async fn letters(&self) -> Answer {
        let open_shards = self.open_shards.all();
        let listed = blocking(move || {
            let mut all = Vec::new();
            for open_shard in open_shards {
                all.extend(open_shard.dead.list()?);
            }
            all.sort_by_key(|letter| letter.since); // a stable sort: letters of one time stay in the order of their shards
            Ok(Answer::new(200, json!(all).to_string()))
        });
        answered(listed.await)
    }

    /// Shows, resends or drops a letter of a shard that is here.
    pub(super) async fn letter(&self, what: DeadLetterOrder, key: &str) -> Answer {
        let open_shard = match self.unit_here(self.open_shards.shard_of_key(key)) {
            Ok(open_shard) => open_shard,
            Err(elsewhere) => return elsewhere,
        };
        answered(match what {
            DeadLetterOrder::Show => of_dead(&open_shard, key, body).await,
            DeadLetterOrder::Resend => self.resend(&open_shard, key).await,
            DeadLetterOrder::Drop => of_dead(&open_shard, key, dropped).await,
        })
    }

    async fn resend(&self, open_shard: &LocalShard, key: &str) -> Result<Answer, Fault> {
        let _held = self.sink.keys().hold(sent_as(key)).await;
        let Some(body) = of_dead(open_shard, key, DeadLetters::body).await? else {
            return of_dead(open_shard, key, sent_before).await;
        };
        let Some(request) = forwarded(key, body) else {
            return of_dead(open_shard, key, of_a_part).await;
        };
        let (reason, later) = match self.sink.deliver(&request).await {
            DeliveryOutcome::Taken => {
                of_dead(open_shard, key, |dead, key| dead.end(key, Became::Taken)).await?;
                tracing::info!(key, "the sink has taken a dead letter");
                (None, false)
            }
            DeliveryOutcome::TakenPartly { rejected, reason, left } => {
                let reason = of_part(rejected, &reason, left.is_some());
                // The sink has a part of the request, so the whole must not be sent again. The rest is kept under
                // another key.
                let (why, left) = (reason.clone(), left.unwrap_or(request.body));
                let keep = move |dead: &DeadLetters, whole: &str| {
                    dead.keep(&format!("{whole}-partial"), &why, &left)?;
                    dead.end(whole, Became::TakenPartly(why))
                };
                of_dead(open_shard, key, keep).await?;
                return Ok(taken(key, Some(reason)));
            }
            DeliveryOutcome::Refused { reason } => (Some(reason), false),
            DeliveryOutcome::Away { reason }
            | DeliveryOutcome::Again { reason, .. }
            | DeliveryOutcome::Failed { reason, .. }
            | DeliveryOutcome::Denied { reason, .. } => (Some(reason), true),
        };
        Ok(resent(ResendOutcome { key: key.into(), taken: reason.is_none(), reason, later }))
    }
}

/// Calls `DeadLetters` on a thread that may block: to look through thousands of letters takes seconds.
async fn of_dead<T: Send + 'static>(
    open_shard: &LocalShard,
    key: &str,
    call: impl FnOnce(&DeadLetters, &str) -> Result<T, Fault> + Send + 'static,
) -> Result<T, Fault> {
    let (dead, key) = (open_shard.dead.clone(), key.to_string());
    blocking(move || call(&dead, &key)).await
}

fn body(dead: &DeadLetters, key: &str) -> Result<Answer, Fault> {
    match dead.body(key)? {
        Some(body) => Ok(Answer::new(200, String::from_utf8_lossy(&body))),
        None => Ok(gone(dead.became(key)?)),
    }
}

/// A letter that was dropped before counts as dropped now: the operator may not have had the first answer.
fn dropped(dead: &DeadLetters, key: &str) -> Result<Answer, Fault> {
    match dead.end(key, Became::Dropped)? || dead.became(key)? == Some(Became::Dropped) {
        true => Ok(Answer::new(200, "{}")),
        false => Ok(gone(dead.became(key)?)),
    }
}

/// If the sink has taken the letter already, the answer is that of the first time.
fn sent_before(dead: &DeadLetters, key: &str) -> Result<Answer, Fault> {
    Ok(match dead.became(key)? {
        Some(Became::Taken) => taken(key, None),
        Some(Became::TakenPartly(reason)) => taken(key, Some(reason)),
        other => gone(other),
    })
}

/// There is no letter of this key; `became` is what happened to it, if that is known.
fn gone(became: Option<Became>) -> Answer {
    let what = match became {
        Some(Became::Dropped) => "it was thrown away",
        Some(Became::Taken | Became::TakenPartly(_)) => "the sink has it",
        None => "it was never put aside, or is gone, taken by the sink or thrown away",
    };
    Answer::told(404, &format!("no such request: {what}"))
}

/// A letter whose name is no request's key has the points that the sink left out of a request. The answer says why.
fn of_a_part(dead: &DeadLetters, key: &str) -> Result<Answer, Fault> {
    let letter = dead.list()?.into_iter().find(|letter| letter.key == key);
    let reason = letter.map_or(String::new(), |letter| format!(": {}", letter.reason));
    Ok(Answer::told(
        400,
        &format!("the sink has the other points of this one, and never takes these{reason}; look at it, and drop it"),
    ))
}

fn taken(key: &str, reason: Option<String>) -> Answer {
    resent(ResendOutcome { key: key.into(), taken: true, reason, later: false })
}

fn resent(resent: ResendOutcome) -> Answer {
    Answer::new(200, json!(resent).to_string())
}

/// The request of a letter, as it was first sent. None if the name is not of a request's key.
fn forwarded(name: &str, body: Vec<u8>) -> Option<Forwarded> {
    let key = sent_as(name);
    let (shard, rest) = key.split_once('-')?;
    let (epoch, number) = rest.rsplit_once('-')?;
    let made =
        Forwarded { shard: shard.parse().ok()?, epoch: epoch.into(), number: number.parse().ok()?, body };
    (made.key() == key).then_some(made)
}

/// A fault concerns `dead-letters/` alone, so it is logged and the service goes on.
fn answered(done: Result<Answer, Fault>) -> Answer {
    done.unwrap_or_else(|fault| {
        let reason = fault.to_string();
        tracing::warn!(reason, "a dead letter can't be read or written");
        Answer::told(500, &reason)
    })
}

#[cfg(test)]
mod tests {
    use super::*;

    #[test]
    fn a_key_is_read_as_it_was_written() {
        let made = forwarded("0-1f-e2-17", b"{}".to_vec()).unwrap();
        assert_eq!((made.shard, made.epoch.as_str(), made.number), (0, "1f-e2", 17));
        let beside = forwarded("0-1f-e2-17_2", b"{}".to_vec());
        assert_eq!(beside, Some(made));
        for key in ["0-a-1_", "0-a-1_1", "0-a-1_x", "0-a-1_2-partial", "0-a-1-partial_2", "0-a-1_2_2"] {
            assert_eq!(forwarded(key, Vec::new()), None, "{key}");
        }
        for key in ["", "0-a", "0-a-", "0-a-01", "x-a-1", "70000-a-1", "0-a-1 "] {
            assert_eq!(forwarded(key, Vec::new()), None, "{key}");
        }
    }
}
