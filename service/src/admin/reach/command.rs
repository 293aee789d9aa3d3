//! What a command does in one shard, at the instance that has it.

use super::AdminApi;
use crate::admin::amend::Sought;
use crate::admin::{Asked, LocalShard};
use crate::otlp::{Encoding, Outcome};
use crate::outbox::SenderRename;
use crate::work::blocking;
use crate::worker::{Done, Order};
use serde::{Deserialize, Serialize};
use serde_json::{json, Value};
use std::sync::Arc;

/// A field of an answer: false if the shard does not know the sender.
const KNOWN: &str = "known";

/// A command to all shards, wherever they are.
#[derive(Clone, Debug, PartialEq, Eq, Serialize, Deserialize)]
pub enum Command {
    Flush,
    /// Of this sender.
    Quarantine(String),
    Release(String),
    RenameSender(SenderRename),
    /// Which series are meant.
    Find(Sought),
}

/// The answer of a shard, in the form in which the operator gets it.
#[derive(Clone, Debug, PartialEq, Eq, Serialize, Deserialize)]
pub struct Answer {
    pub status: u16,
    /// JSON, except for a report.
    pub body: String,
    /// With status 307: the admin address to ask instead.
    #[serde(default, skip_serializing_if = "Option::is_none")]
    pub location: Option<String>,
}

impl Answer {
    pub fn new(status: u16, body: impl Into<String>) -> Answer {
        Answer { status, body: body.into(), location: None }
    }

    /// An answer with a message: why nothing was done, or what there is to say of it.
    pub fn told(status: u16, message: &str) -> Answer {
        Answer::new(status, json!({ "message": message }).to_string())
    }

    pub fn says(&self) -> Value {
        serde_json::from_str(&self.body).unwrap_or_default()
    }

    /// The message in the body, or the whole body if it has none.
    pub fn message(&self) -> String {
        self.says()["message"].as_str().unwrap_or(&self.body).to_string()
    }

    /// The same for an order about a sender: it says if the shard does not know the sender.
    fn of_sender(mut self, is_known: bool) -> Answer {
        if let (false, Value::Object(mut says)) = (is_known, self.says()) {
            says.insert(KNOWN.into(), false.into());
            self.body = Value::Object(says).to_string();
        }
        self
    }

    /// Whether the shard does not know the sender.
    pub fn knows_nothing(&self) -> bool {
        self.says()[KNOWN] == false
    }

    /// Whether all was done. If the sink has not taken a dead letter, it was not.
    pub fn is_done(&self) -> bool {
        self.status == 200 && self.says()["reason"].is_null()
    }

    /// The outcome in a few words, for the audit log.
    pub fn outcome(&self) -> String {
        let says = self.says();
        let text = |name: &str| says[name].as_str().unwrap_or_default();
        match (self.status, says["taken"].as_bool()) {
            (200, Some(false)) => format!("not taken: {}", text("reason")),
            (200, Some(true)) if !self.is_done() => format!("taken in part: {}", text("reason")),
            (200, _) if says["message"].is_string() => format!("done: {}", text("message")),
            (200, _) => "done".into(),
            (status, _) => format!("{status}: {}", self.message()),
        }
    }
}

impl From<Outcome> for Answer {
    fn from(outcome: Outcome) -> Answer {
        Answer::new(outcome.status(), String::from_utf8_lossy(&outcome.body(Encoding::Json)))
    }
}

impl Command {
    /// Whether the command changes something.
    pub fn changes(&self) -> bool {
        !matches!(self, Command::Find(_))
    }

    /// What the audit log has of it. None if it is no action.
    pub fn act(&self) -> Option<Asked> {
        Some(match self {
            Command::Quarantine(sender) => Asked::new("quarantine", sender),
            Command::Release(sender) => Asked::new("release", sender),
            Command::RenameSender(rename) => {
                Asked::new("senders rename", format!("{} to {}", rename.from, rename.to))
            }
            Command::Flush | Command::Find(_) => return None,
        })
    }
}

impl AdminApi {
    /// Carries out a command in a shard. None if the shard is not open here, or closes meanwhile: its next owner may have
    /// the result, or not.
    pub(super) async fn in_shard(self: Arc<Self>, shard: u16, command: Command) -> Option<Answer> {
        let open_shard = self.open_shards.get(shard)?;
        match command {
            Command::Flush => {
                let flushed = ordered(&open_shard, Order::Checkpoint).await;
                open_shard.retry_now();
                flushed
            }
            Command::Quarantine(sender) => {
                let is_known = self.knows(&open_shard, &sender).await;
                ordered(&open_shard, Order::Quarantine(sender)).await.map(|answer| answer.of_sender(is_known))
            }
            Command::Release(sender) => {
                let is_known = self.knows(&open_shard, &sender).await;
                ordered(&open_shard, Order::Lift(sender)).await.map(|answer| answer.of_sender(is_known))
            }
            Command::RenameSender(rename) => ordered(&open_shard, Order::RenameSender(rename)).await,
            Command::Find(sought) => Some(sought.found_in(&open_shard).await),
        }
    }
}

impl AdminApi {
    /// Whether the sender has posted here since the start, has series in the shard or is quarantined there.
    async fn knows(&self, open_shard: &Arc<LocalShard>, sender: &str) -> bool {
        let (outbox, of) = (open_shard.shard.outbox.clone(), sender.to_string());
        let in_shard =
            move || outbox.quarantined().contains(&of) || outbox.series_by_owner().contains_key(&*of);
        self.activity.has(sender) || blocking(in_shard).await
    }
}

async fn ordered(open_shard: &LocalShard, order: Order) -> Option<Answer> {
    match open_shard.orders.send(order).await? {
        Done::Flushed { requests } => Some(Answer::new(200, json!({ "requests": requests }).to_string())),
        Done::Answered(outcome) => Some(outcome.into()),
        Done::Renamed { series } => Some(Answer::new(200, json!({ "series": series }).to_string())),
        Done::NotRenamed { quarantined } => {
            let why = "is quarantined, and its posts are kept back under its name: release it first, by `totxegun release";
            Some(Answer::told(409, &format!("{quarantined} {why} {quarantined}`")))
        }
        // `amend` gives such orders itself.
        Done::Amended(_) => None,
    }
}
