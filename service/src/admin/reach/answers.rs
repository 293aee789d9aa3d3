//! Answers other instances, which ask this one on behalf of their operators.

use super::{AdminApi, Answer, Command};
use crate::admin::Actor;
use crate::cluster::terms::Doing;
use crate::cluster::Answers;
use bytes::Bytes;
use serde::{Deserialize, Serialize};
use std::sync::Arc;

#[derive(Serialize, Deserialize)]
pub enum Question {
    /// The status of this instance and its shards.
    Status,
    /// A command for those of these shards that are open here.
    Do {
        /// Who asked, and at which instance.
        who: String,
        command: Command,
        shards: Vec<u16>,
    },
}

impl Answers for AdminApi {
    fn answer_question(self: Arc<Self>, question: Bytes) -> Doing<'static, Option<Vec<u8>>> {
        Box::pin(async move {
            let answer = match serde_json::from_slice(&question).ok()? {
                Question::Status => serde_json::to_vec(&self.status()),
                Question::Do { who, command, shards } => {
                    serde_json::to_vec(&self.recorded(who, command, shards).await)
                }
            };
            answer.ok()
        })
    }
}

impl AdminApi {
    /// Carries the command out and records it here too, so that the audit log of each instance has what was done to its
    /// shards.
    async fn recorded(
        self: &Arc<Self>,
        who: String,
        command: Command,
        shards: Vec<u16>,
    ) -> Vec<(u16, Answer)> {
        let is_here = shards.iter().any(|shard| self.open_shards.get(*shard).is_some());
        let asked = command.act().filter(|_| is_here);
        let doing = |_| async { self.here(&command, &shards).await.into_iter().collect() };
        self.acts.recorded(Actor::Named(who), asked, doing, |answers: &Vec<_>| outcome(answers)).await
    }
}

/// The shards that did it, and the first one that did not.
fn outcome(answers: &[(u16, Answer)]) -> String {
    let done = answers.iter().filter(|(_, answer)| answer.is_done()).map(|(shard, _)| *shard);
    let done: Vec<u16> = done.collect();
    let done = (!done.is_empty()).then(|| format!("done in {}", super::shards_shown(&done)));
    let left = answers.iter().find(|(_, answer)| !answer.is_done());
    let left = left.map(|(shard, answer)| format!("shard {shard}: {}", answer.outcome()));
    done.into_iter().chain(left).collect::<Vec<String>>().join("; ")
}

#[cfg(test)]
mod tests {
    use super::*;

    #[test]
    fn what_the_sink_does_not_take_is_not_done() {
        let resent = |body: &str| outcome(&[(1, Answer::new(200, body))]);
        assert_eq!(resent(r#"{"key":"1-a-7","taken":true}"#), "done in shard 1");
        let not_taken = resent(r#"{"key":"1-a-7","taken":false,"reason":"503","later":true}"#);
        assert_eq!(not_taken, "shard 1: not taken: 503");
        let in_part = resent(r#"{"key":"1-a-7","taken":true,"reason":"2 points overlap"}"#);
        assert_eq!(in_part, "shard 1: taken in part: 2 points overlap");
        let answers = [Answer::new(200, "{}"), Answer::told(409, "held"), Answer::new(200, "{}")];
        let answers = [1, 3, 4].into_iter().zip(answers).collect::<Vec<_>>();
        assert_eq!(outcome(&answers), "done in shards 1 and 4; shard 3: 409: held");
    }
}
