//! Operators may ask any instance. A command to all shards (`Command`) is carried out by the instances that have them;
//! each other request concerns the shards that are open here, or gets a 307 to the instance to ask (`elsewhere`).
//!
//! `places` finds the instances, and waits some seconds for a shard that is moving; `command` is what an instance does
//! in a shard; `answers` is how it answers the others. A command may arrive twice, so each must do no harm when
//! repeated: an operator who is told that some shards failed (`ended`) gives it again.

mod answers;
mod command;
mod ended;
mod places;

pub(super) use answers::Question;
pub(super) use command::{Answer, Command};
pub(super) use ended::shards_shown;
pub use places::Others;

use super::{reply, AdminApi};
use crate::work::side_by_side;
use ended::{of_all, Done};
use hyper::header::{HeaderValue, LOCATION};
use hyper::{Body, Response};
use places::Place;
use std::collections::{BTreeMap, BTreeSet};
use std::sync::Arc;
use std::time::Duration;
use tokio::time::Instant;

/// How long to look for a shard without an owner. The shards of a machine that is lost have new owners sooner.
const LOOKED_FOR: Duration = match cfg!(test) {
    false => Duration::from_secs(8),
    true => Duration::from_millis(500),
};
/// How long another instance may take. A flush may be long.
const WITHIN: Duration = Duration::from_secs(100);

/// Why a shard whose instance was asked did nothing.
const MOVED: &str = "it is being moved to another instance";
const NOBODY: &str = "no instance has it";
/// The same if there are no other instances.
const ENDING: &str = "stopping";

/// The outcome in one shard.
type InShard = (u16, Done);

impl AdminApi {
    /// Has each shard carry out the command, wherever it is, and returns the answers of all.
    pub(super) async fn in_all_shards(
        self: &Arc<Self>,
        who: &str,
        command: &Command,
    ) -> Result<Vec<(u16, Answer)>, Answer> {
        let not_yet = |shard| (shard, Err(MOVED.to_string()));
        let mut done: BTreeMap<u16, Done> = (0..self.open_shards.shards()).map(not_yet).collect();
        let mut until = None;
        loop {
            let left = done.iter().filter(|(_, done)| done.is_err()).map(|(shard, _)| *shard).collect();
            done.extend(self.round(who, command, &left).await);
            let Some(others) = self.others.as_ref().filter(|_| done.values().any(Result::is_err)) else {
                break;
            };
            // The deadline is set after the first round, which may have waited long for an instance that hangs.
            if Instant::now() >= *until.get_or_insert(Instant::now() + LOOKED_FOR) {
                break;
            }
            others.look_again().await;
        }
        of_all(command, done)
    }

    /// Asks each of these shards once, all at the same time.
    async fn round(self: &Arc<Self>, who: &str, command: &Command, shards: &BTreeSet<u16>) -> Vec<InShard> {
        let at = |(place, shards)| {
            let (admin, who, command) = (self.clone(), who.to_string(), command.clone());
            async move { admin.at(place, who, command, shards).await }
        };
        let asked = side_by_side(self.places(shards).into_iter().map(at)).await;
        asked.into_iter().flatten().collect() // shards that failed are asked again
    }

    /// The answers of the shards at one place. A shard that does not answer gets the reason.
    async fn at(
        self: Arc<Self>,
        place: Place,
        who: String,
        command: Command,
        shards: Vec<u16>,
    ) -> Vec<InShard> {
        let (mut answers, why) = match place {
            Place::Here => {
                let why = self.others.as_ref().map_or(ENDING, |_| MOVED);
                (self.here(&command, &shards).await, why.into())
            }
            Place::At { name, address } => match self.there(&address, who, command, &shards).await {
                Ok(answers) => (answers, MOVED.into()),
                Err(why) => (BTreeMap::new(), format!("instance {name} at {address} does not answer: {why}")),
            },
            Place::Nobody => (BTreeMap::new(), NOBODY.to_string()),
        };
        let done = |shard| (shard, answers.remove(&shard).ok_or_else(|| why.clone()));
        shards.into_iter().map(done).collect()
    }

    /// Has another instance carry it out. The wait ends when all these shards have left it, since the instance may
    /// hang.
    async fn there(
        &self,
        address: &str,
        who: String,
        command: Command,
        shards: &[u16],
    ) -> Result<BTreeMap<u16, Answer>, String> {
        let Some(others) = &self.others else { return Ok(BTreeMap::new()) };
        let who = format!("{who} (at {})", others.instance);
        let question = Question::Do { who, command, shards: shards.into() };
        tokio::select! {
            asked = others.ask::<Vec<(u16, Answer)>>(address, &question, WITHIN) => {
                Ok(asked?.into_iter().collect())
            }
            () = others.have_left(address, shards) => Ok(BTreeMap::new()),
        }
    }

    /// Has those of these shards that are open here carry it out.
    async fn here(self: &Arc<Self>, command: &Command, shards: &[u16]) -> BTreeMap<u16, Answer> {
        let done = shards.iter().map(|shard| {
            let (admin, shard, command) = (self.clone(), *shard, command.clone());
            async move { Some((shard, admin.in_shard(shard, command).await?)) }
        });
        side_by_side(done).await.into_iter().flatten().collect()
    }
}

impl From<Answer> for Response<Body> {
    fn from(answer: Answer) -> Response<Body> {
        let mut response = reply(answer.status, super::JSON, answer.body);
        let location = answer.location.and_then(|at| HeaderValue::from_str(&format!("http://{at}")).ok());
        response.headers_mut().extend(location.map(|at| (LOCATION, at)));
        response
    }
}
