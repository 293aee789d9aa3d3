//! Checks regularly whether the other instances accept posts, so that not every post to one that can't be reached has
//! to find that out.

use super::{Forward, Here, PATH};
use hyper::{Body, Request};
use std::collections::BTreeSet;
use std::sync::Arc;
use std::time::Duration;
use tokio::task::JoinSet;
use tokio::time::{interval, timeout, MissedTickBehavior};

const EVERY: Duration = Duration::from_millis(500);
/// An instance that has not answered by then counts as not there.
const WITHIN: Duration = Duration::from_secs(1);

impl<H: Here> Forward<H> {
    /// Runs until it is dropped. `own` is the address at which the others reach this instance: while it can't answer
    /// itself in time, it is too busy to judge the others.
    pub async fn look_at_others(self: Arc<Self>, own: String) {
        let mut looks = interval(EVERY);
        looks.set_missed_tick_behavior(MissedTickBehavior::Delay);
        loop {
            looks.tick().await;
            let mut asked = JoinSet::new();
            for (name, address) in self.cluster.addresses() {
                let forward = self.clone();
                asked.spawn(async move { forward.reaches(&address).await.then_some(name) });
            }
            let answers_itself = self.is_there(&own).await;
            let mut reached = BTreeSet::new();
            while let Some(one) = asked.join_next().await {
                reached.extend(one.ok().flatten());
            }
            self.cluster.has_reached(answers_itself.then_some(reached));
        }
    }

    /// False only after several failed checks in a row.
    async fn reaches(&self, address: &str) -> bool {
        self.peers.at(address).has_reached(self.is_there(address).await)
    }

    /// Any answer counts.
    async fn is_there(&self, address: &str) -> bool {
        let uri = format!("{}://{address}{PATH}", self.connections.scheme());
        let Ok(request) = Request::get(uri).body(Body::empty()) else { return false };
        let looking = timeout(WITHIN, self.connections.looks().request(request)).await;
        looking.is_ok_and(|answer| answer.is_ok())
    }
}
