//! Forwards points outside the profile to another OTLP receiver (`--forward-unsupported`), at most once. `post_reports`
//! hands them over, and no post waits for it.
//!
//! The points are queued in bounded memory. Points that find no room there, and points that the receiver rejects or
//! does not accept in time, are dropped and counted. One request is in flight at a time, so the points of a series keep
//! their order.

mod send;

use crate::log::RateLimit;
use crate::metrics::Metrics;
use crate::otlp::{Encoding, Outside};
use crate::sink::Access;
use crate::work::locked;
use bytes::Bytes;
use send::Receiver;
use std::collections::VecDeque;
use std::sync::{Arc, Mutex};
use std::time::Duration;
use tokio::sync::Notify;

pub use send::BadReceiver;

/// The most bytes in the queue, and about how many are joined into one request.
const MOST_WAITING: usize = 16 << 20;
const MOST_OF_A_REQUEST: usize = 1 << 20;
/// The memory of a queued entry besides its bytes.
const ENTRY: usize = 128;

/// The queue and the receiver of forwarded points.
pub struct Passthrough {
    receiver: Receiver,
    waiting: Mutex<Waiting>,
    arrived: Notify,
    metrics: Arc<Metrics>,
    rate_limit: RateLimit,
}

#[derive(Default)]
struct Waiting {
    all: VecDeque<Outside>,
    bytes: usize,
}

/// What became of forwarded points, as it is counted.
#[derive(Clone, Copy, Debug, PartialEq, Eq)]
pub enum Passed {
    Taken,
    /// The receiver answered that it does not accept them.
    Refused,
    /// The receiver gave no answer, or none in time: it may have them.
    Lost,
    /// The queue was full.
    Dropped,
}

impl Passed {
    pub fn name(self) -> &'static str {
        match self {
            Passed::Taken => "taken",
            Passed::Refused => "refused",
            Passed::Lost => "lost",
            Passed::Dropped => "dropped",
        }
    }
}

impl Passthrough {
    /// Forwards to `http://HOST:PORT` or to a whole URL.
    pub fn to(address: &str, access: Access, metrics: Arc<Metrics>) -> Result<Arc<Passthrough>, BadReceiver> {
        Ok(Arc::new(Passthrough {
            receiver: Receiver::at(address, access)?,
            waiting: Mutex::default(),
            arrived: Notify::new(),
            metrics,
            rate_limit: RateLimit::every(Duration::from_secs(60)),
        }))
    }

    /// Whether it forwards to this address, HOST:PORT.
    pub fn is_to(&self, address: &str) -> bool {
        self.receiver.url.authority().is_some_and(|own| own.as_str() == address)
    }

    /// The URL without its query, which may contain a password.
    pub fn url(&self) -> String {
        let url = self.receiver.url.to_string();
        url.split('?').next().unwrap_or_default().to_string()
    }

    /// Queues points. Never waits.
    pub fn hand_on(&self, outside: Outside) {
        let points = outside.points;
        match locked(&self.waiting).put(outside) {
            true => self.arrived.notify_one(),
            false => self.count(points, Passed::Dropped, "too many points wait to be forwarded"),
        }
    }

    /// Sends what is queued, for ever.
    pub async fn run(self: Arc<Self>) {
        loop {
            let next = locked(&self.waiting).take();
            let Some(next) = next else {
                self.arrived.notified().await; // a notification that came in between is kept
                continue;
            };
            let points = next.points;
            let (refused, passed, why) = self.receiver.send(next).await;
            let refused = refused.min(points);
            self.count(points - refused, passed, &why);
            self.count(refused, Passed::Refused, &why);
        }
    }

    fn count(&self, points: u64, passed: Passed, why: &str) {
        if points == 0 {
            return;
        }
        let name = passed.name();
        self.metrics.unsupported_points.with_label_values(&[name]).inc_by(points);
        if passed != Passed::Taken && self.rate_limit.is_due() {
            let url = self.url();
            tracing::warn!(
                url,
                outcome = name,
                reason = why,
                points,
                "points outside the profile were not forwarded; totxegun_unsupported_points_total counts them"
            );
        }
    }
}

impl Waiting {
    /// Queues points; returns whether there was room.
    fn put(&mut self, outside: Outside) -> bool {
        let takes = outside.body.len() + ENTRY;
        let has_room = self.bytes + takes <= MOST_WAITING;
        if has_room {
            self.bytes += takes;
            self.all.push_back(outside);
        }
        has_room
    }

    /// Takes the next request. Consecutive protobuf bodies are joined, which is one valid request.
    fn take(&mut self) -> Option<Outside> {
        let mut next = self.take_one()?;
        let mut body = Vec::new();
        while let Some(other) = self.all.front() {
            let length = next.body.len().max(body.len()) + other.body.len();
            let are_protobuf = [&next, other].map(|one| one.encoding) == [Encoding::Protobuf; 2];
            if !are_protobuf || length > MOST_OF_A_REQUEST {
                break;
            }
            let Some(other) = self.take_one() else { break };
            if body.is_empty() {
                body.extend_from_slice(&next.body);
            }
            body.extend_from_slice(&other.body);
            next.points += other.points;
        }
        if !body.is_empty() {
            next.body = Bytes::from(body);
        }
        Some(next)
    }

    fn take_one(&mut self) -> Option<Outside> {
        let one = self.all.pop_front()?;
        self.bytes -= one.body.len() + ENTRY;
        Some(one)
    }
}

#[cfg(test)]
mod tests;
