//! Log lines about posts and points that were not taken: one an hour for each sender and reason.

use super::texts::{metric, not_taken, of_owner, reason, SERIES_SHOWN};
use super::{Owner, Reporter};
use crate::log::{shown, OnceAnHour};
use crate::otlp::series::SeriesKey;
use crate::otlp::{foreign_points, Causes, OffClock, Outcome, Reason};
use crate::shard::Source;
use crate::work::locked;
use bytes::Bytes;
use std::collections::{BTreeMap, HashSet};

/// How many senders, series and refusals are remembered as logged.
pub(super) const REMEMBERED: usize = 1000;
/// How many addresses of strangers are named within an hour. Further ones count as one unnamed sender, so that they
/// hide no real sender.
pub(super) const STRANGERS: usize = 100;

/// How much of an answer the log has, in characters.
pub(super) const ANSWER_SHOWN: usize = 600;

/// How many posts of a sender are read for new reasons.
pub(super) const MOST_READ: usize = 100;

/// What was logged within the last hour.
pub(super) struct Logged {
    pub(super) foreign: OnceAnHour<String, LoggedOf>,
    /// By sender and reason: rejected points of requests that were taken.
    pub(super) rejected: OnceAnHour<(String, Reason)>,
    pub(super) series: OnceAnHour<SeriesKey>,
    /// Addresses of clients without a name.
    pub(super) strangers: OnceAnHour<String>,
    /// By sender and reason.
    pub(super) refusals: OnceAnHour<(String, Reason)>,
}

impl Default for Logged {
    fn default() -> Logged {
        Logged {
            foreign: OnceAnHour::new(REMEMBERED),
            rejected: OnceAnHour::new(REMEMBERED),
            series: OnceAnHour::new(REMEMBERED),
            strangers: OnceAnHour::new(STRANGERS),
            refusals: OnceAnHour::new(REMEMBERED),
        }
    }
}

/// How many posts of a sender were read for reasons, and which reasons the log has.
#[derive(Default)]
pub(super) struct LoggedOf {
    pub(super) read: usize,
    pub(super) reasons: HashSet<String>,
}

impl Reporter {
    /// Notes an answer. The first refusal of a sender for each reason within an hour is logged, except for those that
    /// the service itself causes, which are logged elsewhere.
    pub(super) fn note(&self, sender: &str, outcome: &Outcome) {
        let (Some(reason), Some(message)) = (self.activity.note(sender, outcome), outcome.refusal()) else {
            return;
        };
        let status = outcome.status();
        if status < 500 && locked(&self.logged).refusals.is_due(&(sender.to_string(), reason)) {
            let (answer, reason) = (shown(message, ANSWER_SHOWN), reason.label());
            tracing::warn!(sender, reason, status, answer, "a post is refused");
        }
    }

    /// Logs rejected points of a sender once an hour for each reason, with the first metric among them.
    pub(super) async fn tell_rejected(&self, sender: &str, source: &Source, all: &Causes, off: OffClock) {
        let is_due = |reason: &Reason| {
            let is_expected = self.options.now().expected.contains(reason);
            !is_expected && locked(&self.logged).rejected.is_due(&(sender.to_string(), *reason))
        };
        let due: Vec<(Reason, u64)> = all.iter().filter(|(reason, _)| is_due(reason)).collect();
        if due.is_empty() {
            return;
        }
        let profile = self.options.now().profile;
        let reasons: Vec<Reason> = due.iter().map(|(reason, _)| *reason).collect();
        let first_of = move |body: &[u8]| {
            let mut first = BTreeMap::new();
            foreign_points(body, profile, |point| {
                if let Some(reason) = point.cause.filter(|reason| reasons.contains(reason)) {
                    first.entry(reason).or_insert(point);
                }
                first.len() == reasons.len()
            });
            first
        };
        let first = self.read(source, first_of).await.unwrap_or_default();
        for (reason, points) in due {
            let first = first.get(&reason);
            let told = not_taken(reason, points, first, off);
            self.activity.note_rejected(sender, reason, first.map(|point| &*point.metric));
            let (reason, metric) = (reason.label(), first.map(metric));
            tracing::warn!(sender, reason, points, metric, told, "points are not taken");
        }
    }

    /// Logs points that their series refuse, the first ones for each reason within an hour.
    pub(super) fn note_refused_points(&self, sender: &str, outcome: &Outcome) {
        let Outcome::Taken { parts, .. } = outcome else {
            return;
        };
        for (points, why) in parts {
            if locked(&self.logged).refusals.is_due(&(sender.to_string(), why.reason)) {
                let (answer, reason) = (shown(&why.message, ANSWER_SHOWN), why.reason.label());
                tracing::warn!(sender, reason, points, answer, "points of a post are refused");
            }
        }
    }

    /// Whether the address of a client without a name is one of those that are remembered.
    pub(super) fn is_known_stranger(&self, address: &str) -> bool {
        let (mut logged, address) = (locked(&self.logged), address.to_string());
        let strangers = &mut logged.strangers;
        strangers.get_mut(&address).is_some() || (!strangers.is_full() && strangers.is_due(&address))
    }

    /// Whether a post of the sender is to be read for reasons that the log does not have.
    pub(super) fn may_tell_more(&self, sender: &str) -> bool {
        if self.options.now().log_rejected == 0 {
            return false;
        }
        let (mut logged, sender) = (locked(&self.logged), sender.to_string());
        logged.foreign.is_due(&sender);
        let of = logged.foreign.get_mut(&sender);
        of.is_some_and(|of| of.reasons.len() < self.options.now().log_rejected && of.read < MOST_READ)
    }

    /// Logs the reasons for which points of a body are foreign. One body is read at a time, and no sender waits for it.
    pub(super) fn tell_reasons(&self, sender: &str, body: &Bytes) {
        let sender = sender.to_string();
        let known = |logged: &mut Logged| logged.foreign.get_mut(&sender).map(|of| of.reasons.clone());
        let mut reasons = known(&mut locked(&self.logged)).unwrap_or_default();
        foreign_points(body, self.options.now().profile, |point| {
            let is_expected = |cause| self.options.now().expected.contains(&cause);
            if point.cause.is_some_and(is_expected) || (self.pass.is_some() && point.is_passed()) {
                return false;
            }
            let (told, reason) = (reason(&point), point.cause.map(Reason::label));
            if reasons.insert(told.clone()) {
                tracing::warn!(sender, reason, told, "a point is not taken");
            }
            reasons.len() >= self.options.now().log_rejected
        });
        if let Some(of) = locked(&self.logged).foreign.get_mut(&sender) {
            of.read += 1;
            of.reasons = reasons;
        }
    }

    /// Logs that a sender posts to another sender's series, once an hour for each series.
    pub(super) fn tell_owner(&self, sender: &str, series: SeriesKey, owner: &Owner) {
        let Some(owner) = owner(&series) else {
            return;
        };
        self.activity.note_owner(sender, &owner);
        if locked(&self.logged).series.is_due(&series) {
            let advice = of_owner(sender, &owner);
            let series = shown(&series.0, SERIES_SHOWN);
            tracing::warn!(
                sender,
                owner,
                series,
                advice,
                "posts are refused because the series is another sender's"
            );
        }
    }
}
