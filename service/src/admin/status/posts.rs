//! Who has posted to this instance since its start, and what was refused or rejected.

use super::Status;
use crate::admin::AdminApi;
use crate::log::seconds;
use crate::otlp::Reason;
use crate::post_reports::{of_owner, whose, OfSender};
use serde::{Deserialize, Serialize};
use std::collections::HashMap;

/// How many rows of a kind are in the status.
const MOST: usize = 50;

/// The first of many rows.
#[derive(Debug, Serialize, Deserialize)]
pub struct First<T> {
    pub first: Vec<T>,
    /// How many more there are.
    pub more: usize,
}

/// The posts of a sender that were refused for one reason.
#[derive(Debug, Serialize, Deserialize)]
pub struct RefusedStatus {
    pub sender: String,
    pub reason: Reason,
    pub posts: u64,
    /// The time since the last one.
    pub last_seconds: u64,
    /// The text of its answer.
    pub answer: String,
    /// Who has the series, if that is why.
    #[serde(default, skip_serializing_if = "Option::is_none")]
    pub owner: Option<String>,
}

/// The points of a sender that were rejected for one reason.
#[derive(Debug, Serialize, Deserialize)]
pub struct RejectedStatus {
    pub sender: String,
    pub reason: Reason,
    pub points: u64,
    /// The metric of one of these points, if it is known.
    #[serde(default, skip_serializing_if = "Option::is_none")]
    pub metric: Option<String>,
    /// Who has the series, if that is why.
    #[serde(default, skip_serializing_if = "Option::is_none")]
    pub owner: Option<String>,
}

/// Who has the series, if that is the reason.
fn owner_of(of: &OfSender, reason: Reason) -> Option<String> {
    of.owner.clone().filter(|_| reason == Reason::OtherWriter)
}

/// What an operator can do about a refusal.
pub fn advice(sender: &str, reason: Reason, owner: Option<&str>) -> String {
    match owner {
        Some(owner) => format!("the series is {}: {}", whose(owner), of_owner(sender, owner)),
        None => reason.advice().to_string(),
    }
}

#[derive(Debug, Serialize, Deserialize)]
pub struct SenderStatus {
    pub sender: String,
    /// The time since its last post.
    pub last_seconds: u64,
    /// How many of its posts were taken, and how many refused.
    pub taken: u64,
    pub refused: u64,
}

impl<T> First<T> {
    fn of(mut all: Vec<T>) -> First<T> {
        let more = all.len().saturating_sub(MOST);
        all.truncate(MOST);
        First { first: all, more }
    }
}

impl<T> Default for First<T> {
    fn default() -> First<T> {
        First::of(Vec::new())
    }
}

impl AdminApi {
    /// Adds senders and their posts to a status. Posts wait while these are copied, so gauges do without.
    pub(super) fn with_posts(&self, status: Status) -> Status {
        let (now, senders) = (seconds(), self.activity.last(usize::MAX));
        Status {
            rates: self.pulse.rates(),
            refused: refused(&senders, now),
            rejected: rejected(self.metrics.all_rejected(), &senders),
            senders: First::of(
                senders.iter().map(|(sender, of)| SenderStatus::of(sender, of, now)).collect(),
            ),
            ..status
        }
    }
}

impl SenderStatus {
    fn of(sender: &str, of: &OfSender, now: u64) -> SenderStatus {
        SenderStatus {
            sender: sender.into(),
            last_seconds: now.saturating_sub(of.last),
            taken: of.taken,
            refused: of.refused.values().map(|of| of.posts).sum(),
        }
    }
}

fn refused(senders: &[(String, OfSender)], now: u64) -> First<RefusedStatus> {
    let all = senders.iter().flat_map(|(sender, of_sender)| {
        of_sender.refused.iter().map(move |(reason, of)| RefusedStatus {
            sender: sender.clone(),
            reason: *reason,
            posts: of.posts,
            last_seconds: now.saturating_sub(of.last),
            answer: of.text.clone(),
            owner: owner_of(of_sender, *reason),
        })
    });
    let mut all: Vec<RefusedStatus> = all.collect();
    all.sort_by_key(|of| of.last_seconds);
    First::of(all)
}

fn rejected(all: Vec<(String, Reason, u64)>, senders: &[(String, OfSender)]) -> First<RejectedStatus> {
    let senders: HashMap<&str, &OfSender> = senders.iter().map(|(sender, of)| (&**sender, of)).collect();
    let of = |(sender, reason, points): (String, Reason, u64)| {
        let of = senders.get(&*sender);
        let metric = of.and_then(|of| of.rejected.get(&reason)).cloned();
        let owner = of.and_then(|of| owner_of(of, reason));
        RejectedStatus { sender, reason, points, metric, owner }
    };
    let mut all: Vec<RejectedStatus> = all.into_iter().map(of).collect();
    all.sort_by_key(|of| std::cmp::Reverse(of.points));
    First::of(all)
}

#[cfg(test)]
mod tests {
    use super::*;
    use crate::post_reports::OfReason;

    #[test]
    fn what_was_refused_last_comes_first_and_many_are_counted() {
        let of = |last, posts| OfReason { posts, last, text: "why".into() };
        let refused_of = [(Reason::Quarantined, of(5, 2)), (Reason::Full, of(8, 3))].into();
        let mut senders = vec![(
            "A".to_string(),
            OfSender { taken: 1, last: 8, refused: refused_of, ..OfSender::default() },
        )];
        let shown = SenderStatus::of("A", &senders[0].1, 10);
        assert_eq!((shown.last_seconds, shown.taken, shown.refused), (2, 1, 5));
        let first = |senders: &[(String, OfSender)]| refused(senders, 10).first[0].reason;
        assert_eq!(first(&senders), Reason::Full);
        let later = OfSender { refused: [(Reason::BadSender, of(9, 1))].into(), ..OfSender::default() };
        senders.extend((0..MOST).map(|number| (format!("s{number}"), later.clone())));
        assert_eq!(first(&senders), Reason::BadSender);
        let all = refused(&senders, 10);
        assert_eq!((all.first.len(), all.more), (MOST, 2));
    }

    /// Else it is told to change what is right: a sender whose name has changed is the same process.
    #[test]
    fn a_refusal_for_another_s_series_names_whose_it_is() {
        let by_name = |owner: &str| {
            let reasons = [(Reason::OtherWriter, OfReason::default()), (Reason::Full, OfReason::default())];
            let of = OfSender { refused: reasons.into(), owner: Some(owner.into()), ..OfSender::default() };
            vec![("B".to_string(), of)]
        };
        let senders = by_name("-");
        let owners = |all: &First<RefusedStatus>| {
            let mut owners: Vec<_> = all.first.iter().map(|of| (of.reason, of.owner.clone())).collect();
            owners.sort();
            owners
        };
        let wanted = [(Reason::OtherWriter, Some("-".to_string())), (Reason::Full, None)];
        let mut wanted = wanted.to_vec();
        wanted.sort();
        assert_eq!(owners(&refused(&senders, 1)), wanted);
        let rejected = rejected(vec![("B".into(), Reason::OtherWriter, 3)], &by_name("A"));
        assert_eq!(rejected.first[0].owner.as_deref(), Some("A"));
        for (owner, part) in [
            ("A", "the series is A's: if A was its name before, `totxegun senders rename A B`; if they are two"),
            ("-", "the series is that of posts without a name: if it posted without a name before, `totxegun senders rename - B`"),
        ] {
            let told = advice("B", Reason::OtherWriter, Some(owner));
            assert!(told.starts_with(part), "{told}");
        }
        assert_eq!(advice("B", Reason::Full, None), Reason::Full.advice());
    }

    #[test]
    fn points_that_were_not_taken_have_a_metric_s_name() {
        let of_a = OfSender { rejected: [(Reason::Double, "EUR".into())].into(), ..OfSender::default() };
        let points = vec![("A".into(), Reason::Double, 83), ("B".into(), Reason::Double, 1)];
        let all = rejected(points, &[("A".into(), of_a)]);
        let metrics: Vec<_> = all.first.iter().map(|of| (of.points, of.metric.as_deref())).collect();
        assert_eq!(metrics, [(83, Some("EUR")), (1, None)]);
    }
}
