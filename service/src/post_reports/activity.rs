//! Which senders have posted since the start, when last, and what was refused: for operators. `Reporter` notes each
//! answer.

use crate::log::{seconds, shown};
use crate::otlp::{Outcome, Reason};
use crate::work::locked;
use ahash::AHashMap;
use std::collections::BTreeMap;
use std::sync::Mutex;

/// The most senders that are known. If another one comes, only so many are kept: those that posted last.
const MOST: usize = 1000;
const KEPT: usize = 900;

/// How much of an answer's text is kept, in characters.
const TEXT: usize = 300;

/// All senders, by name.
#[derive(Default)]
pub struct SenderActivity(Mutex<AHashMap<String, OfSender>>);

/// The activity of one sender.
#[derive(Clone, Debug, Default, PartialEq, Eq)]
pub struct OfSender {
    /// Posts that were taken.
    pub taken: u64,
    /// When it posted last, in seconds since 1970.
    pub last: u64,
    /// Refused posts, by reason.
    pub refused: BTreeMap<Reason, OfReason>,
    /// By reason, the metric that the log named last for rejected points.
    pub rejected: BTreeMap<Reason, String>,
    /// Who has the series for which a post of it was refused last.
    pub owner: Option<String>,
}

/// Posts of a sender that were refused for one reason.
#[derive(Clone, Debug, Default, PartialEq, Eq)]
pub struct OfReason {
    pub posts: u64,
    /// When the last one was, in seconds since 1970.
    pub last: u64,
    /// The text of the last answer.
    pub text: String,
}

impl SenderActivity {
    /// Notes an answer; returns the reason if it is a refusal.
    pub fn note(&self, sender: &str, outcome: &Outcome) -> Option<Reason> {
        self.note_at(sender, outcome, seconds())
    }

    fn note_at(&self, sender: &str, outcome: &Outcome, now: u64) -> Option<Reason> {
        let reason = outcome.reason();
        let mut all = locked(&self.0);
        let of = match all.get_mut(sender) {
            Some(of) => of,
            None => {
                make_room(&mut all);
                all.entry(sender.to_string()).or_default()
            }
        };
        of.last = now;
        let Some(reason) = reason else {
            of.taken += 1;
            return None;
        };
        let of_reason = of.refused.entry(reason).or_default();
        of_reason.posts += 1;
        of_reason.last = now;
        if let Some(message) = outcome.refusal() {
            of_reason.text = shown(message, TEXT);
        }
        Some(reason)
    }

    /// Notes that a point of a sender was rejected, with its metric if that is known.
    pub fn note_rejected(&self, sender: &str, reason: Reason, metric: Option<&str>) {
        let mut all = locked(&self.0);
        let of = of_sender(&mut all, sender);
        if let Some(metric) = metric {
            of.rejected.insert(reason, shown(metric, TEXT));
        }
    }

    /// Notes who has a series that a sender has posted to.
    pub fn note_owner(&self, sender: &str, owner: &str) {
        of_sender(&mut locked(&self.0), sender).owner = Some(owner.to_string());
    }

    /// Those that posted last, the last one first.
    pub fn last(&self, most: usize) -> Vec<(String, OfSender)> {
        let all = locked(&self.0);
        let mut last: Vec<(&String, &OfSender)> = all.iter().collect();
        last.sort_by(|(a, of_a), (b, of_b)| of_b.last.cmp(&of_a.last).then(a.cmp(b)));
        last.truncate(most);
        last.into_iter().map(|(name, of)| (name.clone(), of.clone())).collect()
    }

    /// Whether a sender has posted.
    pub fn has(&self, sender: &str) -> bool {
        locked(&self.0).contains_key(sender)
    }

    /// How many senders are known.
    pub fn count(&self) -> usize {
        locked(&self.0).len()
    }
}

/// What is known of a sender, who may not be known yet.
fn of_sender<'a>(all: &'a mut AHashMap<String, OfSender>, sender: &str) -> &'a mut OfSender {
    if !all.contains_key(sender) {
        make_room(all);
    }
    all.entry(sender.to_string()).or_insert_with(|| OfSender { last: seconds(), ..OfSender::default() })
}

/// Names come from outside: who posted longest ago is forgotten where there are too many, several at a time.
fn make_room(all: &mut AHashMap<String, OfSender>) {
    if all.len() < MOST {
        return;
    }
    let mut times: Vec<u64> = all.values().map(|of| of.last).collect();
    let (_, least, _) = times.select_nth_unstable(MOST - KEPT);
    let least = *least;
    let mut left = all.len() - KEPT;
    all.retain(|_, of| {
        let goes = left > 0 && of.last <= least;
        left -= usize::from(goes);
        !goes
    });
}

#[cfg(test)]
mod tests {
    use super::*;

    fn late(message: &str) -> Outcome {
        Outcome::refused(Reason::OutOfOrder, message)
    }

    #[test]
    fn a_sender_s_posts_and_refusals_are_noted() {
        let activity = SenderActivity::default();
        assert_eq!(activity.note_at("A", &Outcome::taken(2), 5), None);
        for (sender, message, now) in [
            ("A", "duplicate or late: point 0, frontier 5", 6),
            ("A", "duplicate or late: point 9, frontier 7", 7),
            ("B", "duplicate or late: point 9, frontier 7", 6),
        ] {
            assert_eq!(activity.note_at(sender, &late(message), now), Some(Reason::OutOfOrder));
        }
        let last = activity.last(9);
        assert_eq!(last.iter().map(|(name, _)| &**name).collect::<Vec<_>>(), ["A", "B"]);
        let wanted = OfReason { posts: 2, last: 7, text: "duplicate or late: point 9, frontier 7".into() };
        assert_eq!(
            (last[0].1.taken, last[0].1.last, &last[0].1.refused[&Reason::OutOfOrder]),
            (1, 7, &wanted)
        );
    }

    /// Otherwise made-up names could fill the memory, or displace real senders.
    #[test]
    fn who_posted_last_is_kept() {
        let activity = SenderActivity::default();
        for number in 0..5000u64 {
            activity.note_at("A", &Outcome::taken(0), number);
            activity.note_at(
                &format!("made-up-{number}"),
                &Outcome::refused(Reason::Unreadable, "x".repeat(5000)),
                number,
            );
        }
        let last = activity.last(10_000);
        assert!(activity.count() <= MOST && last.len() >= KEPT, "{}", last.len());
        let of_a = last.iter().find(|(name, _)| name == "A").map(|(_, of)| of.taken);
        assert_eq!((of_a, &*last[1].0), (Some(5000), "made-up-4999"));
        assert!(last[1].1.refused[&Reason::Unreadable].text.len() <= TEXT);
        activity.note_at("B", &Outcome::taken(0), 0); // all at the same time
        let alike = SenderActivity::default();
        for number in 0..5000 {
            alike.note_at(&number.to_string(), &Outcome::taken(0), 7);
        }
        assert!((KEPT..=MOST).contains(&alike.count()), "{}", alike.count());
    }
}
