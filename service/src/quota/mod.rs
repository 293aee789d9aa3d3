//! Quotas of senders: how many series each may have, and how many points a second it may post. `shard` claims both for a
//! post before it asks the book.
//!
//! A post over its sender's quota is answered 429 and leaves nothing behind; 413 if no retry could be within it; 503 if
//! all series would exceed the service's limit, which the books alone do not enforce. What a claim took is given back
//! unless the post is taken. `bucket` counts points; `count` counts series, by their owners at each flush and by what
//! posts have added since or may add; `rules` has the quotas.

mod bucket;
mod count;
mod rules;

pub use rules::{Owned, Quota, Rules, MOST_POINTS};

use crate::journal::Names;
use crate::otlp::series::others;
use crate::otlp::{Outcome, Reason, Rejection};
use crate::work::{blocking, locked};
use bucket::{Buckets, BURST};
use bytes::Bytes;
use count::{Counted, Has};
use serde::{Deserialize, Serialize};
use std::future::Future;
use std::sync::{Arc, Mutex, OnceLock, PoisonError, Weak};
use std::time::{Duration, Instant};

/// How often series are counted anew if they came or went.
const LOOK: Duration = Duration::from_secs(1);

/// How long a sender that may have no more series is told to wait. Until then, an unflushed series without a number
/// counts as new.
const AGAIN: u64 = 10;

/// How long, and how often at most, a post waits for other posts in flight.
const PAUSE: Duration = Duration::from_millis(20);
const PAUSES: usize = 10;

/// How often the log says that the limit of series is reached.
const BETWEEN_TELLING: Duration = Duration::from_secs(60);

/// How many senders are shown.
pub const SHOWN: usize = 10;

/// The quotas of all senders. Without rules there are none.
#[derive(Default)]
pub struct Quotas {
    rules: OnceLock<Rules>,
    buckets: Mutex<Buckets>,
    counted: Counted,
    /// When the log last said that the limit of series is reached.
    told: Mutex<Option<Instant>>,
}

/// Why a post is refused.
#[derive(Debug, PartialEq, Eq, thiserror::Error)]
pub enum OverQuota {
    #[error("over its quota: {sender} may post {points} points a second, {} at once: retry in {seconds} s", points * BURST)]
    Points { sender: String, points: u64, seconds: u64 },
    #[error("over its quota: {sender} has {series} series of at most {most}, so new ones are refused: drop an attribute, or \
        raise series= of its line in --tokens, or --sender-series")]
    Series { sender: String, series: u64, most: u64 },
    #[error("over its quota: {sender} may have {most} series, and this post alone has more new ones: drop an attribute, or \
        raise series= of its line in --tokens, or --sender-series")]
    Alone { sender: String, most: u64 },
    /// All senders together have too many series.
    #[error("too many series: there are {all}, and --max-series is {most}")]
    All { all: u64, most: u64 },
    #[error("too many series in a post: over {most}: post fewer series at a time")]
    AllAlone { most: u64 },
}

/// Names of series by number.
pub type Named = dyn Names + Send + Sync;

/// The series of a post.
pub enum Series {
    /// By number, each once.
    Numbered(Arc<Named>, Vec<u64>),
    /// Without numbers: they are found by parsing the text.
    Text(Bytes),
}

impl Series {
    pub fn numbered(names: Arc<Named>, numbers: impl Iterator<Item = u64>) -> Series {
        let mut numbers: Vec<u64> = numbers.collect();
        numbers.sort_unstable();
        numbers.dedup();
        Series::Numbered(names, numbers)
    }
}

impl From<OverQuota> for Outcome {
    fn from(over: OverQuota) -> Outcome {
        let (reason, seconds) = match over {
            OverQuota::Points { seconds, .. } => (Reason::OverQuota, Some(seconds)),
            OverQuota::Series { .. } => (Reason::OverQuota, Some(AGAIN)),
            OverQuota::Alone { .. } => (Reason::PostOverQuota, None),
            OverQuota::All { .. } => (Reason::TooManySeries, None),
            OverQuota::AllAlone { .. } => (Reason::PostOfTooManySeries, None),
        };
        Outcome::Refused(Rejection { seconds, ..Rejection::new(reason, over.to_string()) })
    }
}

/// How much of its quota a sender has used.
#[derive(Clone, Debug, PartialEq, Eq, Serialize, Deserialize)]
pub struct Used {
    pub sender: String,
    pub series: u64,
    pub max_series: Option<u64>,
    /// How many of the points in its bucket it has used; they come back with time.
    pub points: u64,
    pub max_points: Option<u64>,
}

impl Used {
    /// The larger of both fractions; 1 means that the quota is used up.
    pub fn part(&self) -> f64 {
        self.part_of_series().max(self.part_of_points())
    }

    pub fn part_of_series(&self) -> f64 {
        part(self.series, self.max_series)
    }

    pub fn part_of_points(&self) -> f64 {
        part(self.points, self.max_points)
    }
}

fn part(used: u64, most: Option<u64>) -> f64 {
    most.map_or(0.0, |most| used as f64 / most.max(1) as f64)
}

/// What a post has claimed of the quota of its sender. When it is dropped, the points are given back unless `keep` was
/// called, and the claim on series ends, since by then it is known how many came. It belongs to the work that puts the
/// post into the book, which goes on even if the sender goes away.
#[must_use = "the points of what is taken have to be kept"]
pub struct QuotaClaim {
    quotas: Arc<Quotas>,
    sender: String,
    points: Duration,
    series: u64,
    /// Claimed from the limit of all senders.
    series_of_all: u64,
}

impl Quotas {
    /// Sets the rules, once, and counts series from then on.
    pub fn begin(self: &Arc<Quotas>, rules: Rules) {
        self.counted.count(&*rules.owned, rules.flush_interval);
        if self.rules.set(rules).is_ok() {
            tokio::spawn(count(Arc::downgrade(self)));
        }
    }

    /// Sets the quota of senders without one of their own.
    pub fn set_of_each(&self, quota: Quota) {
        if let Some(rules) = self.rules.get() {
            *rules.of_each.write().unwrap_or_else(PoisonError::into_inner) = quota;
        }
    }

    /// Claims the points of a post, and room for its series. `look` counts the new series; it is called only if there
    /// is no room for as many series as there are points.
    pub async fn claim<F: Future<Output = Result<u64, OverQuota>>>(
        self: &Arc<Quotas>,
        sender: &str,
        points: u64,
        look: impl Fn() -> F,
    ) -> Result<QuotaClaim, OverQuota> {
        let mut claim = QuotaClaim {
            quotas: self.clone(),
            sender: String::new(),
            points: Duration::ZERO,
            series: 0,
            series_of_all: 0,
        };
        let Some(rules) = self.rules.get() else {
            return Ok(claim);
        };
        let new = self.claim_beside_all(rules, points, &look).await?;
        claim.series_of_all = new;
        if let Some(most) = self.max_series(rules, sender, points) {
            claim.series = match self.counted.claim(sender, new, most) {
                Ok(()) => new,
                Err(has) => self.claim_new(sender, most, has, look).await?,
            };
            claim.sender = sender.into();
        }
        if let Some(most) = rules.of(sender).points {
            let cost = bucket::cost(points, most);
            let waits = locked(&self.buckets).take(sender, cost, Instant::now());
            waits.map_err(|wait| OverQuota::Points {
                sender: sender.to_string(),
                points: most,
                seconds: wait.as_secs() + 1,
            })?;
            (claim.points, claim.sender) = (cost, sender.into());
        }
        Ok(claim)
    }

    /// Claims room within the limit of all series: for as many as there are points, or, if these may be too many, for
    /// those that are new. Posts in flight may have claimed more than they bring, so this waits for them, but not for
    /// long: a post is never refused because of their claims.
    async fn claim_beside_all<F: Future<Output = Result<u64, OverQuota>>>(
        &self,
        rules: &Rules,
        points: u64,
        look: &impl Fn() -> F,
    ) -> Result<u64, OverQuota> {
        let most = rules.max_series;
        if self.counted.claim_of_all(points, most) {
            return Ok(points);
        }
        let full = |all| {
            self.tell_full();
            Err(OverQuota::All { all, most })
        };
        let mut new = points;
        for _ in 0..PAUSES {
            let all = self.counted.all();
            new = look().await?;
            if self.counted.claim_of_all(new, most) {
                return Ok(new);
            }
            if all.saturating_add(new) > most && all == self.counted.all() {
                return full(all);
            }
            tokio::time::sleep(PAUSE).await;
        }
        match self.counted.all() {
            all if all.saturating_add(new) > most => full(all),
            _ => {
                self.counted.claim_of_all(new, u64::MAX);
                Ok(new)
            }
        }
    }

    /// Logs that there is no room for new series. Otherwise only senders would see it, and they may ignore it.
    pub fn tell_full(&self) {
        let mut told = locked(&self.told);
        if told.is_some_and(|told| told.elapsed() < BETWEEN_TELLING) {
            return;
        }
        *told = Some(Instant::now());
        let (series_count, most) = (self.counted.all(), self.rules.get().map_or(0, |rules| rules.max_series));
        tracing::warn!(
            series_count,
            max_series = most,
            "posts with new series are refused: shorten --series-ttl, drop an attribute, or raise --max-series"
        );
    }

    /// How many series the sender may have, if a post of so many points might exceed that. Of the service's limit a
    /// tenth is left to others, once these have some.
    fn max_series(&self, rules: &Rules, sender: &str, points: u64) -> Option<u64> {
        let (all, for_one) = (self.counted.all(), rules.kept_for_others());
        let is_near = || all.saturating_add(points) > for_one && all > self.counted.of(sender);
        rules.of(sender).series.or_else(|| is_near().then_some(for_one))
    }

    /// Claims room for the new series if there is none for as many as there are points. Other posts of the same sender
    /// may have claimed too many, or bring the same series, so this waits for them.
    async fn claim_new<F: Future<Output = Result<u64, OverQuota>>>(
        &self,
        sender: &str,
        most: u64,
        mut has: Has,
        look: impl Fn() -> F,
    ) -> Result<u64, OverQuota> {
        for _ in 0..PAUSES {
            let new = look().await?;
            let before = has;
            match self.counted.claim(sender, new, most) {
                Ok(()) => return Ok(new),
                Err(now) => has = now,
            }
            if has == before && has.claimed == 0 {
                break;
            }
            tokio::time::sleep(PAUSE).await;
        }
        Err(OverQuota::Series { sender: sender.into(), series: has.series, most })
    }

    /// Counts the new series of a post. `unflushed` more are allowed, since series without numbers look new until they
    /// are flushed.
    pub fn look(&self, sender: &str, points: u64, series: Series, unflushed: u64) -> Result<u64, OverQuota> {
        let Some(rules) = self.rules.get() else { return Ok(0) };
        let own = self.max_series(rules, sender, points);
        let alone = own.unwrap_or(rules.max_series).saturating_add(unflushed);
        let new = match series {
            Series::Numbered(names, numbers) => self.counted.new_of(&*rules.owned, &*names, numbers, alone),
            Series::Text(text) => others(&text, rules.profile, alone, |key| rules.owned.has(key)),
        };
        match own {
            _ if new <= alone => Ok(new),
            Some(most) => Err(OverQuota::Alone { sender: sender.into(), most }),
            None => Err(OverQuota::AllAlone { most: rules.max_series }),
        }
    }

    /// Records that the book has taken a post with so many new series.
    pub fn came(&self, sender: &str, new_series: usize, series: impl FnOnce() -> Series) {
        if self.rules.get().is_none() || new_series == 0 {
            return;
        }
        let numbered = match series() {
            Series::Numbered(names, numbers) => Some((names, numbers)),
            Series::Text(_) => None,
        };
        self.counted.add(sender, new_series as u64, numbered);
    }

    /// The senders that are nearest to their quota, the nearest first.
    pub fn nearest(&self) -> Vec<Used> {
        let Some(rules) = self.rules.get() else {
            return Vec::new();
        };
        let mut buckets = locked(&self.buckets).used(Instant::now());
        let counted = self.counted.each();
        let (all, others) = (self.counted.all(), rules.kept_for_others());
        for sender in counted.keys() {
            buckets.entry(sender.clone()).or_default();
        }
        let used = buckets.into_iter().map(|(sender, debt)| {
            let quota = rules.of(&sender);
            let series = counted.get(&sender).copied().unwrap_or(0);
            Used {
                series,
                max_series: quota.series.or((all > series).then_some(others)),
                points: quota.points.map_or(0, |most| bucket::points(debt, most)),
                max_points: quota.points.map(|most| most * BURST),
                sender,
            }
        });
        let has_share = |used: &Used| used.max_series.is_some() || used.max_points.is_some();
        let mut used: Vec<Used> = used.filter(has_share).collect();
        used.sort_by(|a, b| b.part().total_cmp(&a.part()).then_with(|| a.sender.cmp(&b.sender)));
        used.truncate(SHOWN);
        used
    }
}

impl QuotaClaim {
    /// Gives back the points that were not taken; `points` of `of` are in the book.
    pub fn keep(&mut self, points: u64, of: u64) {
        let left = of.saturating_sub(points) as f64 / of.max(1) as f64;
        self.points = self.points.mul_f64(left);
    }
}

impl Drop for QuotaClaim {
    fn drop(&mut self) {
        self.quotas.counted.give_back_of_all(self.series_of_all);
        if self.series > 0 {
            self.quotas.counted.give_back(&self.sender, self.series);
        }
        if !self.points.is_zero() {
            locked(&self.quotas.buckets).give_back(&self.sender, self.points);
        }
    }
}

async fn count(quotas: Weak<Quotas>) {
    let mut looks = tokio::time::interval(LOOK);
    loop {
        looks.tick().await;
        let Some(quotas) = quotas.upgrade() else { return };
        let counting =
            move || quotas.rules.get().map(|rules| quotas.counted.count(&*rules.owned, rules.flush_interval));
        blocking(counting).await;
    }
}

#[cfg(test)]
mod tests;
