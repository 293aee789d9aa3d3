//! The quotas: of each sender by the file of tokens, of all others by the options.

use crate::identity::Tokens;
use crate::otlp::series::{Profile, SeriesKey};
use crate::reloaded::Reloaded;
use std::collections::HashMap;
use std::sync::{Arc, PoisonError, RwLock};
use std::time::Duration;

/// The largest quota of points a second.
pub const MOST_POINTS: u64 = 1_000_000_000_000;

/// The quota of a sender; none means unlimited.
#[derive(Clone, Copy, Debug, Default, PartialEq, Eq)]
pub struct Quota {
    pub series: Option<u64>,
    /// Points a second.
    pub points: Option<u64>,
}

impl Quota {
    /// Fills in from `other` what is not set.
    pub fn or(self, other: Quota) -> Quota {
        Quota { series: self.series.or(other.series), points: self.points.or(other.points) }
    }
}

/// Knows the owners of flushed series.
pub trait Owned: Send + Sync + 'static {
    /// Changes whenever series may have come or gone: a count of flushes, and the number of series.
    fn seen(&self) -> (u64, usize);

    fn by_owner(&self) -> HashMap<String, u64>;

    fn has(&self, series: &SeriesKey) -> bool;
}

/// The quotas of a service.
pub struct Rules {
    /// The limit of the service.
    pub max_series: u64,
    /// The quota of a sender without one of its own.
    pub of_each: RwLock<Quota>,
    /// The file with the senders' own quotas.
    pub tokens: Option<Arc<Reloaded<Tokens>>>,
    /// Which points have a series.
    pub profile: Profile,
    pub owned: Box<dyn Owned>,
    /// A series is flushed within this time, unless its sender is quarantined.
    pub flush_interval: Duration,
}

impl Rules {
    pub fn of(&self, sender: &str) -> Quota {
        let own = self.tokens.as_ref().and_then(|tokens| tokens.now().quota(sender));
        own.unwrap_or_default().or(*self.of_each.read().unwrap_or_else(PoisonError::into_inner))
    }

    /// How many series one sender may have if others have some: a tenth is left to them.
    pub fn kept_for_others(&self) -> u64 {
        self.max_series - self.max_series / 10
    }
}
