//! Rates of posts and deliveries over the last minutes.

use crate::metrics::Metrics;
use crate::work::locked;
use serde::{Deserialize, Serialize};
use std::collections::VecDeque;
use std::sync::{Arc, Mutex, Weak};
use std::time::Duration;

/// How often the counters are read, and how many rates are kept.
pub const EVERY: Duration = Duration::from_secs(2);
pub const KEPT: usize = 150;

/// The counters at each reading, the oldest first.
pub struct Pulse(Mutex<VecDeque<Counters>>);

/// Posts taken, posts refused and requests delivered since the start.
type Counters = [u64; 3];

/// Numbers per second.
#[derive(Clone, Copy, Debug, Default, PartialEq, Serialize, Deserialize)]
pub struct Rates {
    pub taken: f64,
    pub refused: f64,
    pub delivered: f64,
}

impl Pulse {
    /// Reads the counters until the `Pulse` is dropped.
    pub fn begin(metrics: Arc<Metrics>) -> Arc<Pulse> {
        let pulse = Arc::new(Pulse(Mutex::default()));
        tokio::spawn(look(Arc::downgrade(&pulse), metrics));
        pulse
    }

    fn note(&self, counters: Counters) {
        let mut all = locked(&self.0);
        if all.len() > KEPT {
            all.pop_front();
        }
        all.push_back(counters);
    }

    /// The rates, the oldest first.
    pub fn rates(&self) -> Vec<Rates> {
        let all = locked(&self.0);
        let pairs = all.iter().zip(all.iter().skip(1));
        pairs.map(|(before, now)| rates(*before, *now)).collect()
    }
}

async fn look(pulse: Weak<Pulse>, metrics: Arc<Metrics>) {
    let mut looks = tokio::time::interval(EVERY);
    loop {
        looks.tick().await;
        match pulse.upgrade() {
            Some(pulse) => pulse.note(counters(&metrics)),
            None => return,
        }
    }
}

fn counters(metrics: &Metrics) -> Counters {
    let (taken, refused) = metrics.requests_answered();
    let outcomes = ["taken", "partial"].map(|outcome| metrics.deliveries.with_label_values(&[outcome]).get());
    [taken, refused, outcomes.iter().sum()]
}

fn rates(before: Counters, now: Counters) -> Rates {
    let a_second = |of: usize| now[of].saturating_sub(before[of]) as f64 / EVERY.as_secs_f64();
    Rates { taken: a_second(0), refused: a_second(1), delivered: a_second(2) }
}

#[cfg(test)]
mod tests {
    use super::*;

    #[test]
    fn rates_are_of_the_last_minutes() {
        let pulse = Pulse(Mutex::default());
        assert_eq!(pulse.rates(), []);
        for look in 0..1000 {
            pulse.note([look * look, look, 2 * look]);
        }
        let rates = pulse.rates();
        let last = Rates { taken: (999.0 * 999.0 - 998.0 * 998.0) / 2.0, refused: 0.5, delivered: 1.0 };
        assert_eq!((rates.len(), rates.last()), (KEPT, Some(&last)));
    }
}
