//! The epochs under which a shard's owners made its waiting requests.
//!
//! A store that was restored from a backup repeats request numbers that a sink already has. So each owner of a shard
//! draws an epoch, and no key is used twice. A sink that meets a new epoch learns from the previous epoch, and from the
//! number at which that one ended, whether the requests continue what it has.

use serde::{Deserialize, Serialize};

/// Oldest first: each epoch and the number of its first request. Empty for a folder, whose epoch stays the same.
#[derive(Clone, Debug, Default, PartialEq, Eq, Serialize, Deserialize)]
pub struct Epochs(Vec<(String, u64)>);

/// An epoch, and what it continues.
#[derive(Clone, Copy, Debug, PartialEq, Eq)]
pub struct GoesOn<'a> {
    pub epoch: &'a str,
    pub before: &'a str,
    /// The last request under the previous epoch or an earlier one.
    pub number: u64,
}

impl Epochs {
    /// Begins an owner's epoch at request `next`, while the sink has all requests up to `acknowledged`. The first owner
    /// of a shard continues from `root`.
    pub fn begin(&mut self, root: &str, epoch: &str, next: u64, acknowledged: u64) {
        if self.0.is_empty() {
            self.0.push((root.into(), 0));
        }
        // An owner that made no request leaves no trace.
        while self.0.len() > 1 && self.0.last().is_some_and(|(_, first)| *first == next) {
            self.0.pop();
        }
        self.0.push((epoch.into(), next));
        // The sink knows all epochs up to that of the last request that it has.
        let known = self.0.iter().rposition(|(_, first)| *first <= acknowledged).unwrap_or(0);
        self.0.drain(..known.min(self.0.len() - 2));
    }

    pub fn each(&self) -> impl Iterator<Item = GoesOn<'_>> {
        self.0.windows(2).map(|both| {
            let ((before, _), (epoch, first)) = (&both[0], &both[1]);
            GoesOn { epoch, before, number: first - 1 }
        })
    }
}

#[cfg(test)]
mod tests {
    use super::*;

    fn shown(epochs: &Epochs) -> Vec<(&str, &str, u64)> {
        epochs.each().map(|one| (one.before, one.epoch, one.number)).collect()
    }

    /// Owners with and without requests, and a sink that has acknowledged more and more of them.
    #[test]
    fn each_epoch_goes_on_from_the_last_one_with_requests() {
        let mut epochs = Epochs::default();
        epochs.begin("root", "a", 1, 0);
        assert_eq!(shown(&epochs), [("root", "a", 0)]);
        epochs.begin("root", "b", 1, 0);
        assert_eq!(shown(&epochs), [("root", "b", 0)]);
        epochs.begin("root", "c", 4, 0);
        assert_eq!(shown(&epochs), [("root", "b", 0), ("b", "c", 3)]);
        epochs.begin("root", "d", 9, 2);
        assert_eq!(shown(&epochs), [("b", "c", 3), ("c", "d", 8)]);
        epochs.begin("root", "e", 9, 3);
        assert_eq!(shown(&epochs), [("b", "c", 3), ("c", "e", 8)]);
        epochs.begin("root", "f", 11, 10);
        assert_eq!(shown(&epochs), [("e", "f", 10)]);
    }
}
