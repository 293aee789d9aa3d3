//! How long `delivery` waits before it sends a request again.

use std::hash::{BuildHasher, Hasher};
use std::time::Duration;

const FIRST_WAIT: Duration = Duration::from_millis(50);
/// The longest wait for a sink that can't be reached: asking it costs nobody much.
pub(super) const LONGEST_OF_AWAY: Duration = Duration::from_millis(if cfg!(test) { 100 } else { 2000 });
/// The longest wait for a sink that answers, since it may be busy.
pub(super) const LONGEST_OF_BUSY: Duration = Duration::from_secs(60);
/// The longest `Retry-After` that is followed.
const LONGEST_ASKED: Duration = Duration::from_secs(15 * 60);

/// The wait after `tries` failures, of which there is at least one. It doubles up to `longest`, and a random part of up
/// to a half is taken off, so that many services don't come back at once. If the sink asks for more, it gets that.
pub(super) fn wait(tries: u64, longest: Duration, asked: Option<Duration>) -> Duration {
    let doublings = tries.saturating_sub(1).min(16) as u32;
    let whole = FIRST_WAIT.saturating_mul(1 << doublings).min(longest);
    let wait = whole - whole.mul_f64(0.5 * fraction());
    wait.max(asked.map_or(Duration::ZERO, |asked| asked.min(LONGEST_ASKED)))
}

/// A random number from 0 to below 1: the standard library draws random keys for hashing.
fn fraction() -> f64 {
    let word = std::collections::hash_map::RandomState::new().build_hasher().finish();
    (word >> 11) as f64 / (1u64 << 53) as f64
}

#[cfg(test)]
mod tests {
    use super::*;

    #[test]
    fn doubles_to_a_bound() {
        let busy = [(1, 50), (2, 100), (3, 200), (11, 51_200), (12, 60_000), (u64::MAX, 60_000)];
        let away = [(1, 50), (2, 100), (3, 100), (u64::MAX, 100)];
        let all =
            busy.map(|one| (LONGEST_OF_BUSY, one)).into_iter().chain(away.map(|one| (LONGEST_OF_AWAY, one)));
        for (longest, (tries, whole)) in all {
            for _ in 0..100 {
                let wait = wait(tries, longest, None).as_millis();
                assert!(whole / 2 <= wait && wait <= whole, "{tries}: {wait}");
            }
        }
    }

    #[test]
    fn spreads() {
        let waits: std::collections::HashSet<_> = (0..100).map(|_| wait(12, LONGEST_OF_BUSY, None)).collect();
        assert!(waits.len() > 50);
    }

    #[test]
    fn gives_what_is_asked_within_a_bound() {
        let wait = |tries, asked| wait(tries, LONGEST_OF_BUSY, Some(asked));
        assert_eq!(wait(1, Duration::from_secs(7)), Duration::from_secs(7));
        assert!(wait(20, Duration::ZERO) >= LONGEST_OF_BUSY / 2);
        assert_eq!(wait(1, Duration::from_secs(1_000_000)), LONGEST_ASKED);
    }
}
