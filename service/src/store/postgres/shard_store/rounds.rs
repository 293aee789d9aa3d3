//! The commits of a shard, in rounds: one runs at a time, and serves all callers that waited when it began.
//!
//! A caller's round begins after its call, so success proves that we owned the shard after that.

use crate::storage::shard_store::Fenced;
use crate::work::locked;
use std::sync::{Condvar, Mutex, PoisonError};
use std::time::{Duration, Instant};

#[derive(Default)]
pub struct SyncRounds {
    state: Mutex<State>,
    changed: Condvar,
}

#[derive(Default)]
struct State {
    begun: u64,
    ended: u64,
    /// The last round that a caller waits for.
    wanted: u64,
    /// The committer was asked for a round that has not ended.
    is_asked: bool,
    is_fenced: bool,
    /// How many changes are durable.
    durable: u64,
    /// When the waiting callers began.
    waiting: Vec<Instant>,
}

impl SyncRounds {
    /// Returns after a round that began after this call has ended: how many changes are durable. `ask` has the
    /// committer begin one.
    pub fn wait(&self, ask: impl FnOnce()) -> Result<u64, Fenced> {
        let began = Instant::now();
        let mut state = locked(&self.state);
        let wanted = state.begun + 1;
        state.wanted = wanted;
        state.waiting.push(began);
        if !state.is_fenced && !std::mem::replace(&mut state.is_asked, true) {
            ask();
        }
        let is_under_way = |state: &mut State| !state.is_fenced && state.ended < wanted;
        let waited = self.changed.wait_while(state, is_under_way);
        let mut state = waited.unwrap_or_else(PoisonError::into_inner);
        if let Some(place) = state.waiting.iter().position(|other| *other == began) {
            state.waiting.swap_remove(place);
        }
        match state.is_fenced {
            true => Err(Fenced),
            false => Ok(state.durable),
        }
    }

    /// Callers from here on wait for the next round.
    pub fn begin(&self) {
        locked(&self.state).begun += 1;
    }

    /// Ends the round, which made this many changes durable. Returns whether callers wait for another one.
    pub fn end(&self, durable: u64) -> bool {
        let mut state = locked(&self.state);
        (state.ended, state.durable) = (state.begun, durable);
        state.is_asked = state.wanted > state.ended;
        self.changed.notify_all();
        state.is_asked
    }

    pub fn fence_off(&self) {
        locked(&self.state).is_fenced = true;
        self.changed.notify_all();
    }

    pub fn check(&self) -> Result<(), Fenced> {
        match locked(&self.state).is_fenced {
            true => Err(Fenced),
            false => Ok(()),
        }
    }

    /// How long the oldest caller has waited.
    pub fn longest(&self) -> Duration {
        let first = locked(&self.state).waiting.iter().min().copied();
        first.map_or(Duration::ZERO, |first| first.elapsed())
    }
}

#[cfg(test)]
mod tests {
    use super::*;
    use std::sync::atomic::{AtomicU32, Ordering::SeqCst};
    use std::sync::Arc;
    use std::thread::{self, JoinHandle};

    #[derive(Clone, Default)]
    struct Shard {
        rounds: Arc<SyncRounds>,
        asked: Arc<AtomicU32>,
    }

    impl Shard {
        fn sync(&self) -> JoinHandle<Result<u64, Fenced>> {
            let shard = self.clone();
            let before = locked(&self.rounds.state).waiting.len();
            let syncing = thread::spawn(move || {
                shard.rounds.wait(|| {
                    shard.asked.fetch_add(1, SeqCst);
                })
            });
            while locked(&self.rounds.state).waiting.len() == before {
                thread::sleep(Duration::from_millis(1));
            }
            syncing
        }
    }

    #[test]
    fn callers_before_a_round_share_it() {
        let shard = Shard::default();
        let all = [shard.sync(), shard.sync(), shard.sync()];
        assert!(shard.rounds.longest() > Duration::ZERO);
        shard.rounds.begin();
        assert!(!shard.rounds.end(7), "nobody waits for another");
        for one in all {
            assert_eq!(one.join().unwrap(), Ok(7));
        }
        assert_eq!((shard.asked.load(SeqCst), shard.rounds.longest()), (1, Duration::ZERO));
    }

    /// The running round may have taken its batch before their changes.
    #[test]
    fn callers_during_a_round_wait_for_the_next_and_share_it() {
        let shard = Shard::default();
        let first = shard.sync();
        shard.rounds.begin();
        let others = [shard.sync(), shard.sync()];
        assert!(shard.rounds.end(1), "they wait for another");
        assert_eq!(first.join().unwrap(), Ok(1));
        assert!(others.iter().all(|other| !other.is_finished()));
        shard.rounds.begin();
        assert!(!shard.rounds.end(3));
        for other in others {
            assert_eq!(other.join().unwrap(), Ok(3));
        }
        assert_eq!(shard.asked.load(SeqCst), 1, "the committer goes on by itself");
        let last = shard.sync();
        assert_eq!(shard.asked.load(SeqCst), 2);
        shard.rounds.fence_off();
        assert_eq!(last.join().unwrap(), Err(Fenced));
    }

    #[test]
    fn whoever_waits_for_a_lost_shard_is_told_and_nothing_more_is_asked() {
        let shard = Shard::default();
        let waiting = shard.sync();
        shard.rounds.begin();
        shard.rounds.fence_off();
        assert_eq!(waiting.join().unwrap(), Err(Fenced));
        assert_eq!(shard.rounds.wait(|| panic!("nobody writes any more")), Err(Fenced));
        assert!(shard.rounds.check().is_err());
    }
}
