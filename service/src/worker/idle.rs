//! Gives back memory when nobody posts: idle readers, what the books keep of posts until their rounds are closed, and
//! the free memory of the allocator. `run` calls it at each look.

use super::ShardWorker;
use crate::book::{free_idle_readers, give_back_memory};
use crate::shard::Shard;
use crate::work::blocking;
use std::time::{Duration, Instant};

/// How often it looks whether anything was posted, and how long an idle reader is kept.
const LOOK: Duration = Duration::from_secs(10);

/// When it looks next, and how many calls the book had had at the last look.
pub(super) struct Rest {
    next: Instant,
    came: u64,
}

impl Rest {
    pub fn new() -> Rest {
        Rest { next: Instant::now() + LOOK, came: 0 }
    }
}

impl ShardWorker {
    /// Gives back memory if nothing was posted since the last look, and a look is due.
    pub(super) async fn rest(&mut self) {
        if Instant::now() < self.rest.next {
            return;
        }
        let (shard, before) = (self.shard.clone(), self.rest.came);
        let came = blocking(move || rest(&shard, before)).await;
        let next = Instant::now() + LOOK;
        self.rest = Rest { next, came };
    }
}

/// Returns how many calls the book has had by now.
fn rest(shard: &Shard, before: u64) -> u64 {
    free_idle_readers(LOOK);
    let came = shard.shared_book.lock().came();
    if came == before {
        // The lock is released between two books, since a post may come.
        while shard.shared_book.lock().close_round_at_rest() {}
        give_back_memory();
    }
    came
}

#[cfg(test)]
mod tests {
    use super::*;
    use crate::book::{given_back, tests::points};
    use crate::worker::tests::worker;

    /// Looks now; returns how many rounds were closed.
    async fn look(worker: &mut ShardWorker) -> usize {
        worker.rest.next = Instant::now();
        worker.rest().await;
        assert!(worker.rest.next > Instant::now() + LOOK / 2);
        let closed = worker.shard.shared_book.lock().rounds_closed();
        closed
    }

    #[tokio::test]
    async fn memory_is_given_back_once_nothing_came_between_two_looks() {
        const BLOCK: usize = 1 << 20;
        const BLOCKS: usize = 128;
        let place = tempfile::tempdir().unwrap();
        let mut worker = worker(place.path());
        let shard = worker.shard.clone();
        for (start, is_taken) in [(10, true), (20, true), (10, false)] {
            let body = points(&["a".into()], start, 1);
            let mut read = shard.shared_book.read("A".into(), body.into()).unwrap();
            assert_eq!(shard.shared_book.lock().admit(&mut read).is_ok(), is_taken);
            assert_eq!(look(&mut worker).await, 0, "a post came");
        }
        // Every second block is freed: by itself the allocator returns only one of many to the system.
        let block = || vec![1u8; BLOCK];
        let (freed, _kept): (Vec<_>, Vec<_>) = (0..BLOCKS).map(|_| (block(), block())).unzip();
        let before = given_back();
        drop(freed);
        assert_eq!(look(&mut worker).await, 1);
        // Other tests allocate and free meanwhile.
        assert!(given_back() > before + BLOCK * BLOCKS / 2);
        assert_eq!(look(&mut worker).await, 0, "there is no other");
    }
}
