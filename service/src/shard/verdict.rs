//! The answer to a post, and when its sender may get it.
//!
//! A post that the book took is appended to the journal by the constructor of its `PendingAnswer`, and only a durable
//! `PendingAnswer` reveals its outcome. The answer to a duplicate or a refused post waits for the journal too: if it
//! overtook the record of the first attempt, the sender would drop a batch that a loss of power may still take. If the
//! shard was fenced meanwhile neither is given: the sender gets 503, and the new owner answers its retry.

use super::posted::Posted;
use crate::journal::{Journal, Ticket};
use crate::late::Refusals;
use crate::otlp::{Causes, OffClock, Outcome, Reason, Rejection};
use crate::storage::Fenced;

/// An outcome that may be revealed once the journal is durable up to a position.
#[must_use = "a sender waits for it"]
pub(super) struct PendingAnswer {
    ticket: Ticket,
    outcome: Outcome,
    /// The points that their series refused.
    late: Option<Box<Refusals>>,
}

impl PendingAnswer {
    /// Appends a post that the book took to the journal. Takes a short lock and does not wait for the disk.
    pub fn taken(posted: &Posted, journal: &Journal) -> PendingAnswer {
        let (post, names) = (&posted.read.post, posted.read.names());
        PendingAnswer {
            ticket: journal.append(post, names),
            outcome: Outcome::taken_but(post.foreign, posted.left_out.off, Causes::default()),
            late: None,
        }
    }

    /// An outcome of which nothing was taken now, for example a refusal: it waits for everything that was taken before.
    pub fn behind_all(said: impl Into<Outcome>, journal: &Journal) -> PendingAnswer {
        PendingAnswer { ticket: journal.now(), outcome: said.into(), late: None }
    }

    /// Adds how many points are outside the profile, off the clock, or not taken for other causes.
    pub fn without(mut self, foreign: u64, off: OffClock, turned: &Causes) -> PendingAnswer {
        self.outcome = Outcome::taken_but(foreign, off, turned.clone());
        self
    }

    /// Adds the points that their series refuse.
    pub fn without_refused(mut self, refused: Vec<(u64, Rejection)>) -> PendingAnswer {
        self.outcome = self.outcome.without(refused);
        self
    }

    /// Adds the refused points that are to be kept.
    pub fn with_late(mut self, late: Option<Refusals>) -> PendingAnswer {
        self.late = late.map(Box::new);
        self
    }

    /// Waits until the outcome may be revealed; returns it with the points to keep.
    pub async fn durable(self, journal: &Journal) -> (Outcome, Option<Box<Refusals>>) {
        match journal.durable(self.ticket).await {
            Ok(()) => (self.outcome, self.late),
            Err(Fenced) => (Reason::ShardMoves.into(), None),
        }
    }
}

#[cfg(test)]
mod tests {
    use super::*;
    use crate::book::{Refused, SharedBook};
    use crate::storage::{Disk, Durability, Folder};
    use std::sync::atomic::{AtomicBool, Ordering::SeqCst};
    use std::sync::Arc;
    use std::time::Duration;

    #[tokio::test(flavor = "multi_thread")]
    async fn a_refusal_waits_for_the_posts_before_it() {
        let place = tempfile::tempdir().unwrap();
        let open = Arc::new(AtomicBool::new(true));
        let folder = Folder::open_on(Disk::held(open.clone()), place.path(), Durability::Disk).unwrap();
        let journal = Arc::new(folder.shard().unwrap().0);
        open.store(false, SeqCst);
        let posted = Posted::whole(SharedBook::new(1).unwrap().read("A".into(), "{}".into()).unwrap());
        let late = Refused::OutOfOrder { point: 0, frontier: 5 };
        let both = [PendingAnswer::taken(&posted, &journal), PendingAnswer::behind_all(late, &journal)];
        let answers = both.map(|one| {
            let journal = journal.clone();
            tokio::spawn(async move { one.durable(&journal).await })
        });
        tokio::time::sleep(Duration::from_millis(50)).await;
        let both_wait = answers.iter().all(|answer| !answer.is_finished());
        // Before an assertion that may fail: the drop of the journal waits for the disk.
        open.store(true, SeqCst);
        for answer in answers {
            answer.await.unwrap();
        }
        assert!(both_wait);
    }
}
