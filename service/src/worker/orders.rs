//! Carries out the orders of operators.

use super::checkpoint::{commit_and_note, flush_in_parts};
use super::{not_now, Carried, Done, Order, ShardWorker, WorkerError};
use crate::book::Refused;
use crate::otlp::Outcome;
use crate::shard::{is_sender, Shard};
use crate::work::blocking;

impl ShardWorker {
    /// Carries out an order, durably.
    pub(super) async fn carry_out(&mut self, order: Order) -> Result<Done, WorkerError> {
        match order {
            Order::Checkpoint => Ok(match self.checkpoint().await? {
                Ok(requests) => Done::Flushed { requests },
                Err(refused) => not_now(refused),
            }),
            Order::Quarantine(sender) | Order::Lift(sender) if !is_sender(&sender) => {
                Ok(not_now(Refused::BadSender))
            }
            Order::Quarantine(sender) => self.quarantine(sender).await,
            Order::Lift(sender) => self.lift(sender).await,
            Order::RenameSender(rename) => self.rename_sender(rename).await,
            Order::Amend(amend) => self.amend(amend).await,
        }
    }

    /// Quarantines a sender in the book first, then durably: a start quarantines the senders that the outbox notes.
    async fn quarantine(&mut self, sender: String) -> Result<Done, WorkerError> {
        // What was flushed and is in no group yet would be parked too.
        if !self.carried.is_empty() || self.shard.shared_book.lock().has_earlier() {
            if let Err(refused) = self.checkpoint().await? {
                return Ok(not_now(refused));
            }
        }
        let (shard, of) = (self.shard.clone(), sender.clone());
        let (carried, done) = blocking(move || quarantine(&shard, &of)).await?;
        self.carried.extend(carried);
        if let Err(refused) = done {
            return Ok(not_now(refused));
        }
        let outbox = self.shard.outbox.clone();
        blocking(move || outbox.quarantine(&sender)).await?;
        Ok(Done::Answered(Outcome::taken(0)))
    }

    /// Releases a sender durably first, then in the book: otherwise a start that still quarantines the sender would put
    /// its new posts together with the parked ones, across windows.
    async fn lift(&mut self, sender: String) -> Result<Done, WorkerError> {
        let (outbox, of) = (self.shard.outbox.clone(), sender.clone());
        blocking(move || outbox.lift(&of)).await?;
        let done = self.shard.shared_book.lock().lift(&sender);
        match done {
            Ok(()) => {}
            // Its posts are no longer parked: the next checkpoint would drop what the book keeps back.
            Err(Refused::NoMemory) => return Err(WorkerError::NoMemory),
            Err(refused) => return Ok(not_now(refused)),
        }
        self.released = true;
        Ok(Done::Answered(Outcome::taken(0)))
    }
}

/// Quarantines a sender in the book. If something was flushed meanwhile, makes a group of everything under the lock,
/// since it is little.
fn quarantine(shard: &Shard, sender: &str) -> Result<Carried<()>, WorkerError> {
    let runs = shard.runs.lock();
    let mut book = shard.shared_book.lock();
    let (mut bodies, mut group) = (Vec::new(), None);
    if book.has_earlier() {
        match flush_in_parts(shard, &runs, &mut book, &mut bodies) {
            Ok(all) => group = Some(all),
            Err(refused) => return Ok((bodies, Err(refused))),
        }
    }
    let done = book.quarantine(sender);
    drop(book);
    drop(runs);
    if let Some(group) = group {
        commit_and_note(shard, &bodies, group)?;
    }
    Ok((Vec::new(), done))
}
