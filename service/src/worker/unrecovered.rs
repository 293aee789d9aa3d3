//! Runs a shard of a folder whose book could not be filled for want of memory: the outbox is still delivered and shown,
//! while posts and orders get 503. An earlier run took what the journal has, so if the service ended here, all
//! deliveries would wait for an operator.

use super::{not_now, ShardWorker, WorkerError};
use crate::book::Refused;
use crate::latch::Latch;
use crate::work::blocking;
use tokio::sync::watch;

impl ShardWorker {
    /// Returns when it is told to stop. The journal stays as it is.
    pub(super) async fn stay_unfilled(
        &mut self,
        why: &str,
        stop: &mut watch::Receiver<bool>,
    ) -> Result<(), WorkerError> {
        self.shard.stay_unfilled();
        let shard = self.shard.number();
        tracing::error!(shard, reason = why, "the shard takes no posts until the service is restarted");
        loop {
            tokio::select! {
                biased;
                lost = self.shard.journal.fenced() => return Err(lost.into()),
                () = stop.wait_true() => return Ok(()),
                Some((_, to)) = self.orders.recv() => {
                    let outbox = self.shard.outbox.clone();
                    blocking(move || outbox.sync()).await?;
                    let _ = to.send(not_now(Refused::NoMemory)); // the caller may not wait any more
                }
            }
        }
    }
}
