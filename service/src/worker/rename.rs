//! A sender gets another name: all its series belong to that name from then on.

use super::{not_now, Done, ShardWorker, WorkerError};
use crate::book::Refused;
use crate::outbox::SenderRename;
use crate::shard::is_sender;
use crate::sink::RenameSender;

impl ShardWorker {
    /// One group of the outbox has the new owners and what the sink is told, after all that was posted under the old name. It is
    /// durable before a fresh book, which knows the new owners, takes the place of the old one.
    pub(super) async fn rename_sender(&mut self, rename: SenderRename) -> Result<Done, WorkerError> {
        if !is_sender(&rename.from) || !is_sender(&rename.to) {
            return Ok(not_now(Refused::BadSender));
        }
        // The journal and the held files name who posted, and posts of a quarantined sender stay there.
        let quarantined = self.shard.outbox.quarantined();
        if let Some(one) = [&rename.from, &rename.to].into_iter().find(|one| quarantined.contains(*one)) {
            return Ok(Done::NotRenamed { quarantined: one.clone() });
        }
        // New series have their owners by a checkpoint.
        if let Err(refused) = self.checkpoint().await? {
            return Ok(not_now(refused));
        }
        // A fresh book costs time and memory: only if it changes something.
        if !self.shard.outbox.series_by_owner().contains_key(&*rename.from) {
            return Ok(Done::Renamed { series: 0 });
        }
        let renamed = self.renew(move |shard| {
            let to = rename.to.clone();
            shard.outbox.rename_sender(&rename, |keys| {
                let requests = RenameSender::requests(keys, &to);
                shard.metrics.forwarded_requests.inc_by(requests.len() as u64);
                requests
            })
        });
        Ok(renamed.await?.map_or_else(not_now, |series| Done::Renamed { series }))
    }
}
