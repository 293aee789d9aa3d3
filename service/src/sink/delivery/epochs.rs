//! Tells the sink which epochs a shard's requests continue, before the first request is sent.

use super::{End, Run, Store};
use crate::sink::{AheadOfOutbox, DeliveryOutcome};
use std::sync::atomic::Ordering::Relaxed;

impl<S: Store> Run<S> {
    /// Tells the sink which epochs the requests continue, and reports what the sink has that the store has lost. The
    /// error is the outcome of a request while the sink does not know this.
    pub(super) async fn tell_epochs(&self) -> Result<Result<(), DeliveryOutcome>, End> {
        if self.files.tenure().is_none() || self.is_told.load(Relaxed) {
            return Ok(Ok(()));
        }
        let epochs = self.files.epochs();
        let told = self.unless_stopped(self.sink.goes_on(self.shard, &epochs)).await?;
        Ok(told.map(|beyond| {
            self.is_told.store(true, Relaxed);
            self.tell_beyond(&beyond);
        }))
    }

    fn tell_beyond(&self, beyond: &AheadOfOutbox) {
        let (shard, sink, AheadOfOutbox { requests, since, until }) = (self.shard, self.sink.name(), beyond);
        self.metrics.sink_ahead.with_label_values(&[&shard.to_string()]).set(*requests as i64);
        if *requests > 0 {
            tracing::error!(
                shard,
                sink,
                requests,
                since,
                until,
                "the store was restored to an earlier state: the sink has requests of that time that the store lacks. Posts \
                 that were accepted since then and are not in the sink are lost; new points that begin before their series \
                 ends in the sink go to dead-letters/"
            );
        }
    }
}
