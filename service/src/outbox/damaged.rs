//! Handles waiting requests that were changed on disk: the delivery stops at the first of them until the file is put
//! back. Everything else goes on, and each start succeeds.

use super::rows;
use super::state::Batch;
use super::{locked, Outbox};
use crate::storage::{segment, Fault};
use std::time::Duration;

/// How long until the file is read again.
const LOOK_AGAIN: Duration = Duration::from_millis(if cfg!(test) { 20 } else { 10_000 });

impl Outbox {
    /// Why the first waiting request can't be delivered, if it was changed.
    pub fn stuck(&self) -> Option<String> {
        locked(&self.stuck).clone()
    }

    /// Records that the first waiting request is changed, logs it once, and waits before the next try.
    pub(super) async fn note_changed(&self, fault: &Fault) {
        let text = fault.to_string();
        if locked(&self.stuck).replace(text.clone()).as_ref() != Some(&text) {
            let folder = self.folder.display().to_string();
            tracing::error!(
                folder,
                reason = text.as_str(),
                "delivery stops: the file of a request was changed"
            );
        }
        tokio::time::sleep(LOOK_AGAIN).await;
    }

    pub(super) fn note_sound(&self) {
        if locked(&self.stuck).take().is_some() {
            let folder = self.folder.display().to_string();
            tracing::info!(folder, "delivery goes on");
        }
    }

    /// Reads each waiting request and returns a fault for each that can't be delivered.
    pub fn find_changed(&self) -> Result<Vec<Fault>, Fault> {
        let batches: Vec<Batch> = locked(&self.state).batches.iter().cloned().collect();
        let mut changed = Vec::new();
        for batch in batches {
            self.find_changed_of(batch, &mut changed)?;
        }
        Ok(changed)
    }

    fn find_changed_of(&self, mut batch: Batch, changed: &mut Vec<Fault>) -> Result<(), Fault> {
        let path = segment::path(&self.folder, batch.segment);
        while batch.count > 0 {
            let front = batch.front();
            let next = match rows::read_item(&self.disk, &path, &front) {
                Ok(_) => Some(batch.at + rows::item_length(&self.disk, &path, &front)?),
                Err(fault @ Fault::Damaged { .. }) => {
                    changed.push(fault);
                    rows::find_item(&self.disk, &path, batch.at..batch.end, batch.first + 1)?
                }
                Err(fault) => return Err(fault),
            };
            // If no whole record follows, the other requests of the batch count as changed too.
            batch.pass(1, next.unwrap_or(batch.at));
        }
        Ok(())
    }
}
