//! Moves the contents of an outbox into a new one that continues it, for `store/moving`.

use super::changes::{Group, UnitOfMetric};
use super::keys::Keys;
use super::rows;
use super::state::Batch;
use super::table::Heard;
use super::{Outbox, Series};
use crate::otlp::series::SeriesKey;
use crate::runs::{Forgotten, Since};
use crate::storage::{segment, Fault};
use crate::work::locked;
use std::collections::BTreeSet;
use std::sync::Arc;

/// The start of an outbox that continues others.
pub struct Beginning {
    /// The number of its first request.
    pub next: u64,
    pub series: Vec<(SeriesKey, Series)>,
    pub quarantined: BTreeSet<String>,
    pub beside: BTreeSet<UnitOfMetric>,
    pub since: Since,
    pub forgotten: Forgotten,
}

/// Consecutive waiting requests of a group, packed as they are: so each keeps its bytes and its key.
pub struct Waits {
    pub first: u64,
    pub epoch: Arc<str>,
    pub since: u64,
    /// Packed.
    pub bodies: Vec<Vec<u8>>,
}

impl Waits {
    pub fn bytes(&self) -> usize {
        self.bodies.iter().map(Vec::len).sum()
    }
}

impl Outbox {
    /// The number of the first waiting request, or of the next one if none waits.
    pub fn first_number(&self) -> u64 {
        locked(&self.state).facts.acknowledged + 1
    }

    /// Passes all waiting requests to `each`, group by group.
    pub fn each_group(&self, mut each: impl FnMut(Waits) -> Result<(), Fault>) -> Result<(), Fault> {
        let batches: Vec<Batch> = locked(&self.state).batches.iter().cloned().collect();
        batches.into_iter().try_for_each(|batch| each(self.waits(batch)?))
    }

    fn waits(&self, mut batch: Batch) -> Result<Waits, Fault> {
        let path = segment::path(&self.folder, batch.segment);
        let (first, mut bodies) = (batch.first, Vec::new());
        while batch.count > 0 {
            let (packed, length) = rows::packed_item(&self.disk, &path, &batch.front())?;
            bodies.push(packed);
            batch.pass(1, batch.at + length);
        }
        Ok(Waits { first, epoch: batch.epoch, since: batch.since, bodies })
    }

    /// Fills a new outbox, all or nothing. Written before anything that follows.
    pub fn begin_with(&self, beginning: Beginning) -> Result<(), Fault> {
        self.renew(|state| {
            (state.facts.next, state.facts.acknowledged) = (beginning.next, beginning.next - 1);
            (state.facts.quarantined, state.facts.since) = (beginning.quarantined, beginning.since);
            (state.facts.beside, state.facts.forgotten) = (beginning.beside, beginning.forgotten);
            state.adopt(beginning.series);
        })
    }

    /// Appends the next requests of the other outbox, whose series are known here already.
    pub fn go_on_with(&self, waits: Waits) -> Result<(), Fault> {
        let mut writer = locked(&self.writer);
        let group = {
            let state = locked(&self.state);
            Group {
                first: waits.first,
                epoch: waits.epoch,
                since: waits.since,
                heard: Heard::default(),
                journal: state.facts.journal,
                ends: Vec::new(),
                new: Keys::default(),
                owners: Vec::new(),
                recent: Vec::new(),
                renamed: None,
            }
        };
        self.put_group(&mut writer, group, &waits.bodies)
    }
}
