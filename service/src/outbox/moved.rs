//! Forgets series, and puts their ends back, for `worker/forget`. A change that no record describes is recorded by the
//! snapshot of a new segment.

use super::changes::Change;
use super::state::State;
use super::table::Table;
use super::Outbox;
use crate::otlp::series::SeriesKey;
use crate::storage::Fault;
use crate::work::locked;
use std::collections::BTreeSet;

impl Outbox {
    /// Sets the end of each of these series to `to` if it ends later. Durable when this returns, for all of them or
    /// none.
    pub fn put_back(&self, series: &[SeriesKey], to: u64) -> Result<(), Fault> {
        self.renew(|state| state.put_back(series, to))
    }

    /// Makes a change that only the snapshot of a new segment records.
    pub(super) fn renew(&self, change: impl FnOnce(&mut State)) -> Result<(), Fault> {
        let mut writer = locked(&self.writer);
        writer.begin(&self.disk)?;
        change(&mut locked(&self.state));
        self.begin_segment(&mut writer)?;
        writer.failed = false;
        Ok(())
    }

    /// How many series end after this time, and the one that ends last.
    pub fn ahead_of(&self, time: u64) -> (usize, Option<SeriesKey>) {
        let state = locked(&self.state);
        let ends = state.series.iter().map(|(id, known)| (known.series.frontier, id));
        let ahead: Vec<(u64, u32)> = ends.filter(|(end, _)| *end > time).collect();
        let last = ahead.iter().max().map(|(_, id)| *id);
        let last = state.series.keys(last.into_iter()).next();
        (ahead.len(), last)
    }

    pub fn ends_after(&self, series: &SeriesKey, time: u64) -> bool {
        let known = locked(&self.state);
        known.series.get(&series.digest()).is_some_and(|known| known.series.frontier > time)
    }

    /// Forgets these series.
    pub fn remove_series(&self, series: &[SeriesKey]) -> Result<(), Fault> {
        let these = |all: &Table| series.iter().filter_map(|key| all.id(key)).collect();
        self.leave_out(these).map(drop)
    }

    /// Forgets the chosen series and returns them.
    pub(super) fn leave_out(
        &self,
        to_leave: impl FnOnce(&Table) -> BTreeSet<u32>,
    ) -> Result<Vec<SeriesKey>, Fault> {
        let mut left = Vec::new();
        self.change(|state| {
            let ids = to_leave(&state.series);
            left = state.series.keys(ids.iter().copied()).collect();
            (!ids.is_empty()).then(|| Change::Forget(ids.into_iter().collect()))
        })?;
        Ok(left)
    }
}
