//! Secondary units of metrics, which do not influence the unit of a metric (`otlp/finer_units/units`). They are
//! recorded here because a start can't tell them from their series alone.

use super::changes::{Change, UnitOfMetric};
use super::Outbox;
use crate::storage::Fault;
use crate::work::locked;
use std::collections::BTreeSet;

impl Outbox {
    pub fn beside(&self) -> BTreeSet<UnitOfMetric> {
        locked(&self.state).facts.beside.clone()
    }

    /// Written before anything that follows; in a folder it is durable when this returns.
    pub fn put_beside(&self, units: &[UnitOfMetric]) -> Result<(), Fault> {
        self.change(|state| {
            let new = units.iter().filter(|unit| !state.facts.beside.contains(*unit));
            let new: Vec<UnitOfMetric> = new.cloned().collect();
            (!new.is_empty()).then_some(Change::Beside(new))
        })
        .map(drop)
    }

    /// Makes these units count as any others again.
    pub fn leave_beside(&self, units: &[UnitOfMetric]) -> Result<(), Fault> {
        if units.is_empty() {
            return Ok(());
        }
        self.renew(|state| {
            for unit in units {
                state.facts.beside.remove(unit);
            }
        })
    }
}
