//! What posts have decided that are under way.

use super::{bit, units_of, Known, Named, Names, Unit, Units, FINER};
use std::fmt;
use std::sync::{Arc, RwLockWriteGuard};

/// What a post has decided, or hangs on. It goes with this, but where the post was taken.
#[derive(Debug, Default, PartialEq)]
pub struct Decided(Vec<Pending>);

struct Pending {
    units: Arc<Units>,
    named: Named,
    stays: bool,
}

impl Decided {
    /// Whether it stays once this is dropped.
    pub fn stays(&mut self, stays: bool) {
        self.0.iter_mut().for_each(|pending| pending.stays = stays);
    }

    /// Of memory, more or less.
    pub fn bytes(&self) -> usize {
        self.0.iter().map(|pending| size_of::<Pending>() + pending.named.0.len()).sum()
    }
}

impl Drop for Pending {
    fn drop(&mut self) {
        self.units.end(&self.named, self.stays);
    }
}

impl PartialEq for Pending {
    fn eq(&self, other: &Pending) -> bool {
        self.named == other.named
    }
}

impl fmt::Debug for Pending {
    fn fmt(&self, out: &mut fmt::Formatter<'_>) -> fmt::Result {
        self.named.fmt(out)
    }
}

impl Units {
    /// Holds it for a post; whether there was room. It is beside a finer one, if that decides: what is coarser than both may be taken
    /// in that, and would be taken in this from then on.
    pub(super) fn hold(
        self: &Arc<Units>,
        mut names: RwLockWriteGuard<'_, Names>,
        metric: &str,
        unit: Unit,
        decided: &mut Decided,
    ) -> bool {
        let coarsest = names.of(metric).coarsest(unit);
        let Some(known) = names.with_room(metric) else {
            return false;
        };
        match coarsest.is_none_or(|coarsest| coarsest == unit) {
            true => known.pending |= bit(unit),
            false => known.pending_beside |= bit(unit),
        }
        *names.pending.entry((metric.into(), unit)).or_default() += 1;
        self.note_change(&mut names, metric);
        decided.0.push(Pending { units: self.clone(), named: (metric.into(), unit), stays: false });
        true
    }

    /// A post that held it was taken, or not.
    fn end(&self, named: &Named, is_taken: bool) {
        let (mut names, (metric, unit)) = (self.write(), named);
        let is_last = names.is_last(named);
        if let Some(known) = names.units.get_mut(metric) {
            known.end(*unit, is_taken, is_last);
            known.decide_beside_nothing();
        }
        self.note_change(&mut names, metric);
    }
}

impl Known {
    fn end(&mut self, unit: Unit, is_taken: bool, is_last: bool) {
        let (taken, last) = (if is_taken { bit(unit) } else { 0 }, if is_last { bit(unit) } else { 0 });
        self.deciding |= taken & self.pending;
        self.beside |= taken & self.pending_beside;
        self.pending &= !last;
        self.pending_beside &= !last;
    }

    /// As a start finds them.
    pub(super) fn decide_beside_nothing(&mut self) {
        let others = self.deciding | self.pending;
        let is_alone = |unit: &Unit| others & FINER[unit.0] == 0;
        let alone = units_of(self.beside | self.pending_beside).filter(is_alone);
        let alone = alone.fold(0, |set, unit| set | bit(unit));
        self.deciding |= self.beside & alone;
        self.pending |= self.pending_beside & alone;
        self.beside &= !alone;
        self.pending_beside &= !alone;
    }
}

impl Names {
    /// Whether no other post holds it.
    fn is_last(&mut self, named: &Named) -> bool {
        match self.pending.get_mut(named) {
            Some(1) | None => self.pending.remove(named).is_some(),
            Some(holding) => {
                *holding -= 1;
                false
            }
        }
    }
}
