//! Makes sure that the sink is the one that the folder or the store (`in_store`) remembers, or that the operator has
//! declared a new one (`--new-sink`).

mod in_store;

use super::Ended;
use crate::admin::{Act, Actor, Asked, AuditLog};
use crate::outbox::Outbox;
use crate::sink::{self, Address, Memory, Retention, Sink};
use crate::storage::{Folder, KnownSink};
use anyhow::{anyhow, Context};
pub(super) use in_store::InStore;
use std::sync::atomic::{AtomicBool, Ordering::Relaxed};
use std::sync::Arc;

/// Where the sink is remembered: in a folder or a store.
pub(super) trait Remembers: Send + Sync + 'static {
    fn sink(&self) -> Option<KnownSink>;

    /// On success this is durable; on failure it is not done.
    fn set_sink(&self, sink: KnownSink) -> Result<(), Ended>;

    /// Fails if the sink may not be replaced now; for a folder it always may.
    fn may_change(&self) -> Result<(), Ended> {
        Ok(())
    }

    /// How many requests wait, if that is known.
    fn waiting(&self) -> Option<u64> {
        None
    }

    fn refusal(&self, known: &KnownSink, found: &str) -> String;

    /// For a store, which database it is in.
    fn store_database(&self) -> Option<String> {
        None
    }
}

pub(super) struct InFolder {
    pub folder: Arc<Folder>,
    /// The outbox whose requests go into the sink.
    pub outbox: Arc<Outbox>,
}

struct Remembered {
    place: Box<dyn Remembers>,
    /// The sink of this start, whose id is not known yet.
    now: KnownSink,
    /// Set until the new sink was recorded.
    takes_new: AtomicBool,
    acts: Arc<AuditLog>,
}

/// The sink settings of a start, and the log for a sink change.
pub(super) struct SinkChoice<'a> {
    pub address: &'a Address,
    pub retention: Retention,
    pub takes_new: bool,
    pub acts: Arc<AuditLog>,
}

impl SinkChoice<'_> {
    /// Opens the sink of a folder, or of a store's instances.
    pub fn open(self, place: Box<dyn Remembers>) -> Result<Arc<dyn Sink>, Ended> {
        let (now, takes_new) = (self.address.known(), AtomicBool::new(self.takes_new));
        let memory = Arc::new(Remembered { place, now, takes_new, acts: self.acts });
        memory.look_at_kind()?;
        let sink = sink::open(self.address, self.retention, memory.clone());
        let sink = sink.context("the sink can't be opened")?;
        memory.look_at_address()?;
        Ok(sink)
    }
}

impl Remembered {
    /// Checked first, so that nothing is made at an address that belongs to another kind of sink.
    fn look_at_kind(&self) -> Result<(), Ended> {
        match self.place.sink() {
            Some(known) if known.kind != self.now.kind && !self.takes_new.load(Relaxed) => {
                Err(anyhow!(self.refusal(&known, &self.now)).into())
            }
            _ => Ok(()),
        }
    }

    /// Checks a sink whose id is unknown, because it can't be reached or has none, by its address. A sink that was
    /// reached has been recorded by now.
    fn look_at_address(&self) -> Result<(), Ended> {
        let takes_new = self.takes_new.load(Relaxed);
        match self.place.sink() {
            Some(known) if known == self.now || !takes_new && known.is_at(&self.now) => Ok(()),
            Some(known) if !takes_new => Err(anyhow!(self.refusal(&known, &self.now)).into()),
            known => self.remember(known, self.now.clone()),
        }
    }

    fn remember(&self, before: Option<KnownSink>, now: KnownSink) -> Result<(), Ended> {
        let left = before.filter(|before| self.takes_new.load(Relaxed) && !before.is(&now));
        if left.is_some() {
            self.place.may_change()?;
        }
        let act = left
            .as_ref()
            .map(|left| Asked::new("new sink", format!("{now} instead of {left}")))
            .map(|asked| Act::new(Actor::User(None), asked));
        if let Some(act) = &act {
            self.acts.begins(act);
        }
        let recorded = self.place.set_sink(now.clone());
        if let (Some(act), Err(why)) = (&act, &recorded) {
            self.acts.ended(act, &why.to_string());
        }
        recorded?;
        if let (Some(act), Some(left)) = (act, left) {
            let waiting = self.place.waiting();
            tracing::warn!(
                sink = %now,
                former = %left,
                waiting,
                "--new-sink: from now on everything is delivered to this sink, also the waiting requests; the former sink \
                 keeps what it has"
            );
            let waited = waiting.map_or(String::new(), |waiting| format!("; waiting requests: {waiting}"));
            self.acts.ended(&act, &format!("done{waited}"));
        }
        self.takes_new.store(false, Relaxed);
        Ok(())
    }

    fn refusal(&self, known: &KnownSink, now: &KnownSink) -> String {
        let found = match (&known.id, &now.id) {
            (Some(_), None) if known.is_at(now) => format!("{now}, which is empty or an older copy"),
            _ => now.to_string(),
        };
        self.place.refusal(known, &found)
    }
}

impl Remembers for InFolder {
    fn sink(&self) -> Option<KnownSink> {
        self.folder.sink()
    }

    fn set_sink(&self, sink: KnownSink) -> Result<(), Ended> {
        Ok(self.folder.set_sink(sink)?)
    }

    fn waiting(&self) -> Option<u64> {
        Some(self.outbox.waiting().0)
    }

    fn refusal(&self, known: &KnownSink, found: &str) -> String {
        format!(
            "this folder delivers to {known}, but --sink is now {found}; waiting requests: {}. Set --sink (or \
             TOTXEGUN_SINK) to the old sink, or restore it; or give --new-sink for one start: the waiting requests and all \
             later ones go into the new sink",
            self.waiting().unwrap_or_default()
        )
    }
}

impl Memory for Remembered {
    fn store_database(&self) -> Option<String> {
        self.place.store_database()
    }

    fn admit(&self, id: Option<&str>, is_replaced: bool) -> Result<(), String> {
        let now = self.now.with_id(id);
        let known = self.place.sink();
        let may_be = is_replaced || self.takes_new.load(Relaxed);
        match known {
            Some(known) if known == now => {
                self.takes_new.store(false, Relaxed);
                Ok(())
            }
            Some(known) if !may_be && !known.is(&now) => Err(self.refusal(&known, &now)),
            _ if id.is_none() => Ok(()), // the sink makes one now
            known => self.remember(known, now).map_err(|ended| ended.to_string()),
        }
    }
}

#[cfg(test)]
mod tests;
