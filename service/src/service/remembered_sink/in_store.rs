//! The sink as a store remembers it, for all its instances.

use super::super::Ended;
use super::Remembers;
use crate::storage::KnownSink;
use crate::store::postgres::PostgresStore;
use crate::work::locked;
use anyhow::{anyhow, Context};
use std::sync::{Arc, Mutex};
use std::time::Duration;
use tokio::runtime::{Handle, RuntimeFlavor};
use tokio::task::block_in_place;

/// A live instance sends a heartbeat within this time, and one that stalled for longer delivers nothing any more.
const STILL: Duration = Duration::from_secs(12);

pub struct InStore {
    store: Arc<PostgresStore>,
    /// As it was last read.
    known: Mutex<Option<KnownSink>>,
}

impl InStore {
    pub fn open(store: Arc<PostgresStore>) -> anyhow::Result<InStore> {
        let known = known(&store.sink()?)?;
        Ok(InStore { known: Mutex::new(known), store })
    }
}

/// Parses the store's record; none before any instance has set it.
fn known(text: &str) -> anyhow::Result<Option<KnownSink>> {
    KnownSink::of_text(text).with_context(|| {
        format!(
            "its sink {text:?} was written by an earlier build of totxegun, which this one can't read: use that build, or \
             give another --store"
        )
    })
}

impl Remembers for InStore {
    fn sink(&self) -> Option<KnownSink> {
        locked(&self.known).clone()
    }

    /// All instances deliver to one sink, so the first one that reaches it sets it for all.
    fn set_sink(&self, sink: KnownSink) -> Result<(), Ended> {
        let mut known = locked(&self.known);
        let text = |sink: &KnownSink| sink.text().context("the sink can't be recorded");
        let (before, now) = (known.as_ref().map_or(Ok(String::new()), text)?, text(&sink)?);
        let there = in_place(|| self.store.set_sink(&before, &now));
        *known = self::known(&there.context("the store can't be written")?)?;
        match &*known {
            Some(there) if there.is(&sink) || sink.id.is_none() && there.is_at(&sink) => Ok(()),
            there => {
                let there = there.as_ref().map_or("none".into(), KnownSink::to_string);
                let why = anyhow!(
                    "another instance delivers to {there}, but this one to {sink}: give all instances the \
                    same --sink"
                );
                Err(why.into())
            }
        }
    }

    /// Another running instance would still deliver to the old sink, and requests without an acknowledgement would go
    /// to both.
    fn may_change(&self) -> Result<(), Ended> {
        tracing::info!(seconds = STILL.as_secs(), "--new-sink: waiting to see whether another instance runs");
        let living = in_place(|| self.store.running(STILL)).context("the store can't be read")?;
        match &living[..] {
            [] => Ok(()),
            _ => Err(Ended::Other(anyhow!(
                "--new-sink is for one start while no other instance runs: stop {} first",
                living.join(", ")
            ))),
        }
    }

    fn store_database(&self) -> Option<String> {
        self.store.identity()
    }

    fn refusal(&self, known: &KnownSink, found: &str) -> String {
        format!(
            "the instances of this store deliver to {known}, but --sink is now {found}. Set --sink (or TOTXEGUN_SINK) to \
             the old sink, or restore it; or stop all instances, and give one --new-sink for one start: the waiting \
             requests and all later ones go into the new sink"
        )
    }
}

/// Blocks this thread. The PostgreSQL sink has a runtime of its own on a thread with nothing else to do.
fn in_place<T>(work: impl FnOnce() -> T) -> T {
    match Handle::try_current().map(|handle| handle.runtime_flavor()) {
        Ok(RuntimeFlavor::MultiThread) => block_in_place(work),
        _ => work(),
    }
}

#[cfg(test)]
mod tests {
    use super::{in_place, known};
    use crate::storage::KnownSink;
    use tokio::runtime::Builder;

    /// A record that can't be read must not count as none: waiting requests could then go to any sink.
    #[test]
    fn a_sink_of_an_earlier_build_is_refused_by_name() {
        let sink = KnownSink::new("sqlite", "/a.db");
        let [nothing, there] = ["", &sink.text().unwrap()].map(|text| known(text).unwrap());
        assert_eq!((nothing, there), (None, Some(sink)));
        let why = format!("{:#}", known("sqlite /a.db").unwrap_err());
        assert!(why.contains("earlier build") && why.contains("another --store"), "{why}");
    }

    #[test]
    fn it_is_waited_for_on_every_runtime() {
        for mut builder in [Builder::new_current_thread(), Builder::new_multi_thread()] {
            let runtime = builder.build().unwrap();
            assert_eq!(runtime.block_on(async { in_place(|| 1) }), 1);
        }
        assert_eq!(in_place(|| 1), 1);
    }
}
