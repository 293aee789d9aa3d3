//! A shard store while this instance owns it; `disk` makes each call through it. After it is fenced, no call reaches
//! the store.

use crate::latch::Latch;
use crate::storage::shard_store::{fenced, is_fenced, Fenced, ShardStore};
use crate::work::locked;
use std::io;
use std::sync::atomic::{AtomicU64, Ordering::SeqCst};
use std::sync::{Arc, Mutex, OnceLock};
use std::time::{Duration, Instant};
use tokio::sync::watch;

pub struct Owned {
    shard_store: Arc<dyn ShardStore>,
    /// How many changes are durable.
    durable: AtomicU64,
    /// When the last successful sync began: it proved that we owned the shard then.
    ours: Mutex<Instant>,
    lost: watch::Sender<bool>,
    /// Why we closed it; none if another instance took it.
    failure: OnceLock<String>,
}

impl Owned {
    /// For a shard that was just taken.
    pub fn new(shard_store: Arc<dyn ShardStore>) -> Owned {
        Owned {
            shard_store,
            durable: AtomicU64::new(0),
            ours: Mutex::new(Instant::now()),
            lost: watch::channel(false).0,
            failure: OnceLock::new(),
        }
    }

    /// Calls the store, unless the shard is fenced.
    pub fn call<T>(&self, does: impl FnOnce(&dyn ShardStore) -> io::Result<T>) -> io::Result<T> {
        if self.is_fenced() {
            return Err(fenced());
        }
        let done = does(&*self.shard_store);
        if done.as_ref().is_err_and(is_fenced) {
            self.lost.send_replace(true);
        }
        done
    }

    pub fn changes(&self) -> u64 {
        self.shard_store.changes()
    }

    pub fn touch(&self) -> u64 {
        self.shard_store.touch()
    }

    pub fn durable(&self) -> u64 {
        self.durable.load(SeqCst)
    }

    pub fn sync(&self) -> io::Result<()> {
        let began = Instant::now();
        let durable = self.call(|shard_store| shard_store.sync())?;
        // Changes made after `close` never reached the store, though `durable` may count them.
        if self.is_fenced() {
            return Err(fenced());
        }
        self.durable.fetch_max(durable, SeqCst);
        let mut ours = locked(&self.ours);
        *ours = began.max(*ours);
        Ok(())
    }

    /// Ends the shard as if it were fenced.
    pub fn close(&self, why: &str) {
        if !self.is_fenced() {
            self.failure.get_or_init(|| why.into());
        }
        self.lost.send_replace(true);
    }

    pub fn failure(&self) -> Option<&str> {
        self.failure.get().map(String::as_str)
    }

    /// Whether there are changes to sync.
    pub fn is_behind(&self) -> bool {
        self.durable() < self.changes() && !self.is_fenced()
    }

    /// How long ago a sync last proved that we own the shard.
    pub fn ours_before(&self) -> Duration {
        locked(&self.ours).elapsed()
    }

    pub fn under_way(&self) -> Duration {
        self.shard_store.under_way()
    }

    pub fn term(&self) -> Option<u64> {
        self.shard_store.owned_under()
    }

    pub fn is_fenced(&self) -> bool {
        *self.lost.borrow()
    }

    pub async fn fenced(&self) -> Fenced {
        self.lost.subscribe().wait_true().await;
        Fenced
    }
}
