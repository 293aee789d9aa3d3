//! A shard of the store that is being filled.

use super::MoveFault;
use crate::dead_letters::DeadLetters;
use crate::journal::{Journal, Names, Post};
use crate::outbox::Outbox;
use crate::storage::shard_store::ShardStore;
use crate::storage::Fault;
use crate::store::postgres::{PostgresShardStore, PostgresStore};
use std::path::Path;
use std::sync::Arc;

/// The approximate bytes that are written between two syncs.
const PIECE: u64 = 8 << 20;

pub struct To {
    pub number: u16,
    pub term: u64,
    journal: Journal,
    pub outbox: Outbox,
    dead: DeadLetters,
    /// Bytes that may not be durable yet.
    written: u64,
}

impl To {
    /// Takes a shard and deletes what an earlier try left in it.
    pub fn shard(store: &PostgresStore, number: u16, id: &str) -> Result<To, MoveFault> {
        let term = store.take_to_move(number, id)?;
        let shard_store = store.shard_store(number, term).map_err(Fault::from)?;
        wipe(&shard_store)?;
        let (journal, outbox, dead) = shard_store.open_files(&store.cluster.epoch)?;
        Ok(To { number, term, journal, outbox, dead, written: 0 })
    }

    pub fn put(&mut self, post: &Post, names: &dyn Names) -> Result<(), Fault> {
        self.journal.append(post, names);
        self.written += post.body.bytes();
        match self.written > PIECE {
            true => self.sync(),
            false => Ok(()),
        }
    }

    /// Copies the dead letters and returns how many there are.
    pub fn take_letters(&self, from: &DeadLetters) -> Result<u64, Fault> {
        let mut letters = 0;
        from.each(|key, bytes| {
            letters += 1;
            self.dead.put(key, &bytes)
        })?;
        Ok(letters)
    }

    /// Makes everything written so far durable.
    pub fn sync(&mut self) -> Result<(), Fault> {
        self.written = 0;
        self.journal.sync_up_to(self.journal.now());
        self.outbox.sync()
    }
}

/// Copies the waiting requests of another outbox and returns how many there are.
pub fn go_on(to: &Outbox, from: &Outbox) -> Result<u64, Fault> {
    let (mut requests, mut written) = (0, 0);
    from.each_group(|waits| {
        (requests, written) = (requests + waits.bodies.len() as u64, written + waits.bytes());
        to.go_on_with(waits)?;
        if written as u64 > PIECE {
            written = 0;
            to.sync()?;
        }
        Ok(())
    })?;
    Ok(requests)
}

/// Deletes all files of a shard.
fn wipe(shard_store: &Arc<PostgresShardStore>) -> Result<(), MoveFault> {
    let wiped = ["journal", "outbox", "dead-letters"].into_iter().try_for_each(|folder| {
        let folder = Path::new(folder);
        let mut names = shard_store.list(folder)?.into_iter();
        names.try_for_each(|name| shard_store.remove(&folder.join(name)))
    });
    let wiped = wiped.and_then(|()| shard_store.sync()).map(drop);
    wiped.map_err(|source| {
        let path = format!("shard {}", shard_store.shard()).into();
        Fault::Io { path, source }.into()
    })
}
