//! Moves the contents of a folder into an empty store; `command` calls it for `totxegun store move`.
//!
//! At any moment exactly one of the two counts. First the store is marked as being filled: no instance starts on it,
//! and the folder counts. After everything is copied, the folder is marked as moved: no service starts on it any more.
//! Then the store counts. After a kill the same command continues: what was copied before never counted, so it is
//! deleted and copied again; if the folder is already marked as moved, only the last step is left.
//!
//! Series, with owners, ends and runs, go to the shards of their resources. So do posts that are in no group, split if
//! their resources lie in several shards. Waiting requests keep their bytes and keys in the store's first shard, which
//! continues their numbers; dead letters go there too.

mod content;
mod posts;
mod target;

use super::postgres::{Copies, PostgresStore, Server, StoreFault, StoreState};
use crate::storage::{Durability, Fault, Folder, FolderFault};
use content::Content;
use posts::Posts;
use std::path::{Path, PathBuf};
use target::To;

const USED: &str =
    "the store is not empty, and a folder can be moved only into a store that was never used: make one in \
    another database by `totxegun store init`";

/// The text of another fault, which needs no context.
#[derive(Debug, thiserror::Error)]
#[error("{0}")]
pub struct MoveFault(String);

macro_rules! from {
    ($($fault:ty),*) => {
        $(impl std::convert::From<$fault> for MoveFault {
            fn from(fault: $fault) -> MoveFault {
                MoveFault(fault.to_string())
            }
        })*
    };
}

from!(StoreFault, FolderFault, Fault, serde_json::Error);

fn refused<T>(why: impl Into<String>) -> Result<T, MoveFault> {
    Err(MoveFault(why.into()))
}

/// How much was moved.
#[derive(Clone, Copy, Debug, Default, PartialEq, Eq)]
pub struct Moved {
    pub series: usize,
    pub requests: u64,
    pub posts: u64,
    pub letters: u64,
}

/// The address as commands take it, without the password.
pub fn address_of(server: &Server) -> String {
    format!("postgres://{server}")
}

/// Moves a folder into an empty store. None if that was done before.
pub fn from_folder(folder: &Path, server: &Server, copies: Copies) -> Result<Option<Moved>, MoveFault> {
    let path = absolute(folder)?;
    if !path.join("version").exists() {
        return refused(format!(
            "{} is not a folder of totxegun, since it has no file `version`: give the folder that was \
            the service's --data",
            path.display()
        ));
    }
    let store = PostgresStore::look_into(server, copies)?;
    let folder = match Folder::open(&path, Durability::Disk) {
        // A store that another, killed move has begun has the folder's epoch too, and must not start to count.
        Err(FolderFault::Moved { epoch, store: moved_to, .. })
            if moved_to == address_of(server) && store.standing()?.id == epoch =>
        {
            // If the previous call was killed, this mark may only be in memory.
            std::fs::File::open(&path).and_then(|folder| folder.sync_all()).map_err(StoreFault::System)?;
            decide(&store)?;
            return Ok(None);
        }
        opened => opened?,
    };
    let content = Content::of_folder(&folder)?;
    // Copies of the folder draw another epoch; only a copy of the whole disk has the same one.
    let id = folder.epoch();
    begin(&store, StoreState { is_filling: true, id: id.clone(), folder: path.display().to_string() })?;
    let moved = fill(&folder, &content, &store, &id)?;
    folder.set_moved(&address_of(server))?;
    decide(&store)?;
    Ok(Some(moved))
}

fn absolute(folder: &Path) -> Result<PathBuf, MoveFault> {
    let found = std::path::absolute(folder).map_err(StoreFault::System)?;
    match found.to_str() {
        Some(text) if !text.contains(char::is_control) => Ok(found),
        _ => refused("the folder's path is not one line of UTF-8: rename the folder"),
    }
}

/// Marks the store as being filled. From here on no instance runs on it or starts on it.
fn begin(store: &PostgresStore, to: StoreState) -> Result<(), MoveFault> {
    let seen = store.standing()?;
    match seen.is_filling && seen.id == to.id {
        true => change(store, &seen, to)?, // the folder may have been moved in the meantime
        false => {
            if let Some(why) = seen.refusal() {
                return refused(why);
            }
            store.check_idle()?;
            let begun = store.begin_filling(&seen, &to)?;
            check_meanwhile(begun.ok_or_else(|| MoveFault(USED.into()))?, to)?;
        }
    }
    Ok(store.check_idle()?)
}

/// Makes the store count: it has everything, and the folder is marked as moved.
fn decide(store: &PostgresStore) -> Result<(), MoveFault> {
    let seen = store.standing()?;
    change(store, &seen, StoreState { is_filling: false, ..seen.clone() })
}

fn change(store: &PostgresStore, seen: &StoreState, to: StoreState) -> Result<(), MoveFault> {
    check_meanwhile(store.change(seen, &to)?, to)
}

fn check_meanwhile(now: StoreState, to: StoreState) -> Result<(), MoveFault> {
    match now == to {
        true => Ok(()),
        false => Err(StoreFault::Meanwhile.into()),
    }
}

fn fill(folder: &Folder, content: &Content, store: &PostgresStore, id: &str) -> Result<Moved, MoveFault> {
    let shards = store.cluster.shards;
    let all: Result<Vec<To>, MoveFault> = (0..shards).map(|number| To::shard(store, number, id)).collect();
    let mut all = all?;
    let mut moved = Moved { series: content.series.len(), ..Moved::default() };
    for to in &all {
        to.outbox.begin_with(content.beginning(to.number, shards))?;
        if to.number == 0 {
            moved.requests = target::go_on(&to.outbox, &content.outbox)?;
            moved.letters = to.take_letters(&folder.dead()?)?;
        }
    }
    let mut posts = Posts::new(shards);
    posts.each(content, |number, post, names| {
        all.iter_mut().filter(|to| to.number == number).try_for_each(|to| to.put(post, names))
    })?;
    moved.posts = posts.count;
    for mut to in all {
        to.sync()?;
        store.release_moved(to.number, to.term)?;
    }
    if let Some(sink) = folder.sink() {
        store.set_sink(&store.sink()?, &sink.text()?)?;
    }
    Ok(moved)
}
