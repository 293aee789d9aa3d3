//! Whether a store counts: it does not while a folder is being moved into it.
//!
//! `store/moving` changes this, and an instance checks it before it joins. Of the folder and the store exactly one
//! counts.

use super::connection::{connect, Connection};
use super::fault::StoreFault;
use super::schema::draw_epoch;
use super::session::{within, SILENT};
use super::terms::RELEASE;
use super::unknown_outcome::UnknownOutcome;
use super::PostgresStore;
use std::time::Duration;
use tokio_postgres::types::ToSql;
use tokio_postgres::{Client, Error};

/// How long a heartbeat must stand still before its instance counts as ended: more than six intervals.
const STILL: Duration = Duration::from_millis(3500);

#[derive(Clone, Debug, PartialEq, Eq)]
pub struct StoreState {
    /// A folder is being moved here, and the folder still counts.
    pub is_filling: bool,
    /// The epoch of the folder that is or was moved, and its path.
    pub id: String,
    pub folder: String,
}

/// A write, so that what it returns is durable.
const STANDING: &str = "update totxegun_store.cluster set id = id returning filling, move, folder";
const CHANGE: &str = "update totxegun_store.cluster set filling = $1, move = $2, folder = $3
    where filling = $4 and move = $5";
/// Fences all owners: none can write any more, or deliver into a sink in this database.
pub(super) const FENCE: &str =
    "update totxegun_store.shard set term = term + 1, connection_epoch = 0, owner = $1, epoch = ''";
const FILES: &str = "select count(*) from totxegun_store.file";
/// Also clears `begun`, because the caller deletes what an earlier try copied here.
const TAKE: &str =
    "update totxegun_store.shard set term = term + 1, connection_epoch = 0, owner = $3, epoch = $5, begun = false
    where shard = $1 and term = $2
    and exists (select from totxegun_store.cluster where move = $4 and filling)";
/// The owner's name during a move.
const MOVER: &str = "store move";

impl StoreState {
    /// Why no service may start on the store; none if one may.
    pub fn refusal(&self) -> Option<String> {
        let folder = &self.folder;
        self.is_filling.then(|| {
            format!(
                "folder {folder} is being moved into this store, which does not count yet: call `totxegun store move --from \
                 {folder} ADDRESS` again; to give that up, `drop schema totxegun_store cascade` and `totxegun store init`"
            )
        })
    }
}

/// The values for `CHANGE`.
fn values_of<'a>(seen: &'a StoreState, to: &'a StoreState) -> [&'a (dyn ToSql + Sync); 5] {
    [&to.is_filling, &to.id, &to.folder, &seen.is_filling, &seen.id]
}

async fn begin_filling(client: &mut Client, seen: &StoreState, to: &StoreState) -> Result<bool, Error> {
    let transaction = client.transaction().await?;
    if transaction.execute(CHANGE, &values_of(seen, to)).await? == 0 {
        return Ok(true); // the state has changed, or the change was already made: the caller reads which
    }
    transaction.execute(FENCE, &[&MOVER]).await?;
    let is_unused = transaction.query_one(FILES, &[]).await?.get::<_, i64>(0) == 0;
    if is_unused {
        transaction.commit().await?;
    }
    Ok(is_unused)
}

impl Connection {
    async fn standing(&self) -> Result<StoreState, UnknownOutcome> {
        let row = self.told(STANDING, &[]).await?;
        Ok(StoreState { is_filling: row.get(0), id: row.get(1), folder: row.get(2) })
    }
}

impl PostgresStore {
    pub fn standing(&self) -> Result<StoreState, StoreFault> {
        self.waited(async || self.taker.standing().await)
    }

    /// Passes if the store counts.
    pub(super) fn admit(&self) -> Result<(), StoreFault> {
        match self.standing()?.refusal() {
            Some(why) => Err(StoreFault::Moved(why)),
            None => Ok(()),
        }
    }

    /// Changes the state if it is still as it was seen; returns the state after that.
    pub fn change(&self, seen: &StoreState, to: &StoreState) -> Result<StoreState, StoreFault> {
        self.waited(async || {
            self.taker.write(CHANGE, &values_of(seen, to)).await?;
            self.taker.standing().await
        })
    }

    /// Marks the store as being filled if its state is still as it was seen, and returns the state after that. None if
    /// any shard has files. One transaction fences all owners and then looks for files, so nothing can be written
    /// between the look and the change.
    pub fn begin_filling(
        &self,
        seen: &StoreState,
        to: &StoreState,
    ) -> Result<Option<StoreState>, StoreFault> {
        self.waited(async || {
            let (mut client, _driver) = connect(&self.taker.all.server).await?;
            match within(SILENT, begin_filling(&mut client, seen, to)).await? {
                true => self.taker.standing().await.map(Some),
                false => Ok(None),
            }
        })
    }

    /// Passes if no instance runs.
    pub fn check_idle(&self) -> Result<(), StoreFault> {
        match &self.running(STILL)?[..] {
            [] => Ok(()),
            running => Err(StoreFault::Running(running.join(" and "))),
        }
    }

    /// The instances whose heartbeats continue. Takes `within` if there are any rows of instances.
    pub fn running(&self, within: Duration) -> Result<Vec<String>, StoreFault> {
        self.waited(async || {
            let (before, _) = self.taker.instances().await?;
            if before.is_empty() {
                return Ok(Vec::new());
            }
            tokio::time::sleep(within).await;
            let (after, _) = self.taker.instances().await?;
            let goes_on = after.into_iter().filter(|one| !before.contains(one));
            Ok(goes_on.map(|one| one.name).collect())
        })
    }

    /// Takes a shard for a move. No instance can take it until the move is done.
    pub fn take_to_move(&self, shard: u16, id: &str) -> Result<u64, StoreFault> {
        let taken = self.waited(async || {
            let rows = self.taker.shards().await?;
            let seen = rows.iter().find(|row| row.shard == shard).map_or(0, |row| row.term);
            let epoch = draw_epoch()?;
            let values: [&(dyn ToSql + Sync); 5] = [&i32::from(shard), &(seen as i64), &MOVER, &id, &epoch];
            let taken = self.taker.write(TAKE, &values).await?;
            Ok((taken == 1).then(|| self.note_taken(shard, seen + 1, epoch)))
        });
        taken?.ok_or(StoreFault::Meanwhile)
    }

    /// Releases a shard that was taken for a move.
    pub fn release_moved(&self, shard: u16, term: u64) -> Result<(), StoreFault> {
        let release = async || self.taker.write(RELEASE, &[&i32::from(shard), &(term as i64), &MOVER]).await;
        match self.waited(release)? {
            1 => Ok(()),
            _ => Err(StoreFault::Meanwhile),
        }
    }
}
