//! Carries out `totxegun store restored`, for a store that was restored from a backup or has lost rows for good: the
//! shards continue with what is left.

use super::connection::connect;
use super::fault::StoreFault;
use super::session::{within, SILENT};
use super::state::FENCE;
use super::PostgresStore;
use tokio_postgres::{Client, Error};

/// This refers to files that may be gone. Requests that are sent again are recognised by their keys.
const DELIVERED: &str = "delete from totxegun_store.delivered";
const PIECES: &str = "delete from totxegun_store.piece where shard = any($1)";
const FILES: &str = "delete from totxegun_store.file where shard = any($1)";
const ANEW: &str = "update totxegun_store.shard set begun = false
    where begun and not exists (select from totxegun_store.file where file.shard = shard.shard) returning shard";

async fn go_on(client: &mut Client, anew: &[i32]) -> Result<Vec<u16>, Error> {
    let transaction = client.transaction().await?;
    transaction.execute(FENCE, &[&""]).await?;
    transaction.execute(DELIVERED, &[]).await?;
    for deletion in [PIECES, FILES] {
        transaction.execute(deletion, &[&anew]).await?;
    }
    let mut begun: Vec<u16> =
        transaction.query(ANEW, &[]).await?.iter().map(|row| row.get::<_, i32>(0) as u16).collect();
    transaction.commit().await?;
    begun.sort_unstable();
    Ok(begun)
}

impl PostgresStore {
    /// Each shard continues with what it has, and the shards in `anew` with nothing. Returns the shards that begin
    /// empty, including those that lost all their files.
    pub fn restored(&self, anew: &[u16]) -> Result<Vec<u16>, StoreFault> {
        self.admit()?;
        if let Some(none) = anew.iter().find(|shard| **shard >= self.cluster.shards) {
            return Err(StoreFault::NoShard { given: *none, shards: self.cluster.shards });
        }
        self.check_idle()?;
        let anew: Vec<i32> = anew.iter().map(|shard| i32::from(*shard)).collect();
        self.waited(async || {
            let (mut client, _driver) = connect(&self.reader.all.server).await?;
            within(SILENT, go_on(&mut client, &anew)).await
        })
    }
}
