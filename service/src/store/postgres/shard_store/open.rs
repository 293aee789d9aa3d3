//! Reads a shard when it is taken.

use super::files::{Files, StoredPiece};
use super::owned_shard::OwnedShard;
use crate::storage::shard_store::Fenced;
use crate::store::postgres::connection::Connection;
use crate::store::postgres::session::{within, Owned, Session, SILENT};
use crate::store::postgres::unknown_outcome::UnknownOutcome;
use std::sync::atomic::Ordering::Relaxed;
use std::sync::Arc;
use tokio_postgres::Row;

const DELIVERED: &str = "select number from totxegun_store.delivered where shard = $1";
const NAMES: &str = "select file, name from totxegun_store.file where shard = $1";
/// In the order of writing, so that later pieces cover earlier ones.
const PIECES: &str =
    "select number, file, place, length from totxegun_store.piece where shard = $1 order by number";

/// Opens the shard after a committed write under its term. Repeats until the outcome is known.
pub async fn open(reader: &Connection, of: &Owned<'_>) -> Result<Arc<OwnedShard>, Fenced> {
    let ask = || {
        reader.behind_a_write(of, async |session, row| {
            let (files, delivered) = read(session, of).await?;
            Ok(OwnedShard::new(of, &row, delivered, files))
        })
    };
    let found = reader.all.until_known(&format!("shard {}", of.shard), ask).await;
    found.ok_or_else(|| {
        reader.all.counts.fenced.fetch_add(1, Relaxed);
        Fenced
    })
}

async fn read(session: &Session, of: &Owned<'_>) -> Result<(Files, u64), UnknownOutcome> {
    let (client, shard) = (&session.client, of.shard);
    let delivered = within(SILENT, client.query_opt(DELIVERED, &[&shard])).await?;
    let names = within(SILENT, client.query(NAMES, &[&shard])).await?;
    let name = |row: &Row| (row.get::<_, i64>(0) as u64, row.get(1));
    let pieces = within(SILENT, client.query(PIECES, &[&shard])).await?;
    let piece = |row: &Row| StoredPiece {
        number: row.get::<_, i64>(0) as u64,
        file: row.get::<_, i64>(1) as u64,
        at: row.get::<_, i64>(2) as u64,
        length: row.get::<_, i32>(3) as u64,
    };
    let files = Files::found(of.term as u64, names.iter().map(name).collect(), pieces.iter().map(piece));
    Ok((files, delivered.map_or(0, |row| row.get::<_, i64>(0) as u64)))
}
