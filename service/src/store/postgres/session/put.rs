//! Writes several shards in one transaction: with one statement, or with several if there is much to write.

use super::{Session, SILENT};
use crate::store::postgres::shard_store::{PackedPiece, Write};
use crate::store::postgres::unknown_outcome::UnknownOutcome;
use std::collections::BTreeSet;
use tokio_postgres::types::ToSql;
use tokio_postgres::Error;

/// The most bytes of pieces in one statement.
const MOST: usize = 16 << 20;

impl Session {
    /// Writes these shards in one transaction and returns the shards whose writer was still the owner. Each statement
    /// gets the time limit of a single one.
    pub async fn put(&self, writes: &[&Write]) -> Result<BTreeSet<i32>, UnknownOutcome> {
        let parts = parts_of(writes);
        match &parts[..] {
            [only] => {
                // Both statements are sent at once, so the second answer comes right after the commit.
                let both = async {
                    let (done, settings) = tokio::join!(self.put_part(writes, only, true), self.settings());
                    Ok((done?, settings?))
                };
                self.sure(SILENT, both).await
            }
            _ => {
                let limit = SILENT * parts.len() as u32;
                let both = async { Ok((self.put_parts(writes, &parts).await?, self.settings().await?)) };
                self.sure(limit, both).await
            }
        }
    }

    /// Writes all parts, or none.
    async fn put_parts(&self, writes: &[&Write], parts: &[Vec<OfShard<'_>>]) -> Result<BTreeSet<i32>, Error> {
        self.client.batch_execute("begin").await?;
        let (mut done, mut is_whole) = (Ok(BTreeSet::new()), true);
        for (number, part) in parts.iter().enumerate() {
            done = self.put_part(writes, part, number == 0).await;
            is_whole = done.as_ref().is_ok_and(|done| done.len() == writes.len());
            if !is_whole {
                break;
            }
        }
        self.client.batch_execute(if is_whole { "commit" } else { "rollback" }).await?;
        done.map(|done| if is_whole { done } else { BTreeSet::new() })
    }

    async fn put_part(
        &self,
        writes: &[&Write],
        pieces: &[OfShard<'_>],
        is_first: bool,
    ) -> Result<BTreeSet<i32>, Error> {
        let shards: Vec<i32> = writes.iter().map(|write| write.owner.shard).collect();
        let terms: Vec<i64> = writes.iter().map(|write| write.owner.term).collect();
        let links: Vec<i64> = writes.iter().map(|write| write.owner.fence().connection_epoch).collect();
        let epochs: Vec<&str> = writes.iter().map(|write| &*write.owner.epoch).collect();
        let column =
            |of: fn(&PackedPiece) -> i64| -> Vec<i64> { pieces.iter().map(|(_, piece)| of(piece)).collect() };
        let of_shards: Vec<i32> = pieces.iter().map(|(shard, _)| *shard).collect();
        let (files, numbers, places) =
            (column(|piece| piece.file), column(|piece| piece.number), column(|piece| piece.place));
        let lengths: Vec<i32> = pieces.iter().map(|(_, piece)| piece.length).collect();
        let bytes: Vec<&[u8]> = pieces.iter().map(|(_, piece)| &piece.bytes[..]).collect();
        let mut values: Vec<&(dyn ToSql + Sync)> =
            vec![&shards, &terms, &links, &epochs, &of_shards, &files, &numbers, &places, &lengths, &bytes];
        let is_append = writes.iter().all(|write| !write.is_repeat && write.packed.only_appends());
        let named = || writes.iter().filter(|_| is_first);
        let gone = named().flat_map(|write| write.packed.gone.iter().map(|file| (write.owner.shard, *file)));
        let (gone_shards, gone): (Vec<i32>, Vec<i64>) = gone.unzip();
        let names =
            || named().flat_map(|write| write.packed.named.iter().map(|named| (write.owner.shard, named)));
        let (named_shards, named): (Vec<i32>, Vec<i64>) =
            names().map(|(shard, (file, _))| (shard, *file)).unzip();
        let names: Vec<&str> = names().map(|(_, (_, name))| name.as_str()).collect();
        let others: [&(dyn ToSql + Sync); 5] = [&gone_shards, &gone, &named_shards, &named, &names];
        let statement = match is_append {
            true => &self.append,
            false => {
                values.extend(others);
                &self.put
            }
        };
        let done = self.client.query(statement, &values).await?;
        Ok(done.iter().map(|row| row.get(0)).collect())
    }
}

/// A piece with its shard.
type OfShard<'w> = (i32, &'w PackedPiece);

/// Groups the pieces of the writes into statements, at least one.
fn parts_of<'w>(writes: &[&'w Write]) -> Vec<Vec<OfShard<'w>>> {
    let (mut parts, mut size) = (vec![Vec::new()], 0);
    let of_write = |write: &&'w Write| {
        let (shard, pieces) = (write.owner.shard, &write.packed.pieces);
        pieces.iter().map(move |piece| (shard, piece))
    };
    for (shard, piece) in writes.iter().flat_map(of_write) {
        size += piece.bytes.len();
        if size > MOST {
            parts.push(Vec::new());
            size = piece.bytes.len();
        }
        if let Some(part) = parts.last_mut() {
            part.push((shard, piece));
        }
    }
    parts
}
