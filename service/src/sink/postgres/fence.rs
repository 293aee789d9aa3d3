//! Fences earlier owners of a shard, if the sink is in the database that has the shards' rows. A request, and the note
//! that it was delivered, are one transaction. An earlier owner can't deliver any more, by its term and its epoch;
//! terms alone don't suffice, since a store that went back gives terms again.
//!
//! The note is in a row of its own beside the shard's row: each sync of the journal locks that one, and would wait for
//! the delivery.

use super::fault::Fault;
use super::store::{NotTaken, Writing};
use crate::postgres::identity;
use crate::sink::Forwarded;
use crate::storage::Tenure;
use tokio_postgres::{Client, Error, Statement};

/// Returns no row if another instance has the shard, under a later term or another epoch.
const DELIVERED: &str = "insert into totxegun_store.delivered as d (shard, term, number)
    select shard, $2::int8, $3::int8 from totxegun_store.shard where shard = $1::int4 and epoch = $4::text
    on conflict (shard) do update set term = excluded.term, number = excluded.number
    where d.term <= excluded.term and d.number <= excluded.number returning shard";
const OWNER: &str = "select term, epoch from totxegun_store.shard where shard = $1::int4";

pub(super) struct Fence {
    delivered: Statement,
    owner: Statement,
}

impl Fence {
    /// None unless the sink is in the store's database.
    pub async fn prepare(client: &Client, store: Option<String>) -> Result<Option<Fence>, Error> {
        if store.is_none() || identity(client).await? != store {
            return Ok(None);
        }
        let (delivered, owner) = (client.prepare(DELIVERED).await?, client.prepare(OWNER).await?);
        Ok(Some(Fence { delivered, owner }))
    }
}

impl Writing<'_> {
    /// Notes that all requests up to this one are delivered. If a part of it is left, it is not noted itself, since the
    /// part has to be kept first: the request then comes again, and its key gives the same answer.
    pub(super) async fn delivered(
        &self,
        request: &Forwarded,
        tenure: Option<&Tenure>,
        is_whole: bool,
    ) -> Result<(), NotTaken> {
        let Some((fence, Tenure { term, epoch })) = self.fence.zip(tenure) else {
            return Ok(());
        };
        let number = request.number - u64::from(!is_whole);
        let (shard, number) = (i32::from(request.shard), number as i64);
        let rows = self.rows(&fence.delivered, &[&shard, &(*term as i64), &number, &&**epoch]).await?;
        if !rows.is_empty() {
            return Ok(());
        }
        let rows = self.rows(&fence.owner, &[&shard]).await?;
        let owner = rows.first().map(|row| (row.get::<_, i64>(0), row.get::<_, String>(1)));
        let (now, drawn) = owner.unwrap_or_default();
        let why = format!(
            "shard {shard} was taken by another instance, under term {now} with epoch {drawn}: this one, under term {term} with epoch \
             {epoch}, delivers nothing more of it"
        );
        Err(Fault::told(why).into())
    }
}
