//! Notes which epoch each epoch of a shard's keys continues, and finds what the sink has beyond that point: if there is
//! something, the store went back.
//!
//! An epoch is of the same life as the one that it continues, unless that one has requests beyond this point. Then the
//! new epoch's requests may overlap these, so it begins a life of its own.

use super::session::Session;
use super::store::{commit, NotTaken};
use super::values::Numeric;
use crate::outbox::{Epochs, GoesOn};
use crate::sink::AheadOfOutbox;
use tokio_postgres::{Error, Transaction};

/// Notes each epoch once. Returns the largest part that one of them did not know of.
pub(super) async fn goes_on(
    session: &mut Session,
    shard: u16,
    epochs: &Epochs,
) -> Result<AheadOfOutbox, NotTaken> {
    let Session { client, statements, connection, .. } = session;
    let transaction = client.transaction().await?;
    let noting = Noting { transaction, statements, shard: shard.into() };
    let mut most = AheadOfOutbox::default();
    for one in epochs.each() {
        let beyond = noting.note(one).await?;
        if beyond.requests > most.requests {
            most = beyond;
        }
    }
    commit(noting.transaction, &connection.warnings).await?;
    Ok(most)
}

struct Noting<'a> {
    transaction: Transaction<'a>,
    statements: &'a super::statements::Statements,
    shard: i32,
}

impl Noting<'_> {
    async fn note(&self, GoesOn { epoch, before, number }: GoesOn<'_>) -> Result<AheadOfOutbox, Error> {
        let (transaction, shard) = (&self.transaction, &self.shard);
        // From here on the row of the epoch before is locked.
        let life: i64 = transaction.query_one(&self.statements.first_life, &[shard, &before]).await?.get(0);
        let known = transaction.query_opt(&self.statements.life_of, &[shard, &epoch]).await?;
        let known: Option<i64> = known.map(|row| row.get(0));
        if known == Some(life) {
            return Ok(AheadOfOutbox::default());
        }
        let number = Numeric::from(number);
        let row = transaction.query_one(&self.statements.beyond, &[shard, &life, &number, &epoch]).await?;
        let requests = row.get::<_, i64>(0) as u64;
        match (known, requests) {
            (None, 0) => drop(transaction.execute(&self.statements.go_on, &[shard, &epoch, &life]).await?),
            (None, _) => {
                drop(transaction.query_one(&self.statements.first_life, &[shard, &epoch]).await?);
            }
            (Some(_), _) => {}
        }
        Ok(AheadOfOutbox { requests, since: row.get(1), until: row.get(2) })
    }
}
