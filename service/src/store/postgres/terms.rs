//! The rows of instances and shards: heartbeats, and which instance owns which shard under which term.
//!
//! `cluster` reads and changes them through `Member`. Each takeover raises the term and draws an epoch, which fences
//! the previous owner.

use super::connection::Connection;
use super::schema::draw_epoch;
use super::session::within;
use super::unknown_outcome::UnknownOutcome;
use super::{copies, PostgresStore};
use crate::cluster::terms::{Instance, InstanceReport, Row};
use std::time::{Duration, SystemTime, UNIX_EPOCH};
use tokio_postgres::types::ToSql;
use tokio_postgres::Row as DatabaseRow;

/// The time limit of a read: reads wait for no lock and no standby, so a server that is silent for longer is lost.
const READ: Duration = Duration::from_secs(5);

/// A process that begins takes the beats of one that began long before away. One that goes on has them again with its next beat, and
/// they stay then: otherwise the eighth after it would not see it.
const BEAT: &str = "insert into totxegun_store.instance as i (name, address, operate, version, beat, life, lives, told)
    values ($1, $2, $3, $4, 1, greatest($6::bigint, 1), jsonb_build_object(greatest($6::bigint, 1), 1), $5)
    on conflict (name) do update set beat = i.beat + 1, address = excluded.address, operate = excluded.operate,
    version = excluded.version, told = excluded.told, life = greatest(i.life, $6) + case $6 when 0 then 1 else 0 end,
    lives = (select case $6 when 0 then i.lives - (i.life - 8)::text else i.lives end
        || jsonb_build_object(number, coalesce((i.lives ->> number::text)::bigint, 0) + 1)
        from (values (case $6 when 0 then i.life + 1 else $6 end)) as this (number))
    returning life";
/// Also returns the server's time, in microseconds since 1970.
const INSTANCES: &str = "select name, address, version, beat, told, operate, (extract(epoch from clock_timestamp()) * 1e6)::bigint,
    life, lives::text
    from totxegun_store.instance";
const SHARDS: &str = "select shard, term, owner from totxegun_store.shard order by shard";
/// Takes nothing while a folder is being moved into the store.
const TAKE: &str =
    "update totxegun_store.shard set term = term + 1, connection_epoch = 0, owner = $3, epoch = $4 where shard = $1 and term = $2
    and exists (select from totxegun_store.cluster where not filling)";
/// Checks the owner too: after a store lost a takeover, another instance may have the same term.
pub(super) const RELEASE: &str =
    "update totxegun_store.shard set owner = '' where shard = $1 and term = $2 and owner = $3";
const LEAVE: &str = "delete from totxegun_store.instance where name = $1";
/// A row whose heartbeat has continued stays.
const FORGET: &str = "delete from totxegun_store.instance where name = $1 and beat = $2";

impl Connection {
    /// A write. On an error it may have been done, or may still be done later.
    pub(super) async fn write(
        &self,
        text: &str,
        values: &[&(dyn ToSql + Sync)],
    ) -> Result<u64, UnknownOutcome> {
        let session = self.session().await?;
        self.heard(&session, session.written(session.client.execute(text, values))).await
    }

    /// A write that returns a row.
    pub(super) async fn told(
        &self,
        text: &str,
        values: &[&(dyn ToSql + Sync)],
    ) -> Result<DatabaseRow, UnknownOutcome> {
        let session = self.session().await?;
        let answer = session.written(session.client.query_one(text, values));
        self.heard(&session, session.while_there(answer)).await
    }

    async fn read<T>(&self, text: &str, each: impl Fn(&DatabaseRow) -> T) -> Result<Vec<T>, UnknownOutcome> {
        let session = self.session().await?;
        let rows = self.heard(&session, within(READ, session.client.query(text, &[]))).await?;
        Ok(rows.iter().map(each).collect())
    }

    /// All instances, and how far this machine's clock is ahead of the server's; none if there are no instances.
    pub(super) async fn instances(&self) -> Result<(Vec<Instance>, Option<i64>), UnknownOutcome> {
        let instance = |row: &DatabaseRow| {
            let one = Instance {
                name: row.get(0),
                address: row.get(1),
                version: row.get(2),
                beat: row.get::<_, i64>(3) as u64,
                told: serde_json::from_str(row.get(4)).unwrap_or_default(),
                operate: row.get(5),
                life: row.get::<_, i64>(7) as u64,
                lives: serde_json::from_str(row.get(8)).unwrap_or_default(),
            };
            (one, row.get::<_, i64>(6))
        };
        let before = microseconds();
        let (all, times): (Vec<Instance>, Vec<i64>) =
            self.read(INSTANCES, instance).await?.into_iter().unzip();
        let after = microseconds();
        Ok((all, times.first().map(|there| ahead(before, *there, after))))
    }

    pub(super) async fn shards(&self) -> Result<Vec<Row>, UnknownOutcome> {
        let owned = |row: &DatabaseRow| Row {
            shard: row.get::<_, i32>(0) as u16,
            term: row.get::<_, i64>(1) as u64,
            owner: row.get(2),
        };
        self.read(SHARDS, owned).await
    }
}

/// By this machine's clock, since 1970.
fn microseconds() -> i64 {
    let since = SystemTime::now().duration_since(UNIX_EPOCH).unwrap_or_default();
    since.as_micros() as i64
}

/// How far a clock is ahead at least, if it said `before` and `after` around the moment when another one said `there`;
/// less than 0 if it is behind.
fn ahead(before: i64, there: i64, after: i64) -> i64 {
    match (before - there, after - there) {
        (earliest, _) if earliest > 0 => earliest,
        (_, latest) if latest < 0 => latest,
        _ => 0,
    }
}

impl PostgresStore {
    /// Adds one to the heartbeat of an instance; it is committed if this returns `Ok`. `life` is the number of this
    /// process among those of its name, or 0 for a new process. Returns the highest such number.
    pub async fn heartbeat(
        &self,
        name: &str,
        address: &str,
        operate: &str,
        told: InstanceReport,
        life: u64,
    ) -> Result<u64, UnknownOutcome> {
        let told = serde_json::to_string(&told).unwrap_or_default(); // numbers and strings always serialise
        let (version, life) = (env!("CARGO_PKG_VERSION"), life as i64);
        let values: [&(dyn ToSql + Sync); 6] = [&name, &address, &operate, &version, &told, &life];
        Ok(self.beater.told(BEAT, &values).await?.get::<_, i64>(0) as u64)
    }

    /// All instances, and how far this machine's clock is ahead of the server's; none if there are no instances.
    pub async fn instances(&self) -> Result<(Vec<Instance>, Option<i64>), UnknownOutcome> {
        self.beater.instances().await
    }

    pub async fn shards(&self) -> Result<Vec<Row>, UnknownOutcome> {
        self.beater.shards().await
    }

    /// Takes the shard under the term after the one that was seen, with a new epoch. Returns the new term, or none if
    /// another instance was first. If the outcome is unknown, nothing counts as taken: the next try reads the term, and
    /// a late commit of this one finds another term.
    pub async fn take(&self, shard: u16, seen: u64, owner: &str) -> Result<Option<u64>, UnknownOutcome> {
        let epoch = draw_epoch()?;
        let rows = self.taker.write(TAKE, &[&i32::from(shard), &(seen as i64), &owner, &epoch]).await?;
        Ok((rows == 1).then(|| self.note_taken(shard, seen + 1, epoch)))
    }

    /// Releases the shard if it still has this term and owner. The owner must have stopped writing, since the term
    /// stays.
    pub async fn release(&self, shard: u16, term: u64, owner: &str) -> Result<(), UnknownOutcome> {
        self.taker.write(RELEASE, &[&i32::from(shard), &(term as i64), &owner]).await.map(drop)
    }

    /// If the database is silent, the row stays, and later counts as that of an instance that is gone.
    pub async fn leave(&self, name: &str) -> Result<(), UnknownOutcome> {
        self.beater.write(LEAVE, &[&name]).await.map(drop)
    }

    /// Deletes the row of an instance that is gone, if its heartbeat has not continued; returns whether it did.
    pub async fn remove_row(&self, name: &str, beat: u64) -> Result<bool, UnknownOutcome> {
        Ok(self.taker.write(FORGET, &[&name, &(beat as i64)]).await? == 1)
    }

    /// How many servers have the current commits; none if this role may not see that. This read may queue behind long
    /// ones or a write that waits for a standby, so its timeout says nothing about other connections.
    pub async fn copies(&self) -> Result<Option<u64>, UnknownOutcome> {
        let session = self.reader.session().await?;
        let answer = within(READ, copies::count(&session.client)).await;
        if let Err(doubt) = &answer {
            self.reader.leave_after(&session, doubt).await;
        }
        answer
    }
}

#[cfg(test)]
mod tests {
    use super::*;

    /// A late answer does not make a clock look wrong.
    #[test]
    fn a_clock_is_as_far_off_as_it_is_at_least() {
        for (before, there, after, found) in [
            (100, 105, 110, 0),
            (100, 100, 100, 0),
            (100, 40, 110, 60),
            (100, 170, 110, -60),
            (100, 4_900, 5_100, 0),
            (100, 6_000, 5_100, -900),
        ] {
            assert_eq!(ahead(before, there, after), found, "{before} {there} {after}");
        }
    }
}
