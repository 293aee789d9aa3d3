//! Takes one request, whole or not at all, in one transaction; or several.

use super::fault::Fault;
use super::fence::Fence;
use super::periods;
use super::point_rows::{hour_rows, interval_row, last_hour, late_rows, long_rows, metric_rows, total_row};
use super::schema::KNOWN;
use super::series::Known;
use super::session::Session;
use super::statements::Statements;
use super::values::{NewRow, Numeric};
use crate::postgres::Warnings;
use crate::sink::left_out::LeftOut;
use crate::sink::periods::Closed;
use crate::sink::sql::{
    self, closed_of, Adding, Content, Late, OfSeries, Outcome, Place, Request, Sent, Stored, Taken,
};
use crate::sink::{Forwarded, KnowsOwners, RenameSender, Rewind};
use crate::storage::Tenure;
use tokio_postgres::types::ToSql;
use tokio_postgres::{Row, Statement, Transaction};

pub(super) type NotTaken = sql::NotTaken<Fault>;

/// Takes one request without points that begin too early, which are returned; or several whole. After an error nothing
/// of it is there, unless the answer to the commit was lost; then the key shows it the next time.
pub(super) async fn take(
    session: &mut Session,
    requests: &[Forwarded],
    sent: Sent,
    tenure: Option<&Tenure>,
    contents: Vec<Content>,
) -> Result<LeftOut, NotTaken> {
    let mut writing = Writing::begin(session).await?;
    let both = requests.iter().zip(contents);
    let all = both.map(|(request, content)| Request::with(request, sent, content)).collect();
    let outcome = sql::take(&mut writing, all).await?;
    if let (Outcome::New(left), Some(last)) = (&outcome, requests.last()) {
        writing.delivered(last, tenure, left.is_empty()).await?;
    }
    // No content can be at fault any more. After a restart a server may show what its standby does not have, so even a
    // request that was there is believed only after a commit.
    commit(writing.transaction, writing.warnings).await?;
    outcome.left()
}

pub(super) struct Writing<'a> {
    transaction: Transaction<'a>,
    warnings: &'a Warnings,
    pub(super) statements: &'a Statements,
    owners: Option<&'a dyn KnowsOwners>,
    pub(super) fence: Option<&'a Fence>,
}

impl sql::Transaction for Writing<'_> {
    type Row = Known;
    type Fault = Fault;

    async fn make_requests(&mut self, all: &[Request<'_>]) -> Result<Option<Place>, NotTaken> {
        let (shard, epoch) = (i32::from(all[0].of.shard), &all[0].of.epoch);
        let numbers: Vec<Numeric> = all.iter().map(|one| one.of.number.into()).collect();
        let points: Vec<i64> = all.iter().map(|one| one.points() as i64).collect();
        let digests: Vec<&[u8]> = all.iter().map(|one| &one.digest[..]).collect();
        let columns: [&(dyn ToSql + Sync); 6] = [&shard, epoch, &numbers, &points, &digests, &KNOWN];
        let made = self.rows(&self.statements.make_requests, &columns);
        let (_, made) = tokio::try_join!(self.hold_periods(), made)?;
        if made.len() != all.len() {
            return Ok(None);
        }
        let life = match made[0].get(1) {
            Some(life) => life,
            None => self.transaction.query_one(&self.statements.first_life, &[&shard, epoch]).await?.get(0),
        };
        Ok(Some(Place::of(all, made.iter().map(|row| row.get(0)), life)))
    }

    async fn taken(&mut self, request: &Forwarded) -> Result<Taken, NotTaken> {
        let (shard, number) = (i32::from(request.shard), Numeric::from(request.number));
        let rows = self.rows(&self.statements.is_taken, &[&shard, &request.epoch, &number]).await?;
        let row =
            rows.first().ok_or_else(|| Fault::told("the schema's version has changed: it is read again"))?;
        Ok(Taken { digest: row.get(0), left_out: row.get(1) })
    }

    async fn begin_life(&mut self, of: &Forwarded) -> Result<(), NotTaken> {
        self.rows(&self.statements.begin_life, &[&i32::from(of.shard), &of.epoch]).await.map(drop)
    }

    async fn series(&mut self, all: &[OfSeries]) -> Result<(Vec<Stored<Known>>, Closed), NotTaken> {
        let (closed, stored) = tokio::try_join!(self.closed(), self.stored(all))?;
        Ok((stored, closed))
    }

    async fn late(&mut self, of: &Forwarded, all: &[OfSeries]) -> Result<Option<Late>, NotTaken> {
        let (shard, number) = (i32::from(of.shard), Numeric::from(of.number));
        let digests: Vec<&[u8]> = all.iter().map(|series| &series.digest[..]).collect();
        let columns: [&(dyn ToSql + Sync); 4] = [&shard, &of.epoch, &number, &digests];
        let row = self.transaction.query_one(&self.statements.late, &columns).await?;
        let (is_late, put_back): (bool, Vec<i64>) = (row.get(0), row.get(1));
        let put_back = put_back.into_iter().map(|place| place as usize - 1).collect();
        Ok(is_late.then_some(Late { put_back }))
    }

    async fn add(&mut self, _place: &Place, all: &[Adding<'_, Known>]) -> Result<(), NotTaken> {
        // The totals are encoded here while the server has the intervals.
        tokio::try_join!(self.intervals(all), self.totals(all)).map(drop)
    }

    async fn leave_out(&mut self, place: &Place, added: usize, noted: &str) -> Result<(), NotTaken> {
        let row = place.rows.values().next();
        self.write(&self.statements.set_left_out, &[&row, &(added as i64), &noted], 1).await
    }

    async fn rewind(&mut self, life: i64, of: &Forwarded, rewind: &Rewind) -> Result<(), NotTaken> {
        let digests: Vec<Vec<u8>> = rewind.keys().map(|key| key.digest().to_vec()).collect();
        let (to, shard, number) = (Numeric::from(rewind.to), i32::from(of.shard), Numeric::from(of.number));
        let columns: [&(dyn ToSql + Sync); 6] = [&digests, &to, &life, &shard, &of.epoch, &number];
        self.rows(&self.statements.rewind, &columns).await.map(drop)
    }

    async fn rename_sender(&mut self, rename: &RenameSender) -> Result<(), NotTaken> {
        let digests: Vec<Vec<u8>> = rename.keys().map(|key| key.digest().to_vec()).collect();
        self.rows(&self.statements.rename_sender, &[&digests, &rename.to]).await.map(drop)
    }
}

impl<'a> Writing<'a> {
    async fn begin(session: &'a mut Session) -> Result<Writing<'a>, NotTaken> {
        let Session { client, statements, owners, fence, connection } = session;
        let transaction = client.transaction().await?;
        let (warnings, fence) = (&connection.warnings, fence.as_ref());
        Ok(Writing { transaction, warnings, statements, owners: owners.as_deref(), fence })
    }

    pub(super) fn owner(&self, series: &OfSeries) -> Option<String> {
        self.owners?.owner(&series.digest)
    }
}

impl Writing<'_> {
    pub(super) async fn rows(
        &self,
        statement: &Statement,
        columns: &[&(dyn ToSql + Sync)],
    ) -> Result<Vec<Row>, NotTaken> {
        Ok(self.transaction.query(statement, columns).await?)
    }

    /// Each statement must write all rows that it was given. Otherwise somebody has changed the tables.
    async fn write(
        &self,
        statement: &Statement,
        columns: &[&(dyn ToSql + Sync)],
        count: usize,
    ) -> Result<(), NotTaken> {
        let written = self.transaction.execute(statement, columns).await?;
        if written == count as u64 {
            return Ok(());
        }
        let what =
            format!("{written} rows were written in the place of {count}: look for triggers and rules");
        Err(Fault::told(what).into())
    }

    /// The same for all rows of a kind, if there are any.
    async fn write_rows(&self, statement: &Statement, rows: Vec<NewRow<'_>>) -> Result<(), NotTaken> {
        match rows.is_empty() {
            true => Ok(()),
            false => self.write(statement, &[&rows], rows.len()).await,
        }
    }

    async fn intervals(&self, all: &[Adding<'_, Known>]) -> Result<(), NotTaken> {
        let points = all.iter().flat_map(|adding| {
            let id = adding.stored.row.id;
            adding.of.points.iter().map(move |point| interval_row(id, point))
        });
        self.write_rows(&self.statements.intervals, points.collect()).await
    }

    async fn totals(&self, all: &[Adding<'_, Known>]) -> Result<(), NotTaken> {
        self.past_hours(all).await?;
        let (first, more): (Vec<_>, Vec<_>) = all.iter().partition(|one| one.stored.row.is_new);
        for (statement, some) in [(&self.statements.first_totals, first), (&self.statements.totals, more)] {
            self.write_rows(statement, some.into_iter().map(total_row).collect()).await?;
        }
        let late = all.iter().flat_map(late_rows).collect();
        self.write_rows(&self.statements.late_hours, late).await?;
        let long = all.iter().flat_map(long_rows).collect();
        self.write_rows(&self.statements.long_intervals, long).await?;
        // Behind all else, since other services wait for these rows.
        self.write_rows(&self.statements.metric_hours, metric_rows(all)).await
    }

    /// Writes down the hours that end with this request, and adds late points to earlier ones.
    async fn past_hours(&self, all: &[Adding<'_, Known>]) -> Result<(), NotTaken> {
        let is_over = |one: &&Adding<Known>| {
            let known = &one.stored.row;
            !known.is_new && known.last_hour < Some(last_hour(one))
        };
        let over: Vec<i64> = all.iter().filter(is_over).map(|one| one.stored.row.id).collect();
        if !over.is_empty() {
            self.rows(&self.statements.hours_over, &[&over]).await?;
        }
        self.write_rows(&self.statements.past_hours, all.iter().flat_map(hour_rows).collect()).await
    }

    /// Until the transaction ends, no period is closed or reopened.
    async fn hold_periods(&self) -> Result<(), NotTaken> {
        self.rows(&self.statements.hold_periods, &[&periods::LOCK]).await.map(drop)
    }

    /// What is closed. The periods have to be held.
    async fn closed(&self) -> Result<Closed, NotTaken> {
        let rows: Vec<_> =
            self.rows(&self.statements.closed, &[]).await?.iter().map(periods::texts).collect();
        Ok(closed_of(&rows).map_err(Fault::from)?)
    }
}

/// A warning means an unknown outcome: after `pg_cancel_backend` in the wait for a standby, for example, the commit is
/// on this server alone.
pub(super) async fn commit(transaction: Transaction<'_>, warnings: &Warnings) -> Result<(), Fault> {
    warnings.take(); // those from before
    transaction.commit().await?;
    match warnings.take() {
        None => Ok(()),
        Some(warning) => Err(Fault::told(format!("the server warns: {warning}"))),
    }
}
