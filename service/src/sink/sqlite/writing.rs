//! A transaction of the file that takes requests.

use super::cached;
use super::fault::Fault;
use super::hours::Hours;
use super::periods;
use super::series_row::{self, SeriesIds};
use super::total::Total;
use super::upkeep;
use super::wide_integers::{list, Unsigned};
use crate::otlp::series::{Digest, ForwardedPoint, Value};
use crate::sink::left_out::shown;
use crate::sink::periods::Closed;
use crate::sink::sql::totals::SeriesTotal;
use crate::sink::sql::{self, Adding, Late, OfSeries, Place, Request, Stored, Taken};
use crate::sink::{Forwarded, KnowsOwners, RenameSender, Rewind};
use rusqlite::{params, Transaction};
use std::collections::{BTreeMap, BTreeSet, HashMap};
use std::sync::Arc;

type NotTaken = sql::NotTaken<Fault>;

pub(super) struct Writing<'a> {
    pub(super) transaction: Transaction<'a>,
    pub(super) owners: Option<Arc<dyn KnowsOwners>>,
    pub(super) known: &'a HashMap<Digest, SeriesIds>,
    /// The row numbers of series that this transaction has looked up. Others may use them after the commit.
    pub(super) new: HashMap<Digest, SeriesIds>,
}

/// What the file has of a series.
#[derive(Debug)]
pub(super) struct Row {
    ids: SeriesIds,
    total: Option<Total>,
}

impl sql::Transaction for Writing<'_> {
    type Row = Row;
    type Fault = Fault;

    async fn make_requests(&mut self, all: &[Request<'_>]) -> Result<Option<Place>, NotTaken> {
        for request in all {
            if self.find(request.of, |_| Ok(()))?.is_some() {
                return Ok(None);
            }
        }
        let life = self.life(all[0].of)?;
        let mut rows = Vec::new();
        for request in all {
            let insert = "insert into requests (shard, epoch, number, taken_at, points, digest)
                values (?1, ?2, ?3, cast(strftime('%s', 'now') as integer), ?4, ?5)";
            let Forwarded { shard, epoch, number, .. } = request.of;
            let (number, points) = (Unsigned(*number), request.points() as i64);
            let values = params![shard, epoch, number, points, request.digest];
            rows.push(self.transaction.prepare_cached(insert)?.insert(values)?);
        }
        Ok(Some(Place::of(all, rows, life)))
    }

    async fn taken(&mut self, request: &Forwarded) -> Result<Taken, NotTaken> {
        let found = self.find(request, |row| Ok(Taken { digest: row.get(0)?, left_out: row.get(1)? }))?;
        Ok(found.ok_or(rusqlite::Error::QueryReturnedNoRows)?)
    }

    async fn begin_life(&mut self, of: &Forwarded) -> Result<(), NotTaken> {
        let begin = "insert or replace into lives (shard, epoch) values (?1, ?2)";
        Ok(cached::run(&self.transaction, begin, params![of.shard, of.epoch]).map(drop)?)
    }

    async fn series(&mut self, all: &[OfSeries]) -> Result<(Vec<Stored<Row>>, Closed), NotTaken> {
        let stored = all.iter().map(|of| self.stored(of)).collect::<Result<_, _>>()?;
        Ok((stored, periods::closed(&self.transaction)?))
    }

    async fn late(&mut self, of: &Forwarded, all: &[OfSeries]) -> Result<Option<Late>, NotTaken> {
        let number = Unsigned(of.number);
        let later = "select 1 from requests where shard = ?1 and epoch = ?2 and number > ?3";
        if !self.transaction.prepare_cached(later)?.exists(params![of.shard, of.epoch, number])? {
            return Ok(None);
        }
        let put_back =
            "select 1 from rewinds where shard = ?1 and epoch = ?2 and digest = ?3 and number > ?4";
        let mut put_back = self.transaction.prepare_cached(put_back)?;
        let mut late = Late { put_back: BTreeSet::new() };
        for (place, series) in all.iter().enumerate() {
            if put_back.exists(params![of.shard, of.epoch, series.digest, number])? {
                late.put_back.insert(place);
            }
        }
        Ok(Some(late))
    }

    async fn add(&mut self, place: &Place, all: &[Adding<'_, Row>]) -> Result<(), NotTaken> {
        let hours_from = upkeep::hours_from(&self.transaction)?;
        self.intervals(place, all)?;
        for adding in all {
            let Row { ids, total } = &adding.stored.row;
            let points = &adding.of.points;
            let total = Total::with(total.as_ref(), adding.ends, points, &adding.sums());
            if total.is_too_great() {
                let shown = points.first().map(shown).unwrap_or_default();
                return Err(NotTaken::Refused(format!("the series' total is over 9 * 10^30: {shown}")));
            }
            total.write(&self.transaction, ids.series)?;
        }
        self.long_intervals(all)?;
        Ok(Hours::of(all).write(&self.transaction, hours_from)?)
    }

    async fn leave_out(&mut self, place: &Place, added: usize, noted: &str) -> Result<(), NotTaken> {
        let update = "update requests set points = ?2, left_out = ?3 where id = ?1";
        let values = params![place.rows.values().next(), added as i64, noted];
        Ok(cached::run(&self.transaction, update, values).map(drop)?)
    }

    async fn rewind(&mut self, life: i64, of: &Forwarded, rewind: &Rewind) -> Result<(), NotTaken> {
        for key in rewind.keys() {
            let note = "insert into rewinds (shard, epoch, digest, number) values (?1, ?2, ?3, ?4)
                on conflict do update set number = max(number, excluded.number)";
            let digest = key.digest();
            let row = params![of.shard, of.epoch, digest, Unsigned(of.number)];
            cached::run(&self.transaction, note, row)?;
            let series = series_row::find(&self.transaction, &digest)?;
            let total = series.map(|series| Total::read(&self.transaction, series)).transpose()?.flatten();
            if let (Some(series), Some(total)) = (series, total) {
                total.rewound(life, rewind.to).write(&self.transaction, series)?;
            }
        }
        Ok(())
    }

    async fn rename_sender(&mut self, rename: &RenameSender) -> Result<(), NotTaken> {
        let update = "update series set sender = ?2 where digest = ?1";
        for key in rename.keys() {
            cached::run(&self.transaction, update, params![key.digest(), rename.to])?;
        }
        Ok(())
    }
}

impl Row {
    /// The numbers of the series' row and of its metric's.
    pub(super) fn ids(&self) -> SeriesIds {
        self.ids
    }
}

impl Writing<'_> {
    fn long_intervals(&self, all: &[Adding<'_, Row>]) -> rusqlite::Result<()> {
        let insert =
            "insert into long_intervals (series, hour, start_ns, end_ns, value) values (?1, ?2, ?3, ?4, ?5)";
        for adding in all {
            for (hour, point) in adding.long() {
                let (series, start, end) =
                    (adding.stored.row.ids.series, Unsigned(point.start), Unsigned(point.end));
                match &point.value {
                    Value::Sum(value) => {
                        cached::run(&self.transaction, insert, params![series, hour, start, end, value])?
                    }
                    Value::Histogram { sum, .. } => {
                        let row = params![series, hour, start, end, sum.map(Unsigned)];
                        cached::run(&self.transaction, insert, row)?
                    }
                };
            }
        }
        Ok(())
    }

    pub(super) fn commit(self) -> rusqlite::Result<HashMap<Digest, SeriesIds>> {
        self.transaction.commit().map(|()| self.new)
    }

    /// Reads the digest and the left-out points of a request that is there.
    fn find<T>(
        &self,
        request: &Forwarded,
        of: impl FnOnce(&rusqlite::Row<'_>) -> rusqlite::Result<T>,
    ) -> rusqlite::Result<Option<T>> {
        let query = "select digest, left_out from requests where shard = ?1 and epoch = ?2 and number = ?3";
        cached::find(
            &self.transaction,
            query,
            params![request.shard, request.epoch, Unsigned(request.number)],
            of,
        )
    }

    /// The life of a request's shard and epoch. Their first request begins it.
    fn life(&self, request: &Forwarded) -> rusqlite::Result<i64> {
        let key = params![request.shard, request.epoch];
        let query = "select id from lives where shard = ?1 and epoch = ?2";
        if let Some(life) = cached::find(&self.transaction, query, key, |row| row.get(0))? {
            return Ok(life);
        }
        let begin = "insert into lives (shard, epoch) values (?1, ?2)";
        self.transaction.prepare_cached(begin)?.insert(key)
    }

    fn stored(&mut self, of: &OfSeries) -> Result<Stored<Row>, NotTaken> {
        let known = self.known.get(&of.digest).or_else(|| self.new.get(&of.digest)).copied();
        let total = match known {
            Some(ids) => Total::read(&self.transaction, ids.series)?.map(|total| (ids, total)),
            None => None,
        };
        if let Some((ids, total)) = total {
            let (buckets, ends) = (total.buckets(), Some(total.ends()));
            return Ok(Stored { row: Row { ids, total: Some(total) }, buckets, ends });
        }
        let series = SeriesTotal::of_none(&of.key)?;
        let buckets = series.histogram.as_ref().map(|histogram| histogram.bounds.len() + 1);
        let sender = self.owners.as_ref().and_then(|owners| owners.owner(&of.digest));
        let (ids, is_new) = series_row::known(&self.transaction, &of.key, &series, sender.as_deref())?;
        let total = match is_new {
            true => None,
            false => Total::read(&self.transaction, ids.series)?,
        };
        // A series whose sender is not known is looked up each time, until it is known.
        if sender.is_some() {
            self.new.insert(of.digest, ids);
        }
        Ok(Stored { ends: total.as_ref().map(Total::ends), row: Row { ids, total }, buckets })
    }

    /// Times are stored relative to the first start of their request, so that they are short.
    fn intervals(&self, place: &Place, all: &[Adding<'_, Row>]) -> rusqlite::Result<()> {
        let mut times: BTreeMap<i64, (u64, u64)> = BTreeMap::new();
        for point in all.iter().flat_map(|adding| &adding.of.points) {
            let of_request = times.entry(place.row_of(point)).or_insert((point.start, point.end));
            *of_request = (of_request.0.min(point.start), of_request.1.max(point.end));
        }
        let update = "update requests set first_start_ns = ?2, last_end_ns = ?3 where id = ?1";
        for (request, (first, last)) in &times {
            cached::run(&self.transaction, update, params![request, Unsigned(*first), Unsigned(*last)])?;
        }
        for adding in all {
            for point in &adding.of.points {
                let request = place.row_of(point);
                self.interval(request, times[&request].0, adding.stored.row.ids.series, point)?;
            }
        }
        Ok(())
    }

    fn interval(
        &self,
        request: i64,
        first: u64,
        series: i64,
        point: &ForwardedPoint,
    ) -> rusqlite::Result<()> {
        let (value, count, sum, buckets) = match &point.value {
            Value::Sum(value) => (Some(*value), None, None, None),
            Value::Histogram { count, sum, buckets } => {
                (None, Some(Unsigned(*count)), sum.map(Unsigned), Some(list(buckets)))
            }
        };
        let insert =
            "insert into interval_rows (request, series, after_ns, length_ns, value, count, sum, buckets)
             values (?1, ?2, ?3, ?4, ?5, ?6, ?7, ?8)";
        let (after, length) = (Unsigned(point.start - first), Unsigned(point.end - point.start));
        let values = params![request, series, after, length, value, count, sum, buckets];
        cached::run(&self.transaction, insert, values).map(drop)
    }
}
