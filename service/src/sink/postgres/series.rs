//! The rows of a request's series: finds them, makes those that are new, and locks their totals.

use super::fault::Fault;
use super::series_rows::series_row;
use super::store::{NotTaken, Writing};
use crate::sink::sql::{Ends, OfSeries, Stored};
use tokio_postgres::Row;

/// How many new series are worth a statement of their own.
const PIECE: usize = 100;

/// What the database has of a series.
#[derive(Clone, Debug)]
pub(super) struct Known {
    pub(super) id: i64,
    /// Whether this transaction made it: nobody else sees it, and it has no total yet.
    pub(super) is_new: bool,
    /// The number of its metric.
    pub(super) metric: Vec<u8>,
    /// The hour in which its last interval ends, or a correction counts, in hours since 1970.
    pub(super) last_hour: Option<i32>,
}

impl Known {
    /// As it was found, before its total is locked.
    fn of(row: &Row, is_new: bool) -> Known {
        Known { id: row.get(1), is_new, metric: row.get(2), last_hour: None }
    }
}

/// By the index of the series in a request.
type FoundSeries = Vec<Option<Known>>;

impl Writing<'_> {
    /// What is known of each series; new ones are made. Nobody else adds to these series until the transaction ends.
    pub(super) async fn stored(&self, all: &[OfSeries]) -> Result<Vec<Stored<Known>>, NotTaken> {
        let mut found = vec![None; all.len()];
        let mut sent = self.find(all, &mut found).await?;
        self.make(all, &mut found).await?;
        // Another transaction may have made the rest meanwhile.
        sent.extend(self.find(all, &mut found).await?);
        self.set_senders(sent).await?;
        let known: Option<Vec<Known>> = found.into_iter().collect();
        let known = known.ok_or_else(|| Fault::told("a series that was there is gone: it is made anew"))?;
        let stored = all.iter().zip(known).map(|(of, row)| Stored { row, buckets: of.buckets(), ends: None });
        self.lock(stored.collect()).await
    }

    /// Makes the series that were not found, unless they are there by now, and their metrics.
    async fn make(&self, all: &[OfSeries], found: &mut FoundSeries) -> Result<(), NotTaken> {
        let both = all.iter().zip(&*found);
        let new: Vec<&OfSeries> =
            both.filter(|(_, found)| found.is_none()).map(|(series, _)| series).collect();
        if new.is_empty() {
            return Ok(());
        }
        // While the server has one piece, the next one is encoded here.
        let mut pieces = new.chunks(new.len().div_ceil(4).max(PIECE));
        let mut next = || self.make_piece(pieces.next().unwrap_or_default());
        let (one, two, three, four) = tokio::try_join!(next(), next(), next(), next())?;
        let mut made = [one, two, three, four].into_iter().flatten().peekable();
        // The rows come back in the order in which they were sent.
        let mut ids: Vec<i64> = Vec::new();
        for (series, found) in all.iter().zip(&mut *found).filter(|(_, found)| found.is_none()) {
            let is_of = |row: &Row| row.get::<_, &[u8]>(0) == series.digest;
            *found = made.next_if(is_of).map(|row| Known::of(&row, true));
            ids.extend(found.as_ref().map(|known| known.id));
        }
        if made.next().is_some() {
            return Err(Fault::told("new series came back in another order").into());
        }
        self.rows(&self.statements.metrics, &[&ids]).await.map(drop)
    }

    async fn make_piece(&self, series: &[&OfSeries]) -> Result<Vec<Row>, NotTaken> {
        if series.is_empty() {
            return Ok(Vec::new());
        }
        let rows = series.iter().map(|series| series_row(series, self.owner(series)));
        let rows = rows.collect::<Result<Vec<_>, _>>()?;
        self.rows(&self.statements.make, &[&rows]).await
    }

    /// Finds series that are not found yet. Returns those that have no sender so far, though it is known now.
    async fn find(&self, all: &[OfSeries], found: &mut FoundSeries) -> Result<Vec<(i64, String)>, NotTaken> {
        let mut sent = Vec::new();
        let places: Vec<usize> = (0..all.len()).filter(|place| found[*place].is_none()).collect();
        if places.is_empty() {
            return Ok(sent);
        }
        let digests: Vec<&[u8]> = places.iter().map(|place| &all[*place].digest[..]).collect();
        for row in self.rows(&self.statements.find, &[&digests]).await? {
            let (place, known) = (places[row.get::<_, i64>(0) as usize - 1], Known::of(&row, false));
            // For example, it came with a dead letter while its shard was not delivered here.
            if let (true, Some(sender)) = (row.get(3), self.owner(&all[place])) {
                sent.push((known.id, sender));
            }
            found[place] = Some(known);
        }
        Ok(sent)
    }

    /// Notes senders, all at once and after new series are made, since it locks the series' rows.
    async fn set_senders(&self, sent: Vec<(i64, String)>) -> Result<(), NotTaken> {
        if sent.is_empty() {
            return Ok(());
        }
        let (ids, senders): (Vec<i64>, Vec<String>) = sent.into_iter().unzip();
        self.rows(&self.statements.set_senders, &[&ids, &senders]).await.map(drop)
    }

    /// Locks the totals of series that were there, and reads their ends.
    async fn lock(&self, mut stored: Vec<Stored<Known>>) -> Result<Vec<Stored<Known>>, NotTaken> {
        let places: Vec<usize> = (0..stored.len()).filter(|place| !stored[*place].row.is_new).collect();
        if places.is_empty() {
            return Ok(stored);
        }
        let ids: Vec<i64> = places.iter().map(|place| stored[*place].row.id).collect();
        let rows = self.rows(&self.statements.lock, &[&ids]).await?;
        if rows.len() != ids.len() {
            return Err(Fault::told("a series has no row in series_totals").into());
        }
        for row in rows {
            let one = &mut stored[places[row.get::<_, i64>(0) as usize - 1]];
            one.buckets = row.get::<_, Option<i32>>(1).map(|count| count as usize);
            one.row.last_hour = row.get(2);
            one.ends = Some(Ends { life: row.get(3), floor: time(&row, 4)?, last: time(&row, 5)? });
        }
        Ok(stored)
    }
}

fn time(row: &Row, column: usize) -> Result<u64, Fault> {
    let text: Option<&str> = row.get(column);
    let time = text.and_then(|text| text.parse().ok());
    time.ok_or_else(|| Fault::told("a row of series_totals has no time of 64 bits"))
}
