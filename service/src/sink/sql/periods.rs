//! Closes and reopens periods of a database, and makes adjustments: one algorithm for both kinds of database.

use super::{Cell, Row};
use crate::sink::periods::{self, closed, Adjusted, Adjustment, Closed, PeriodAction, PeriodOutcome, Which};
use anyhow::Context;

/// A transaction that changes periods. Meanwhile no request is taken.
pub(in crate::sink) trait Periods {
    type Fault: From<anyhow::Error>;

    /// The rows of a statement, each value as text. ?1 and so on stand for `values`.
    async fn rows(&mut self, statement: &str, values: &[Cell<'_>]) -> Result<Vec<Row>, Self::Fault>;

    /// Adds to an hour of a series and of its metric, and to its day and month.
    async fn add(&mut self, series: i64, hour: i64, value: i64) -> Result<(), Self::Fault>;
}

/// The current time in each row, and the closed periods.
pub(in crate::sink) const CLOSED: &str =
    "select cast(current_timestamp as text), period, cast(from_hour as text), cast(to_hour as text), who, cast(closed_at as text)
    from (select 1) as one left join closed_periods as closed on true order by closed.from_hour, closed.to_hour";

pub(super) const NO_HORIZON: &str =
    "the table `horizon` has no row, so nobody knows how far back its hours go";

/// Reads the rows of `CLOSED`; there is at least one.
pub(in crate::sink) fn closed_of(rows: &[Row]) -> anyhow::Result<Closed> {
    let mut closed = Closed::default();
    for row in rows {
        closed.now = row.time(0)? / 3600;
        if let Some(period) = row.some(1) {
            let (from, to, at) = (row.number(2)?, row.number(3)?, row.time(5)?);
            closed.rows.push(periods::Row { period: period.into(), from, to, who: row.text(4)?.into(), at });
        }
    }
    Ok(closed)
}

/// Carries a deed out, or leaves all as it was.
pub(in crate::sink) async fn apply<P: Periods>(
    periods: &mut P,
    who: &str,
    deed: &PeriodAction,
) -> Result<PeriodOutcome, P::Fault> {
    let all = closed_of(&periods.rows(CLOSED, &[]).await?)?;
    let (statement, period, told) = match deed {
        PeriodAction::Close(period) => match all.close(period) {
            Err(told) => return Ok(told),
            Ok(()) => {
                let insert =
                    "insert into closed_periods (from_hour, to_hour, period, who) values (?1, ?2, ?3, ?4)";
                (insert, period, PeriodOutcome::Done(closed(period)))
            }
        },
        PeriodAction::Open(period) => match all.open(period) {
            Err(told) => return Ok(told),
            Ok(()) => {
                let delete = "delete from closed_periods where from_hour = ?1 and to_hour = ?2";
                (delete, period, PeriodOutcome::Done(all.opened(period)))
            }
        },
        PeriodAction::Adjust(adjustment) => return adjust(periods, &all, who, adjustment).await,
    };
    let text = period.to_string();
    let values = [Cell::Number(period.from), Cell::Number(period.to), Cell::Text(&text), Cell::Text(who)];
    let count = statement.matches('?').count();
    periods.rows(statement, &values[..count]).await.map(|_| told)
}

async fn adjust<P: Periods>(
    periods: &mut P,
    all: &Closed,
    who: &str,
    adjustment: &Adjustment,
) -> Result<PeriodOutcome, P::Fault> {
    let Adjustment { hour, value, reason, late_key, .. } = adjustment;
    // Only a series that has points can be adjusted.
    let rows = match &adjustment.series {
        Which::Number(number) => {
            let query = "select cast(series as text) from series_totals where series = ?1";
            periods.rows(query, &[Cell::Number(*number)]).await?
        }
        Which::Identified(series) => {
            let query = "select cast(series.id as text) from series join series_totals on series_totals.series = series.id where digest = ?1";
            periods.rows(query, &[Cell::Bytes(&series.digest)]).await?
        }
    };
    let Some(row) = rows.first() else {
        return Ok(adjustment.has_no_series());
    };
    let series = row.number(0)?;
    let before = "select who, cast(made_at as text) from adjustments where late_key = ?5
        and (late_key <> '' or (series = ?1 and of_hour = ?2 and value = ?3 and reason = ?4))";
    let mut made = vec![
        Cell::Number(series),
        Cell::Number(hour.from),
        Cell::Number(*value),
        Cell::Text(reason),
        Cell::Text(late_key),
    ];
    if let Some(row) = periods.rows(before, &made).await?.first() {
        return Ok(adjustment.was_there(row.text(0)?, row.time(1)?));
    }
    let so_far = "select cast((select coalesce(sum(abs(value)), 0) from adjustments) as text), cast(hours_from as text)
        from horizon";
    let rows = periods.rows(so_far, &[]).await?;
    let row = rows.first().context(NO_HORIZON)?;
    let adjusted = Adjusted { so_far: row.number(0)?, hours_from: row.number(1)? };
    let counted_in = match adjustment.counted_in(&adjusted, all) {
        Ok(hour) => hour,
        Err(told) => return Ok(told),
    };
    if !adjustment.is_dry {
        let insert = "insert into adjustments (series, of_hour, value, reason, late_key, hour, who)
            values (?1, ?2, ?3, ?4, ?5, ?6, ?7)";
        made.extend([Cell::Number(counted_in), Cell::Text(who)]);
        periods.rows(insert, &made).await?;
        periods.add(series, counted_in, *value).await?;
    }
    Ok(adjustment.made(series, counted_in))
}
