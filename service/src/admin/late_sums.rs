//! What a period lacks: sums of the points that were refused as late or as another sender's and are not booked, by
//! series, sender and reason. `GET /late/PERIOD` and the closing of a period show them.

use super::named::named;
use super::reach::Answer;
use super::AdminApi;
use crate::command::values::counted;
use crate::late::{LatePoint, LateValue};
use crate::log::shown;
use crate::otlp::Reason;
use crate::sink::periods::Period;
use crate::work::blocking;
use serde::{Deserialize, Serialize};
use std::collections::{BTreeMap, HashSet};
use std::fmt;

const HOUR: u64 = 3_600_000_000_000;

/// How many sums a text names, and how much of a series' name it shows, in characters.
const SHOWN: usize = 5;
pub(super) const NAME_SHOWN: usize = 200;

/// The sum of the points of one series that one sender posted and that were refused for one reason.
#[derive(Clone, Debug, PartialEq, Eq, Serialize, Deserialize)]
pub struct LateSum {
    /// In a form in which an operator may name it.
    pub series: String,
    pub sender: String,
    pub reason: Reason,
    pub points: u64,
    /// The sum of the points that are not cumulative; for a histogram, of their sums.
    pub total: String,
    /// How many points are cumulative or have no sum, and so are not in `total`.
    pub without_value: u64,
}

#[derive(Default)]
struct Sum {
    points: u64,
    total: i128,
    without_value: u64,
}

/// The sums by series, sender and reason.
#[derive(Default)]
struct Sums {
    all: BTreeMap<(String, String, Reason), Sum>,
    keys: HashSet<String>,
}

impl Sums {
    /// Adds a point once, however often it was posted.
    fn add(&mut self, point: &LatePoint) {
        if !self.keys.insert(point.key.clone()) {
            return;
        }
        let of = (point.series().0.to_string(), point.sender.clone(), point.reason);
        let sum = self.all.entry(of).or_default();
        sum.points += 1;
        match &point.value {
            LateValue::Sum(value) if !point.cumulative => sum.total += i128::from(*value),
            LateValue::Histogram { sum: Some(value), .. } if !point.cumulative => {
                sum.total += i128::from(*value)
            }
            _ => sum.without_value += 1,
        }
    }

    fn listed(self) -> Vec<LateSum> {
        let listed = |((series, sender, reason), sum): ((String, String, Reason), Sum)| LateSum {
            series: named(&crate::otlp::series::SeriesKey(series.as_str().into())),
            sender,
            reason,
            points: sum.points,
            total: sum.total.to_string(),
            without_value: sum.without_value,
        };
        self.all.into_iter().map(listed).collect()
    }
}

impl fmt::Display for LateSum {
    fn fmt(&self, to: &mut fmt::Formatter<'_>) -> fmt::Result {
        let LateSum { series, sender, reason, points, total, without_value } = self;
        let (series, reason) = (shown(series, NAME_SHOWN), reason.label());
        let points = counted(*points, "point");
        write!(to, "{total} in {points} of {series} by {sender} ({reason})")?;
        match without_value {
            0 => Ok(()),
            more => write!(to, ", of {more} of which the value is not known"),
        }
    }
}

/// The first sums as one line of text. Empty if there are none.
pub fn not_counted(sums: &[LateSum]) -> String {
    let mut all: Vec<String> = sums.iter().take(SHOWN).map(ToString::to_string).collect();
    let more = sums.len().saturating_sub(SHOWN);
    all.extend((more > 0).then(|| format!("and {more} more")));
    all.join("; ")
}

impl AdminApi {
    /// The sums of a period's points that this instance keeps and the sink has not booked.
    pub(super) async fn late_sums(&self, period: &Period) -> Result<Vec<LateSum>, String> {
        let booked = match &self.totals {
            Some(totals) => totals.booked().await?,
            None => HashSet::new(),
        };
        let (late, hours) = (self.late.clone(), period.from.unsigned_abs()..period.to.unsigned_abs());
        let sums = blocking(move || {
            let mut sums = Sums::default();
            let is_of_it = |point: &LatePoint| hours.contains(&(point.end_ns.saturating_sub(1) / HOUR));
            late.read(
                |_| true,
                |point| {
                    if is_of_it(&point) && !booked.contains(&point.key) {
                        sums.add(&point);
                    }
                },
            )
            .map(|()| sums)
        });
        sums.await.map(Sums::listed).map_err(|why| format!("late data can't be read: {why}"))
    }

    pub(super) async fn late_of(&self, period: Result<Period, String>) -> Answer {
        let period = match period {
            Ok(period) => period,
            Err(why) => return Answer::told(400, &why),
        };
        match self.late_sums(&period).await {
            Ok(sums) => Answer::new(200, serde_json::json!(sums).to_string()),
            Err(why) => Answer::told(503, &why),
        }
    }
}

#[cfg(test)]
mod tests {
    use super::*;
    use serde_json::value::RawValue;

    #[test]
    fn sums_are_by_series_sender_and_reason_and_a_repeat_counts_once() {
        let point = |key: &str, name: &str, sender: &str, cumulative, value| LatePoint {
            key: key.into(),
            at: 5,
            sender: sender.into(),
            reason: Reason::OutOfOrder,
            series: RawValue::from_string(format!(r#"[[],"","",[],"{name}","1","monotonic",[]]"#)).unwrap(),
            start_ns: 1,
            end_ns: 2,
            cumulative,
            value,
            series_end_ns: None,
            series_sender: None,
        };
        let mut sums = Sums::default();
        for point in [
            point("1", "a", "s", false, LateValue::Sum(i64::MAX)),
            point("2", "a", "s", false, LateValue::Sum(7)),
            point("2", "a", "s", false, LateValue::Sum(7)),
            point("3", "a", "s", true, LateValue::Sum(9)),
            point("4", "a", "t", false, LateValue::Sum(-1)),
            point("5", "h", "s", false, LateValue::Histogram { count: 2, sum: Some(12), buckets: vec![2] }),
            point("6", "h", "s", false, LateValue::Histogram { count: 2, sum: None, buckets: vec![2] }),
        ] {
            sums.add(&point);
        }
        let listed = sums.listed();
        let rows =
            listed.iter().map(|of| (&*of.series, &*of.sender, of.points, &*of.total, of.without_value));
        let wanted =
            [("a", "s", 3, "9223372036854775814", 1), ("a", "t", 1, "-1", 0), ("h", "s", 2, "12", 1)];
        assert_eq!(rows.collect::<Vec<_>>(), wanted);
        let text = not_counted(&listed);
        assert!(
            text.starts_with("9223372036854775814 in 3 points of a by s (duplicate_or_late), of 1 of which "),
            "{text}"
        );
        let many = vec![listed[1].clone(); SHOWN + 2];
        assert!(not_counted(&many).ends_with("; and 2 more"), "{}", not_counted(&many));
        assert_eq!(not_counted(&[]), "");
    }
}
