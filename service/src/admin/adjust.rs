//! `POST /v1/adjustments`: adjusts what a series counted, by hand, or books late data.
//!
//! The sink books late data once, by its key (`sink/sql/periods`). Here the series and the hour of an adjustment are
//! found, and what can't be booked is refused.

use super::named::{named, Named};
use super::reach::Answer;
use super::{Actor, AdminApi, Asked};
use crate::late::{LatePoint, LateValue};
use crate::log::of_nanoseconds;
use crate::sink::periods::{hour_shown, Adjustment, PeriodAction, Which};
use crate::sink::sql::totals::SeriesTotal;
use crate::work::whole_body;
use hyper::Body;
use serde::{Deserialize, Serialize};
use std::sync::Arc;

pub const ADJUSTMENTS: &str = "/v1/adjustments";

/// Enough for the longest names of a series.
const MAX_BODY: usize = 1 << 20;
const HOUR: u64 = 3_600_000_000_000;

/// The body of `POST /v1/adjustments`: either `late`, or `series`, `hour` and `value`.
#[derive(Clone, Debug, Default, PartialEq, Eq, Serialize, Deserialize)]
#[serde(deny_unknown_fields)]
pub struct AskedAdjustment {
    /// The key of a late point.
    #[serde(default, skip_serializing_if = "Option::is_none")]
    pub late: Option<String>,
    /// The series as `totals` shows it, or its number in the sink.
    #[serde(default, skip_serializing_if = "Option::is_none")]
    pub series: Option<String>,
    #[serde(default, skip_serializing_if = "Option::is_none")]
    pub hour: Option<String>,
    #[serde(default, skip_serializing_if = "Option::is_none")]
    pub value: Option<i64>,
    #[serde(default, skip_serializing_if = "Option::is_none")]
    pub reason: Option<String>,
    #[serde(default, skip_serializing_if = "std::ops::Not::not")]
    pub dry_run: bool,
}

/// Which series the operator means.
enum Meant {
    Number(i64),
    Named(Named, String),
}

impl AskedAdjustment {
    async fn of(body: Body) -> Result<AskedAdjustment, String> {
        let body = whole_body(body, MAX_BODY).await.map_err(|error| error.to_string())?;
        let body = body.ok_or_else(|| format!("a body of over {MAX_BODY} bytes is no adjustment"))?;
        serde_json::from_slice(&body).map_err(|why| {
            format!("write {{\"series\":TEXT,\"hour\":TEXT,\"value\":NUMBER,\"reason\":TEXT}} or {{\"late\":KEY}}: {why}")
        })
    }

    /// What the audit log has of it.
    fn act(&self) -> Asked {
        let text = |text: &Option<String>| text.clone().unwrap_or_default();
        let of = match &self.late {
            Some(key) => format!("--late {key}"),
            None => {
                let value = self.value.unwrap_or_default();
                format!("{} {} {value}: {}", text(&self.series), text(&self.hour), text(&self.reason))
            }
        };
        Asked::new("adjust", of)
    }

    /// The adjustment by hand. Its series is looked up later, so it is number 0 until then.
    fn by_hand(&self) -> Result<(Meant, Adjustment), String> {
        let missing = |what: &str| format!("an adjustment by hand has a {what}");
        let series = self.series.as_deref().ok_or_else(|| missing("series"))?;
        let named = || series.parse().map(|named| Meant::Named(named, series.to_string()));
        let meant = series.parse().map_or_else(|_| named(), |number| Ok(Meant::Number(number)))?;
        let adjustment = Adjustment {
            series: Which::Number(0),
            hour: self.hour.as_deref().ok_or_else(|| missing("hour"))?.parse()?,
            value: self.value.ok_or_else(|| missing("value"))?,
            reason: self.reason.as_deref().unwrap_or_default().trim().to_string(),
            late_key: String::new(),
            is_dry: self.dry_run,
        };
        adjustment.check()?;
        Ok((meant, adjustment))
    }
}

/// What a late point is booked as, or why it can't be booked. A point counts in the hour in which it ends.
fn booked(point: &LatePoint, asked: &AskedAdjustment) -> Result<Adjustment, String> {
    let by_hand = "give series, hour and value by hand";
    let value = match &point.value {
        _ if point.cumulative => {
            return Err(format!("it is cumulative, so what it adds is not known: {by_hand}"));
        }
        LateValue::Sum(value) => *value,
        LateValue::Histogram { sum: Some(sum), .. } => {
            i64::try_from(*sum).map_err(|_| format!("its sum is past 64 bits: {by_hand}"))?
        }
        LateValue::Histogram { sum: None, .. } => {
            return Err("it is a histogram without a sum, and an adjustment is one of the sum".into());
        }
    };
    let of = || {
        let (from, to) = (of_nanoseconds(point.start_ns), of_nanoseconds(point.end_ns));
        format!("late data of {}, {from} to {to}", point.sender)
    };
    let series = SeriesTotal::of_none(&point.series()).map_err(|error| error.to_string())?;
    let hour = hour_shown((point.end_ns.saturating_sub(1) / HOUR).cast_signed());
    let adjustment = Adjustment {
        series: Which::Identified(Box::new(series)),
        hour: hour.replace(' ', "T").parse()?,
        value,
        reason: asked.reason.as_deref().map_or_else(of, |reason| reason.trim().to_string()),
        late_key: point.key.clone(),
        is_dry: asked.dry_run,
    };
    adjustment.check()?;
    Ok(adjustment)
}

impl AdminApi {
    pub(super) async fn adjust(self: &Arc<Self>, actor: Actor, body: Body) -> Answer {
        let asked = match AskedAdjustment::of(body).await {
            Ok(asked) => asked,
            Err(why) => return Answer::told(400, &why),
        };
        let act = (!asked.dry_run).then(|| asked.act());
        let doing = |who| async move { self.adjusted(who, asked).await.unwrap_or_else(|refused| refused) };
        self.acts.recorded(actor, act, doing, Answer::outcome).await
    }

    async fn adjusted(self: &Arc<Self>, who: String, asked: AskedAdjustment) -> Result<Answer, Answer> {
        let adjustment = match &asked.late {
            Some(key) => self.late_adjustment(key, &asked).await?,
            None => {
                let (meant, adjustment) = asked.by_hand().map_err(|why| Answer::told(400, &why))?;
                Adjustment { series: self.meant(&meant).await?, ..adjustment }
            }
        };
        let has = match adjustment.is_dry {
            true => self.has_in_hour(&adjustment).await,
            false => String::new(),
        };
        Ok(self.settled(&who, &PeriodAction::Adjust(adjustment), &has).await)
    }

    async fn late_adjustment(&self, key: &str, asked: &AskedAdjustment) -> Result<Adjustment, Answer> {
        if asked.series.is_some() || asked.hour.is_some() || asked.value.is_some() {
            return Err(Answer::told(400, "late data has its series, hour and value itself"));
        }
        let found = self.late_point(key).await;
        let found = found.map_err(|why| Answer::told(500, &format!("late data can't be read: {why}")))?;
        let Some(point) = found else {
            let others = match &self.others {
                Some(_) => "; each instance has what it refused itself",
                None => "",
            };
            let why = format!(
                "no late data here has the key {key}, or it had to go for newer: `totxegun late` lists it"
            );
            return Err(Answer::told(404, &(why + others)));
        };
        booked(&point, asked).map_err(|why| {
            let series = named(&point.series());
            Answer::told(409, &format!("late data {key} of {series} is not booked: {why}"))
        })
    }

    /// Finds the series in the sink, if it is named and not numbered.
    async fn meant(&self, meant: &Meant) -> Result<Which, Answer> {
        let (of, written) = match meant {
            Meant::Number(number) => return Ok(Which::Number(*number)),
            Meant::Named(Named::One(key), written) => {
                let series = SeriesTotal::of_none(key);
                let faulty = |_| Answer::told(400, &format!("`{written}` names no series"));
                return series.map(|series| Which::Identified(Box::new(series))).map_err(faulty);
            }
            Meant::Named(Named::Some(filter), written) => (filter.clone(), written),
        };
        let Some(totals) = &self.totals else {
            let why = "keeps no hours: only a SQLite or PostgreSQL sink can be adjusted";
            return Err(Answer::told(409, &format!("the sink {} {why}", self.sink.name())));
        };
        let read = totals.read(move |mut all| {
            all.retain(|series| of.takes(series));
            Ok(all)
        });
        let mut found = read.await.map_err(|why| Answer::told(503, &why))?;
        match (found.pop(), found.len()) {
            (Some(series), 0) => Ok(Which::Identified(Box::new(series))),
            (None, _) => {
                let why = format!(
                    "the sink has no series named {written}: `totxegun totals` shows names and attributes"
                );
                Err(Answer::told(409, &why))
            }
            (Some(_), more) => {
                let why = format!(
                    "{} series are named {written}: name more attributes, or give its number",
                    more + 1
                );
                Err(Answer::told(409, &why))
            }
        }
    }

    /// What the sink has counted of the series in that hour.
    async fn has_in_hour(&self, adjustment: &Adjustment) -> String {
        let (Some(totals), Which::Identified(series)) = (&self.totals, &adjustment.series) else {
            return String::new();
        };
        let hour = adjustment.hour.from.unsigned_abs();
        let hours = totals.hours(series.digest, hour).await.ok().flatten().unwrap_or_default();
        match hours.iter().find(|found| found.hour == hour) {
            Some(found) => format!("; it has counted {} there", found.total),
            None => "; it has counted nothing there".into(),
        }
    }
}

#[cfg(test)]
mod tests {
    use super::*;
    use crate::otlp::Reason;
    use serde_json::value::RawValue;

    const SERIES: &str = r#"[[],"","",[],"shop.orders","1","monotonic",[]]"#;

    fn point(value: LateValue, end_ns: u64) -> LatePoint {
        LatePoint {
            key: "00ff".into(),
            at: 5,
            sender: "shop-1".into(),
            reason: Reason::OutOfOrder,
            series: RawValue::from_string(SERIES.into()).unwrap(),
            start_ns: 1,
            end_ns,
            cumulative: false,
            value,
            series_end_ns: Some(9),
            series_sender: None,
        }
    }

    /// A point that ends at the end of an hour is of that hour, as in a sink. Of a histogram the sum is booked.
    #[test]
    fn late_data_is_booked_in_the_hour_in_which_it_ends() {
        let asked = AskedAdjustment::default();
        for (end_ns, hour) in
            [(2, "1970-01-01 00:00"), (HOUR, "1970-01-01 00:00"), (HOUR + 1, "1970-01-01 01:00")]
        {
            let booked = booked(&point(LateValue::Sum(-7), end_ns), &asked).unwrap();
            assert_eq!((booked.hour.to_string().as_str(), booked.value), (hour, -7));
            assert_eq!(booked.late_key, "00ff");
            assert!(
                booked.reason.starts_with("late data of shop-1, 1970-01-01T00:00:00"),
                "{}",
                booked.reason
            );
        }
        let histogram = |sum| LateValue::Histogram { count: 3, sum, buckets: vec![1, 2] };
        assert_eq!(booked(&point(histogram(Some(12)), 2), &asked).unwrap().value, 12);
        for (point, part) in [
            (point(histogram(None), 2), "without a sum"),
            (point(LateValue::Sum(0), 2), "changes nothing"),
            (LatePoint { cumulative: true, ..point(LateValue::Sum(7), 2) }, "it is cumulative"),
        ] {
            let why = booked(&point, &asked).unwrap_err();
            assert!(why.contains(part), "{why}");
        }
    }

    #[test]
    fn what_is_faulty_is_named() {
        let right = AskedAdjustment {
            series: Some("shop.orders{shop=s1}".into()),
            hour: Some("2026-11-05T13".into()),
            value: Some(-250),
            reason: Some(" counted twice ".into()),
            ..AskedAdjustment::default()
        };
        let (meant, adjustment) = right.by_hand().unwrap();
        assert_eq!((adjustment.value, adjustment.reason.as_str()), (-250, "counted twice"));
        assert!(matches!(meant, Meant::Named(..)));
        let number = AskedAdjustment { series: Some("7".into()), ..right.clone() }.by_hand().unwrap();
        assert!(matches!(number.0, Meant::Number(7)));
        let text = |text: &str| Some(text.to_string());
        for (asked, part) in [
            (AskedAdjustment { series: None, ..right.clone() }, "has a series"),
            (AskedAdjustment { series: text("a{b"), ..right.clone() }, "names no series"),
            (AskedAdjustment { hour: text("2026-11-05"), ..right.clone() }, "more than an hour"),
            (AskedAdjustment { hour: text("november"), ..right.clone() }, "no period"),
            (AskedAdjustment { value: Some(0), ..right.clone() }, "0 changes nothing"),
            (AskedAdjustment { value: None, ..right.clone() }, "has a value"),
            (AskedAdjustment { reason: text(" "), ..right.clone() }, "has a reason"),
            (AskedAdjustment { reason: text("a\0b"), ..right.clone() }, "has a reason"),
            (AskedAdjustment { reason: text(&"x".repeat(1001)), ..right.clone() }, "1000 bytes"),
        ] {
            let why = asked.by_hand().err().unwrap();
            assert!(why.contains(part), "{asked:?}: {why}");
        }
    }
}
