//! Closes and reopens periods of the sink. A close is refused while something waits that may belong to the period, and
//! it does not flush by itself: whoever bills has to know what is missing.

use super::late_sums::{not_counted, NAME_SHOWN};
use super::named::named;
use super::query::Query;
use super::reach::Answer;
use super::status::held;
use super::status::Status;
use super::{Actor, AdminApi, Asked};
use crate::log::{of_nanoseconds, shown};
use crate::sink::periods::{Period, PeriodAction, PeriodOutcome};
use crate::sink::sql::BegunBefore;
use std::sync::Arc;

/// Closes a period although something waits that may belong to it.
pub const FORCE: &str = "force";
/// The same, from a client that has flushed and waited: what waits now came after that.
pub const FLUSHED: &str = "flush";

/// The zone of a period in a query; of UTC where there is none.
const TIME_ZONE: &str = "time-zone";

/// A period that a path names, by the clocks of the zone that its query names.
pub(super) fn period_of(text: &str, query: Query<'_>) -> Result<Period, String> {
    let period: Period = text.parse()?;
    match query.has(TIME_ZONE) {
        true => period.in_zone(&query.value(TIME_ZONE)?.parse()?),
        false => Ok(period),
    }
}

impl AdminApi {
    /// Closes or reopens a period; with `is_anyway` also if something waits that may belong to it.
    pub(super) async fn apply(
        self: &Arc<Self>,
        actor: Actor,
        asked: Asked,
        deed: Result<PeriodAction, String>,
        is_anyway: bool,
    ) -> Answer {
        match deed {
            Ok(deed) => {
                let doing = |who| self.close_or_open(who, deed, is_anyway);
                self.acts.recorded(actor, Some(asked), doing, Answer::outcome).await
            }
            Err(why) => Answer::told(400, &why),
        }
    }

    async fn close_or_open(self: &Arc<Self>, who: String, deed: PeriodAction, is_anyway: bool) -> Answer {
        let status = match &deed {
            PeriodAction::Close(_) => Some(self.status_of_all().await),
            PeriodAction::Open(_) | PeriodAction::Adjust(_) => None,
        };
        if let (PeriodAction::Close(period), Some(status), false) = (&deed, &status, is_anyway) {
            if let Some(what) = not_in_the_sink(status) {
                let late = format!("{what}: what it has of {period} would come late");
                let why = format!("{late}; close it with --flush, which waits for it, or --force");
                return Answer::told(409, &why);
            }
        }
        let mut more = status.map_or_else(String::new, |status| kept_back(&status));
        if let PeriodAction::Close(period) = &deed {
            more += &self.refused_of(period).await;
            more += &self.begun_before(period).await;
        }
        self.settled(&who, &deed, &more).await
    }

    /// What was refused of a period, and so is in none of its sums.
    async fn refused_of(&self, period: &Period) -> String {
        let told = match self.late_sums(period).await {
            Ok(sums) if sums.is_empty() => return String::new(),
            Ok(sums) => not_counted(&sums),
            Err(why) => format!("that is not known: {why}"),
        };
        format!("; refused, and not counted in it: {told} (`totxegun late`, `totxegun adjust --late KEY`)")
    }

    /// What counts in a period, and began before it.
    async fn begun_before(&self, period: &Period) -> String {
        let Some(totals) = &self.totals else { return String::new() };
        let told = match totals.begun_before(period).await {
            Ok(all) if all.is_empty() => return String::new(),
            Ok(all) => {
                let mut told: Vec<String> = all.iter().take(SHOWN).map(begun).collect();
                let more = all.len().saturating_sub(SHOWN);
                told.extend((more > 0).then(|| format!("and {more} more")));
                told.join("; ")
            }
            Err(why) => format!("that is not known: {why}"),
        };
        format!("; counted in it, though it began before: {told} (table long_intervals; `totxegun adjust` moves a part)")
    }

    /// What the sink says of a deed; of one that is done this is said too.
    pub(super) async fn settled(&self, who: &str, deed: &PeriodAction, and: &str) -> Answer {
        match self.sink.apply(who, deed).await {
            PeriodOutcome::Done(told) => Answer::told(200, &(told + and)),
            PeriodOutcome::Refused(why) => Answer::told(409, &why),
            PeriodOutcome::Later(why) => Answer::told(503, &why),
        }
    }
}

/// How many intervals a text has.
const SHOWN: usize = 5;

/// An interval that began before its period, in a line.
pub fn begun(of: &BegunBefore) -> String {
    let value = of.value.map_or_else(|| "values without a sum".to_string(), |value| value.to_string());
    let (series, sender) =
        (shown(&named(&of.series), NAME_SHOWN), of.sender.as_deref().unwrap_or("an unknown sender"));
    format!(
        "{value} of {series} by {sender} from {} to {}",
        of_nanoseconds(of.start_ns),
        of_nanoseconds(of.end_ns)
    )
}

/// What was taken of senders and goes to the sink, but is not there yet.
fn not_in_the_sink(status: &Status) -> Option<String> {
    if let Some((shard, why)) = status.unknown() {
        return Some(format!("shard {shard} can't be asked, and may have some ({why})"));
    }
    let has_posts = status.shards.iter().any(|shard| shard.released || shard.journal.age_seconds.is_some());
    match (status.waiting(), has_posts) {
        (0, false) => None,
        (0, true) => Some("there are posts that are not flushed".into()),
        (1, _) => Some("1 request waits for the sink".into()),
        (more, _) => Some(format!("{more} requests wait for the sink")),
    }
}

/// What reaches the sink only after an operator acts: dead letters, and posts of quarantined senders.
fn kept_back(status: &Status) -> String {
    let held = held(&status.shards).posts;
    let mut text = String::new();
    for (count, what) in [(status.dead_letters, "dead letters"), (held, "posts of quarantined senders")] {
        if count > 0 {
            text += &format!("; {count} {what} would come late");
        }
    }
    text
}
