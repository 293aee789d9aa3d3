//! `GET /series`: finds series by name and attributes, with their current totals in the sink, and shows one series with
//! its last hours.

use super::html::Html;
use super::plot::{self, Bar};
use super::{frame, AdminApi, Page};
use crate::admin::query::Query;
use crate::admin::status::Shown;
use crate::admin::totals::{identity, Totals};
use crate::command::values::grouped;
use crate::log::{seconds, utc};
use crate::sink::periods::Zone;
use crate::sink::sql::exact::Exact;
use crate::sink::sql::totals::Hour;
use crate::sink::sql::totals::{text, Histogram, SeriesTotal};
use serde_json::{Map, Value};

/// How many series are shown at most.
const ROWS: usize = 100;

/// An hour in seconds, and how many hours are plotted.
const HOUR: u64 = 3600;
const HOURS: u64 = 48;
/// The hours between two marks of the axis.
const MARK: u64 = 12;

/// The query: parts of a name and of attributes, or one series.
#[derive(Debug, Default, PartialEq, Eq)]
struct Wanted {
    name: String,
    attribute: String,
    /// The series by its `identity`.
    id: String,
    /// By whose clocks hours are shown; empty for UTC.
    time_zone: String,
}

impl AdminApi {
    pub(super) async fn series_page(&self, query: Query<'_>) -> String {
        let wanted = Wanted::of(query);
        let time_zone = wanted.time_zone.clone();
        let status = self.status();
        let mut html = Html::default();
        form(&mut html, &wanted);
        match &self.totals {
            None => {
                html.markup("<p class=note>Only a SQLite or PostgreSQL sink has totals here: ask ")
                    .text(&status.sink);
                html.markup(" for them.</p>");
            }
            Some(totals) => match totals.read(move |series| Ok(wanted.found(series))).await {
                Ok(found) => {
                    found.write(&mut html);
                    if let Some(one) = found.one() {
                        let zone = zone(&mut html, &identity(one), &time_zone);
                        last_hours(&mut html, totals, one, &zone).await;
                    }
                }
                Err(why) => {
                    html.markup("<p class=\"note bad\">The sink can't be read: ").text(why).markup("</p>");
                }
            },
        }
        frame(Page::Series, &Shown::of(&status), html)
    }
}

/// What was found: the first rows, how many there are, and how many series the sink has.
struct FoundRows {
    rows: Vec<SeriesTotal>,
    count: usize,
    of: usize,
    is_one: bool,
}

impl Wanted {
    /// A parameter that is not UTF-8 matches no series.
    fn of(query: Query<'_>) -> Wanted {
        let value = |key: &str| query.value(key).unwrap_or_else(|_| char::REPLACEMENT_CHARACTER.into());
        let trimmed = |key: &str| value(key).trim().to_string();
        let [name, attribute, time_zone] = ["name", "attribute", "time-zone"].map(trimmed);
        Wanted { name, attribute, id: value("id"), time_zone }
    }

    fn found(self, series: Vec<SeriesTotal>) -> FoundRows {
        let of = series.len();
        let mut rows: Vec<SeriesTotal> = series.into_iter().filter(|one| self.takes(one)).collect();
        let count = rows.len();
        rows.truncate(ROWS);
        FoundRows { rows, count, of, is_one: !self.id.is_empty() }
    }

    fn takes(&self, series: &SeriesTotal) -> bool {
        if !self.id.is_empty() {
            return identity(series) == self.id;
        }
        let has = |words: &str| {
            let wanted = words.to_lowercase();
            let mut all = pairs(&series.attributes).chain(pairs(&series.resource));
            all.any(|pair| pair.to_lowercase().contains(&wanted))
        };
        series.name.to_lowercase().contains(&self.name.to_lowercase())
            && self.attribute.split_whitespace().all(has)
    }
}

/// Each attribute as `key=value`.
fn pairs(attributes: &Map<String, Value>) -> impl Iterator<Item = String> + '_ {
    attributes.iter().map(|(key, value)| format!("{key}={}", text(value)))
}

fn joined(attributes: &Map<String, Value>) -> String {
    pairs(attributes).collect::<Vec<String>>().join(", ")
}

fn form(html: &mut Html, wanted: &Wanted) {
    html.markup("<form action=series><label>Name <input name=name type=search value=\"").text(&wanted.name);
    html.markup("\"></label><label>Attributes <input name=attribute type=search placeholder=\"route=/ shop\" value=\"");
    html.text(&wanted.attribute).markup("\"></label><button>Search</button></form>\n");
}

impl FoundRows {
    /// The series, if one was asked for.
    fn one(&self) -> Option<&SeriesTotal> {
        self.rows.first().filter(|_| self.is_one)
    }

    fn write(&self, html: &mut Html) {
        match self.one() {
            Some(one) => self::one(html, one),
            None => self.table(html),
        }
    }

    fn table(&self, html: &mut Html) {
        html.markup("<section><h2>")
            .text(grouped(self.count))
            .markup(" of ")
            .text(grouped(self.of))
            .markup(" series</h2>");
        let heads = ["name", "attributes", "total#", "unit", "count#", "until (UTC)", "resource"];
        let rows: Vec<Vec<String>> = self.rows.iter().map(row).collect();
        let ids: Vec<String> = self.rows.iter().map(identity).collect();
        html.table("Series that were found", &heads, &rows, &ids);
        if self.count > ROWS {
            html.markup("<p class=note>These are the first ")
                .text(ROWS)
                .markup(": write more of the name or an attribute.</p>");
        }
        html.end_section();
    }
}

/// The row of a series in the table.
fn row(series: &SeriesTotal) -> Vec<String> {
    let count = series.histogram.as_ref().map(|histogram| grouped(histogram.count));
    vec![
        series.name.clone(),
        joined(&series.attributes),
        grouped(series.total),
        series.unit.clone(),
        count.unwrap_or_default(),
        time(series.end_ns),
        joined(&series.resource),
    ]
}

/// The page of one series.
fn one(html: &mut Html, series: &SeriesTotal) {
    let rows: Vec<_> = facts(series).into_iter().map(|(what, value)| vec![what.to_string(), value]).collect();
    html.markup("<section><h2>").text(&series.name).markup("</h2><p class=total>");
    html.text(grouped(series.total)).markup(" <small>").text(&series.unit);
    html.markup("</small></p>").table("What is known of it", &["what", "value"], &rows, &[]).end_section();
    if let Some(histogram) = &series.histogram {
        buckets(html, histogram);
    }
}

fn facts(series: &SeriesTotal) -> Vec<(&'static str, String)> {
    let (scope, version) = (&series.scope_name, &series.scope_version);
    let of_scope = joined(&series.scope_attributes);
    let mut facts = vec![
        ("kind", series.kind.shown().to_string()),
        ("attributes", joined(&series.attributes)),
        ("resource", joined(&series.resource)),
        ("scope", format!("{scope} {version} {of_scope}")),
        ("from (UTC)", time(series.start_ns)),
        ("until (UTC)", time(series.end_ns)),
        ("spans", grouped(series.points)),
    ];
    let count = series.histogram.as_ref().map(|histogram| histogram.count);
    facts.extend(count.map(|count| ("count", grouped(count))));
    facts
}

fn buckets(html: &mut Html, histogram: &Histogram) {
    let bounds = histogram.bounds.iter().map(|bound| format!("to {}", grouped(bound)));
    let names = bounds.chain(["over all of them".to_string()]);
    let counts = histogram.buckets.iter().map(grouped);
    let rows: Vec<_> = names.zip(counts).map(|(name, count)| vec![name, count]).collect();
    html.section("Buckets")
        .table("How many values each bucket has", &["values", "count#"], &rows, &[])
        .end_section();
}

/// Asks for a time zone, and reads the one that was asked for.
fn zone(html: &mut Html, id: &str, asked: &str) -> Zone {
    html.markup("<form action=series><input type=hidden name=id value=\"").text(id);
    html.markup("\"><label>Time zone <input name=time-zone placeholder=\"Europe/Berlin\" value=\"")
        .text(asked);
    html.markup("\"></label><button>Show hours</button></form>\n");
    match asked {
        "" => Zone::utc(),
        asked => asked.parse().unwrap_or_else(|why| {
            html.markup("<p class=\"note bad\">").text(why).markup("</p>");
            Zone::utc()
        }),
    }
}

/// What came in each of the last hours: of a histogram how many values, else their sum. Nothing where the sink has no hours.
async fn last_hours(html: &mut Html, totals: &Totals, series: &SeriesTotal, zone: &Zone) {
    let from = (seconds() / HOUR + 1).saturating_sub(HOURS);
    match totals.hours(series.digest, from).await {
        Ok(None) => {}
        Ok(Some(hours)) => plot_of_hours(html, &hours, from, zone),
        Err(why) => {
            html.markup("<p class=\"note bad\">The hours can't be read: ").text(why).markup("</p>");
        }
    }
}

fn plot_of_hours(html: &mut Html, hours: &[Hour], from: u64, zone: &Zone) {
    let hour = |hour: u64| zone.shown(hour * HOUR)[..16].to_string();
    let of = |wanted: u64| hours.iter().find(|hour| hour.hour == wanted);
    let bar = |wanted: u64| {
        let value = of(wanted).map_or(Exact::default(), |hour| hour.count.unwrap_or(hour.total));
        Bar { value: value.0 as f64, text: format!("{}: {}", hour(wanted), grouped(value)) }
    };
    let bars: Vec<Bar> = (from..from + HOURS).map(bar).collect();
    let marks = (0..=HOURS / MARK).map(|mark| hour(from + mark * MARK)[5..].to_string());
    let label = "Bars of the last 48 hours: the table below has each that is not zero";
    plot::bars(html.section("The last 48 hours"), label, &bars, &marks.collect::<Vec<String>>());
    let rows = hours.iter().rev().map(|one| {
        let count = one.count.map(grouped).unwrap_or_default();
        vec![hour(one.hour), grouped(one.total), count]
    });
    let rows: Vec<_> = rows.collect();
    let is_utc = *zone == Zone::utc();
    if !is_utc {
        html.markup("<p class=note>Hours are by the clocks of ").text(zone).markup(".</p>");
    }
    let heads = [if is_utc { "hour (UTC)" } else { "hour" }, "total#", "count#"];
    html.table("What came in each hour, the last first", &heads, &rows, &[]).end_section();
}

/// The time in UTC, to the second.
fn time(nanoseconds: u64) -> String {
    utc(nanoseconds / 1_000_000_000)
}

#[cfg(test)]
mod tests {
    use super::*;
    use crate::admin::totals::tests;
    use crate::sink::sql::totals::Kind;
    use serde_json::json;

    fn series(name: &str, attributes: Value) -> SeriesTotal {
        let resource = tests::object(json!({"service.name": "shop"}));
        SeriesTotal { resource, ..tests::series(name, "1", Kind::Monotonic, 1_234_567, attributes) }
    }

    fn names(query: &str) -> Vec<String> {
        let all = vec![
            series("orders", json!({"route": "/a b", "code": 200})),
            series("orders.value", json!({"route": "/c&d"})),
            series("Requests", json!({"<b>": "\"'"})),
        ];
        let found = Wanted::of(Query(query)).found(all);
        assert_eq!((found.count, found.of), (found.rows.len(), 3));
        found.rows.into_iter().map(|row| row.name).collect()
    }

    #[test]
    fn series_are_found_by_parts() {
        let all = ["orders", "orders.value", "Requests"];
        assert_eq!(names(""), all);
        assert_eq!(names("name=&attribute=&x=1"), all);
        assert_eq!(names("name=ORDER"), all[..2]);
        assert_eq!(names("attribute=code%3D200"), all[..1]);
        assert_eq!(names("attribute=%2Fc%26d+service.name%3Dshop"), all[1..2]);
        assert_eq!(names("attribute=shop&name=quest"), all[2..]);
        assert!(names("name=nobody").is_empty() && names("attribute=%FF").is_empty());
        let id = identity(&series("Requests", json!({"<b>": "\"'"})));
        assert_eq!(names(&format!("id={id}&name=orders")), all[2..]);
    }

    #[test]
    fn a_sum_and_a_monotonic_one_have_pages_of_their_own() {
        let counter = series("orders", json!({}));
        let sum = SeriesTotal { kind: Kind::Sum, total: Exact(-5), ..counter.clone() };
        for wanted in [&counter, &sum] {
            let query = format!("id={}", identity(wanted));
            let found = Wanted::of(Query(&query)).found(vec![counter.clone(), sum.clone()]);
            assert_eq!(found.one(), Some(wanted));
        }
    }

    #[test]
    fn each_of_the_last_hours_has_its_bar() {
        let hours = [(1000, 5, None), (1047, 7000, Some(Exact(3)))];
        let hours = hours.map(|(hour, total, count)| Hour { hour, total: Exact(total), count });
        let mut html = Html::default();
        plot_of_hours(&mut html, &hours, 1000, &Zone::utc());
        let text = html.into_text();
        assert_eq!(text.matches("<rect").count(), 48);
        assert!(
            text.contains("<title>1970-02-11 16:00: 5</title>")
                && text.contains("<title>1970-02-13 15:00: 3</title>")
        );
        assert!(text.contains("7,000</td>"), "{text}");
        let marks = ["02-11 16:00", "02-12 04:00", "02-12 16:00", "02-13 04:00", "02-13 16:00"];
        let marks = marks.map(|mark| format!("<span>{mark}</span>")).concat();
        assert!(text.contains(&format!("<div class=axis>{marks}</div>")), "{text}");
    }

    #[test]
    fn hours_are_those_of_the_zone_that_is_asked_for() {
        let hours = [Hour { hour: 1000, total: Exact(5), count: None }];
        let mut html = Html::default();
        let berlin = zone(&mut html, "1", "Europe/Berlin");
        plot_of_hours(&mut html, &hours, 1000, &berlin);
        assert_eq!(zone(&mut html, "1", "<Atlantis>"), Zone::utc());
        let text = html.into_text();
        for part in [
            "by the clocks of Europe/Berlin.",
            "<title>1970-02-11 17:00: 5</title>",
            "`&lt;Atlantis&gt;` is no time zone",
        ] {
            assert!(text.contains(part), "{part} in {text}");
        }
    }

    #[test]
    fn what_a_sender_wrote_is_no_markup() {
        let hostile = "\"><script>alert(1)</script><img src=x onerror=alert(1)>";
        let mut made = series(hostile, json!({hostile: hostile}));
        (made.unit, made.scope_name) = (hostile.into(), hostile.into());
        made.resource = made.attributes.clone();
        let mut html = Html::default();
        form(&mut html, &Wanted::of(Query("name=%22%3E%3Cscript%3E&attribute=%27%3Cscript%3E")));
        one(&mut html, &made);
        let found = Wanted::default().found(vec![made]);
        found.write(&mut html);
        let text = html.into_text();
        assert!(!text.contains("<script") && !text.contains("<img") && !text.contains("\"\">"), "{text}");
        assert!(text.contains("1,234,567"), "{text}");
    }
}
