//! The units that a folder has series in, which a start has to know before it reads a post: those of the outbox, and of posts
//! in the journal that are in no group. The outbox also says which of them decide nothing.

use super::units::{Named, Unit};
use super::FinerUnits;
use crate::journal::{Body, Journal};
use crate::otlp::json::{Document, Value};
use crate::otlp::series::{metrics, visit, Around, Profile, SeriesKey};
use crate::outbox::{Outbox, UnitOfMetric};
use crate::storage::Fault;
use crate::work::in_order;
use bytes::Bytes;

impl FinerUnits {
    /// Notes the units of all series of a folder.
    pub fn know(&self, outbox: &Outbox, journal: &Journal) -> Result<(), Fault> {
        let Some(units) = &self.units else {
            return Ok(());
        };
        let beside = outbox.beside().into_iter();
        units.begin(beside.filter_map(|(metric, unit)| Some((metric, Unit::of(&unit)?))));
        self.know_series_of(outbox, journal)?;
        // Before a post may hang on it.
        outbox.leave_beside(&named(&units.settle()))
    }

    /// Whether a post that was read may hang on what the outbox does not have.
    pub fn has_unkept(&self) -> bool {
        self.units.as_ref().is_some_and(|units| units.has_unkept())
    }

    /// Has the outbox know which units decide nothing.
    pub fn keep(&self, outbox: &Outbox) -> Result<(), Fault> {
        let Some(units) = &self.units else {
            return Ok(());
        };
        let unsaved = units.unsaved();
        outbox.put_beside(&named(&unsaved[0]))?;
        outbox.leave_beside(&named(&unsaved[1]))?;
        units.kept(&unsaved);
        Ok(())
    }

    fn know_series_of(&self, outbox: &Outbox, journal: &Journal) -> Result<(), Fault> {
        // Side by side: what is known of a metric is a set of units.
        outbox.each_keys(|keys| self.know_keys(&keys));
        in_order(
            |requests: &mut Vec<Bytes>| self.know_requests(requests),
            |_| Ok(()),
            |queue| {
                journal.requests(outbox.journal(), u64::MAX, |read| {
                    let mut texts: Vec<Bytes> = read.named.into_iter().map(|(_, text)| text).collect();
                    if let Body::Text(text) = read.post.body {
                        texts.push(text);
                    }
                    texts.is_empty() || queue.push(texts)
                })
            },
        )
    }

    /// Most have the metric of the one before.
    pub(super) fn know_keys(&self, keys: &[SeriesKey]) {
        let mut known = None;
        for SeriesKey(key) in keys {
            if !known.is_some_and(|known| key.starts_with(known)) {
                known = self.know_series(key);
            }
        }
    }

    /// How the keys of its metric's series begin.
    pub(super) fn know_series<'k>(&self, key: &'k str) -> Option<&'k str> {
        let document = Document::parse(key.as_bytes()).ok()?;
        let mut parts = document.root().elements()?.skip(4);
        let (name, unit) = (parts.next()?, parts.next()?);
        self.know_unit(name, unit);
        key.get(..=unit.range().end) // with the comma
    }

    /// Where all metrics of one are known, another point of theirs says nothing.
    pub(super) fn know_requests(&self, requests: &[Bytes]) {
        let mut known: Option<Around<'_>> = None;
        for request in requests {
            if known.as_ref().is_none_or(|known| known.point(request).is_none()) {
                known = self.know_request(request).then(|| Around::of(request)).flatten();
            }
        }
    }

    /// Of a request in the book's form the metrics with points that are taken: whether all its metrics are known then.
    pub(super) fn know_request(&self, request: &[u8]) -> bool {
        let Ok(document) = Document::parse(request) else {
            return false;
        };
        // Most say what is known already, and a look at their points takes several times as long.
        if self.is_known(&document) {
            return true;
        }
        let _ = visit(&document, Profile::Deltas, |seen| {
            if let (Ok(_), Some(name), Some(unit)) = (seen.found, seen.metric.name, seen.metric.unit) {
                self.know_unit(name, unit);
            }
        });
        self.is_known(&document)
    }

    /// Whether all metrics are, whatever points they have.
    fn is_known(&self, document: &Document<'_>) -> bool {
        metrics(document).all(|metric| {
            let [name, unit] = metric.named(["name", "unit"]).unwrap_or_default();
            let unit = unit.and_then(|unit| Unit::of(&unit.text()?));
            let known = |unit| Some(self.units.as_ref()?.has(&name?.text()?, unit));
            unit.is_none_or(|unit| known(unit).unwrap_or(false))
        })
    }

    fn know_unit(&self, name: Value<'_>, unit: Value<'_>) {
        let unit = unit.text().and_then(|unit| Unit::of(&unit));
        if let (Some(units), Some(name), Some(unit)) = (&self.units, name.text(), unit) {
            units.note(&name, unit);
        }
    }
}

fn named(units: &[Named]) -> Vec<UnitOfMetric> {
    units.iter().map(|(metric, unit)| (metric.to_string(), unit.name().to_string())).collect()
}
