//! What of a request is handed on to another receiver: the request as it came, with those points alone that are outside the
//! profile and have nothing wrong. Resources, scopes and metrics keep whatever else they have, byte for byte.
//!
//! `visit` says of each point of the request in the book's form whether it is one; these are taken out of the request as it
//! came, which has the same points in the same order.

use super::causes::Causes;
use super::request::{Edit, Node, Request};
use super::schema::{
    Field, Kind, Message, EXPONENTIAL_OF, GAUGE_OF, HISTOGRAM_OF, METRIC, REQUEST, SUMMARY_OF, SUM_OF,
};
use super::series::{visit_body, Profile};
use super::{Encoding, Reason};
use bytes::Bytes;
use std::collections::VecDeque;

/// A request as it came, unpacked.
#[derive(Clone, Debug)]
pub struct Original {
    pub encoding: Encoding,
    pub body: Bytes,
}

/// What of it is handed on.
#[derive(Debug, PartialEq)]
pub struct Outside {
    pub encoding: Encoding,
    pub body: Bytes,
    pub points: u64,
}

/// The kinds of data that have points, in the order in which a metric's are visited. The first are of no series.
static KINDS: [&Field; 5] = [GAUGE_OF, EXPONENTIAL_OF, SUMMARY_OF, SUM_OF, HISTOGRAM_OF];
const OF_NO_SERIES: usize = 3;
/// Of these some may be taken: `--exponential`.
const EXPONENTIAL: usize = 1;

/// Says of each point in turn whether it is handed on, by the place of its kind.
type Choose<'c> = dyn FnMut(usize) -> bool + 'c;

impl Original {
    /// What is handed on of a request with so many foreign points, and the causes of the others. `text` is the request in the
    /// book's form.
    pub fn outside(
        &self,
        foreign: u64,
        profile: Profile,
        text: impl FnOnce() -> Option<Bytes>,
    ) -> (Option<Outside>, Causes) {
        // As a rule all of them are of kinds that are of no series.
        if self.encoding == Encoding::Protobuf {
            let (body, points) = self.with(|kind| kind < OF_NO_SERIES && kind != EXPONENTIAL);
            if points == foreign {
                return (self.made(body, points), Causes::default());
            }
        }
        let text = text().unwrap_or_default();
        let Some(found) = points(&text, profile) else {
            return (None, Causes::of(&text, profile, foreign));
        };
        let passed = found.iter().filter(|(is_passed, _)| *is_passed).count();
        let rest = found.iter().filter_map(|(is_passed, cause)| cause.filter(|_| !is_passed));
        let causes: Causes = rest.map(|cause| (cause, 1)).collect();
        let mut of_each = found.iter();
        let (body, points) = self.with(|_| of_each.next().is_some_and(|(is_passed, _)| *is_passed));
        let is_same = of_each.next().is_none() && points == passed as u64;
        match is_same && points + causes.count() == foreign {
            true => (self.made(body, points), causes),
            false => (None, Causes::of(&text, profile, foreign)),
        }
    }

    /// How many points it has, whatever they are, as far as it can be read.
    pub fn points(&self) -> u64 {
        let mut points = 0;
        let _nothing = self.with(|_| {
            points += 1;
            false
        });
        points
    }

    fn with(&self, mut choose: impl FnMut(usize) -> bool) -> (Option<Vec<u8>>, u64) {
        let mut points = 0;
        let mut counted = |kind| {
            let is_chosen = choose(kind);
            points += u64::from(is_chosen);
            is_chosen
        };
        let body = Request::of(self.encoding, &self.body).ok().and_then(|request| {
            let mut out = Vec::new();
            let is_any = matches!(put(request.root(), &REQUEST, &mut out, &mut counted), Edit::Written);
            is_any.then_some(out)
        });
        (body, points)
    }

    fn made(&self, body: Option<Vec<u8>>, points: u64) -> Option<Outside> {
        let (encoding, body) = (self.encoding, body?.into());
        Some(Outside { encoding, body, points })
    }
}

/// Writes a message with the points that are chosen: left out if none is, or if it can't be read.
fn put<'a>(message: Node<'a>, of: &'static Message, out: &mut Vec<u8>, choose: &mut Choose<'_>) -> Edit {
    if std::ptr::eq(of, &METRIC) {
        return put_metric(message, out, choose).unwrap_or(Edit::LeftOut);
    }
    let mut is_any = false;
    let written = message.edited(of, out, &mut |field, inner, out| {
        let edit = match field.kind {
            Kind::Messages(inner_of) => put(inner, inner_of, out, choose),
            _ => return Some(Edit::AsItCame),
        };
        is_any |= matches!(edit, Edit::Written);
        Some(edit)
    });
    if written.is_some() && is_any {
        Edit::Written
    } else {
        Edit::LeftOut
    }
}

/// Its points are chosen in the order in which they are visited, and its kinds of data stay in theirs. None if it can't be read.
fn put_metric<'a>(metric: Node<'a>, out: &mut Vec<u8>, choose: &mut Choose<'_>) -> Option<Edit> {
    // Of each kind its parts, and what becomes of them, in order.
    let mut parts: [Vec<Node<'a>>; KINDS.len()] = Default::default();
    let place_of = |field| KINDS.iter().position(|kind| std::ptr::eq(*kind, field));
    metric.edited(&METRIC, &mut Vec::new(), &mut |field, data, _| {
        parts[place_of(field)?].push(data);
        Some(Edit::LeftOut)
    })?;
    let mut chosen: [VecDeque<Option<Vec<u8>>>; KINDS.len()] = Default::default();
    for (place, parts) in parts.into_iter().enumerate() {
        chosen[place] =
            parts.into_iter().map(|data| chosen_of(data, KINDS[place], &mut || choose(place))).collect();
    }
    chosen.iter().flatten().flatten().next()?;
    metric.edited(&METRIC, out, &mut |field, _, out| {
        Some(match chosen[place_of(field)?].pop_front().flatten() {
            Some(data) => {
                out.extend_from_slice(&data);
                Edit::Written
            }
            None => Edit::LeftOut,
        })
    })?;
    Some(Edit::Written)
}

/// A metric's data with the points that are chosen; nothing if none is.
fn chosen_of(data: Node<'_>, kind: &Field, choose: &mut dyn FnMut() -> bool) -> Option<Vec<u8>> {
    let (mut out, mut is_any) = (Vec::new(), false);
    data.edited(kind.message()?, &mut out, &mut |_, _, _| {
        let is_chosen = choose();
        is_any |= is_chosen;
        Some(if is_chosen { Edit::AsItCame } else { Edit::LeftOut })
    })?;
    is_any.then_some(out)
}

/// Whether a point is handed on, by the kind of its metric's data, and by why it is foreign.
pub fn is_passed(kind: &str, cause: Option<Reason>) -> bool {
    let is_of_no_series = KINDS[..OF_NO_SERIES].iter().any(|other| other.name == kind);
    is_of_no_series || cause.is_some_and(Reason::is_passed)
}

/// Of each point of a request in the book's form whether it is handed on, and why it is foreign; none where it can't be read.
fn points(text: &[u8], profile: Profile) -> Option<Vec<(bool, Option<Reason>)>> {
    let mut points = Vec::new();
    visit_body(text, profile, |seen| {
        let cause = Reason::of_seen(&seen);
        points.push((is_passed(seen.kind, cause), cause));
    })?;
    Some(points)
}

#[cfg(test)]
mod tests;
