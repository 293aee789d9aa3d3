//! One answer of those that the parts of a request got.
//!
//! What may be taken once it is sent again makes all of it one to send again: what was taken is left out then as a duplicate, so
//! nothing counts twice, and nothing is dropped. Else the request counts as taken where any part was: a sender that is told
//! that all of it is refused would take its own repeat for lost. Points of refused parts are among the rejected then.

use super::json::Document;
use super::series::points_by_resource;
use super::{prepare, Causes, OffClock, Original, Outcome, Reading, Reason, Rejection};
use std::cell::OnceCell;

/// How many resources of refused parts are named.
const NAMED: usize = 5;
/// The status of what is too long for its memory.
const TOO_LONG: u16 = 413;

/// A part of a request that was asked for.
pub struct OfPart {
    pub outcome: Outcome,
    pub part: Original,
    /// The places of its resources in the request, ascending.
    pub resources: Vec<u32>,
}

/// What the sender of a request is answered of which these are all parts, in the order of their first resources.
pub fn combined(parts: &[OfPart], reading: &Reading) -> Outcome {
    if let Some(again) = again(parts) {
        return again.clone();
    }
    let whole = Whole { parts, reading, points: OnceCell::new() };
    let is_taken = |part: &OfPart| matches!(part.outcome, Outcome::Taken { .. });
    match parts.iter().any(is_taken) {
        true => whole.taken(),
        false => whole.refused(),
    }
}

/// That it is to be sent again, and when: once all can be taken.
fn again(parts: &[OfPart]) -> Option<&Outcome> {
    let outcomes = || parts.iter().map(|part| &part.outcome);
    let is_unavailable = |outcome: &&Outcome| outcome.status() == 503;
    let is_later = |outcome: &&Outcome| outcome.reason().is_some_and(Reason::is_repeated);
    let unavailable = outcomes().find(is_unavailable);
    unavailable.or_else(|| outcomes().filter(is_later).max_by_key(|later| later.again_in()))
}

struct Whole<'p> {
    parts: &'p [OfPart],
    reading: &'p Reading,
    /// Of each resource of the request how many points of the profile it has; none where that is not known.
    points: OnceCell<Vec<Option<u64>>>,
}

impl Whole<'_> {
    /// By its first part that was.
    fn refused(&self) -> Outcome {
        let first = self.parts.iter().find_map(|part| match &part.outcome {
            Outcome::Refused(rejection) => Some(self.placed(part, rejection)),
            Outcome::Taken { .. } => None,
        });
        first.map_or_else(|| Outcome::taken(0), Outcome::Refused)
    }

    /// A part's rejection. It names a point by its place in the request.
    fn placed(&self, part: &OfPart, rejection: &Rejection) -> Rejection {
        let place = rejection.point.and_then(|point| self.place(part, point.place));
        match place {
            Some(place) => rejection.clone().placed(place),
            None => rejection.clone(),
        }
    }

    /// Where in the request is the point that has this place in a part.
    fn place(&self, part: &OfPart, mut place: u64) -> Option<u64> {
        let points = self.points.get_or_init(|| self.count());
        for resource in part.resources.iter().map(|resource| *resource as usize) {
            let own = (*points.get(resource)?)?;
            if place < own {
                let before: Option<u64> = points[..resource].iter().copied().sum();
                return Some(before? + place);
            }
            place -= own;
        }
        None
    }

    /// A part that can't be read has none. One that there was no memory for is not read here either.
    fn count(&self) -> Vec<Option<u64>> {
        let resources = self.parts.iter().map(|part| part.resources.len()).sum();
        let mut all = vec![None; resources];
        for part in self.parts.iter().filter(|part| part.outcome.status() != TOO_LONG) {
            let prepared = prepare(part.part.encoding, part.part.body.clone(), self.reading);
            let body = prepared.map(|prepared| prepared.body).unwrap_or_default();
            let points = Document::parse(&body)
                .ok()
                .and_then(|document| points_by_resource(&document, self.reading.profile));
            let points = points.unwrap_or_default().into_iter().chain(std::iter::repeat(0));
            for (resource, points) in part.resources.iter().zip(points) {
                all[*resource as usize] = Some(points);
            }
        }
        all
    }

    fn taken(&self) -> Outcome {
        let (mut all, mut clocks, mut known) = (0, OffClock::default(), Causes::default());
        let (mut not_fit, mut refused) = (None, Vec::<RefusedParts>::new());
        for part in self.parts {
            match &part.outcome {
                Outcome::Taken { rejected, off, causes, unfit, parts } => {
                    all += rejected;
                    clocks = clocks.and(*off);
                    known = known.and(causes);
                    not_fit = not_fit.or_else(|| unfit.clone());
                    for (points, rejection) in parts {
                        add(&mut refused, *points, self.placed(part, rejection), &[]);
                    }
                }
                Outcome::Refused(rejection) => {
                    let (points, rejection) = (part.part.points(), self.placed(part, rejection));
                    // Which part that is, its point says if it has one.
                    let of_part = if rejection.point.is_some() { &[][..] } else { &part.resources };
                    all += points;
                    add(&mut refused, points, rejection, of_part);
                }
            }
        }
        let parts = refused.into_iter().map(RefusedParts::told).collect();
        Outcome::Taken { rejected: all, off: clocks, causes: known, unfit: not_fit, parts }
    }
}

/// What was refused for one reason: how many points, and the places of the resources of which nothing was taken.
struct RefusedParts {
    points: u64,
    rejection: Rejection,
    resources: Vec<u32>,
}

impl RefusedParts {
    /// With these resources: a sender repeats them by themselves, or looks for who is meant.
    fn told(mut self) -> (u64, Rejection) {
        self.resources.sort_unstable();
        let named: Vec<String> = self.resources.iter().take(NAMED).map(u32::to_string).collect();
        let more = self.resources.len() - named.len();
        let resources = match (&named[..], more) {
            ([], _) => return (self.points, self.rejection),
            ([one], _) => format!(": resource {one} of the request"),
            (_, 0) => format!(": resources {} of the request", named.join(", ")),
            _ => format!(": resources {} and {more} more of the request", named.join(", ")),
        };
        (self.points, self.rejection.and(&resources))
    }
}

/// Those of one reason are told together, by the first of them.
fn add(all: &mut Vec<RefusedParts>, points: u64, rejection: Rejection, resources: &[u32]) {
    match all.iter_mut().find(|known| known.rejection == rejection) {
        Some(known) => {
            known.points += points;
            known.resources.extend(resources);
        }
        None => all.push(RefusedParts { points, rejection, resources: resources.into() }),
    }
}

#[cfg(test)]
mod tests;
