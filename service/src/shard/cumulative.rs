//! Puts in a post with cumulative points: converts them to deltas under the lock of the runs, and holds that lock until
//! the journal has the post. `request` calls it.

use super::duplicates::PointFate;
use super::posted::{fits, LeftOut, Posted};
use super::refused_points::RefusedPoints;
use super::request::Put;
use super::verdict::PendingAnswer;
use super::{ByNumber, Shard};
use crate::book::{PointRefusal, Read, Refused};
use crate::journal::Names as _;
use crate::log::{shown, RateLimit};
use crate::otlp::series::{self, Digest};
use crate::otlp::{Outcome, Reason, Window};
use crate::post_reports::SERIES_SHOWN;
use crate::quota::QuotaClaim;
use crate::runs::{self, Draft};
use std::collections::{HashMap, HashSet};
use std::mem::take;
use std::sync::atomic::{AtomicU64, Ordering::Relaxed};
use std::sync::Arc;
use std::time::Duration;

/// Runs that are noted are logged once in this time at most, since one connection can post thousands a second.
const TOLD_EVERY: Duration = Duration::from_secs(10);

/// Limits the log lines about noted runs.
pub(super) struct NotedRuns {
    rate_limit: RateLimit,
    /// How many were noted since the last line.
    untold: AtomicU64,
}

impl NotedRuns {
    pub fn new() -> NotedRuns {
        NotedRuns { rate_limit: RateLimit::every(TOLD_EVERY), untold: AtomicU64::new(0) }
    }

    /// If a line is due, how many were noted without one; otherwise counts these for the next line.
    fn untold_before(&self, noted: usize) -> Option<u64> {
        if self.rate_limit.is_due() {
            return Some(self.untold.swap(0, Relaxed));
        }
        self.untold.fetch_add(noted as u64, Relaxed);
        None
    }
}

/// The result of a try.
enum Tried {
    Put(Put),
    /// The library found a point foreign that this code took for valid.
    Otherwise,
    Apart(Apart),
    /// A flush in flight has to end first.
    InFlight,
}

/// What has to change before the post is tried once more.
#[derive(Default)]
struct Apart {
    /// Series whose end in the book is later than their run's, with that end.
    beyond: Vec<(Digest, u64)>,
    left: Vec<LeftPoint>,
}

/// A point that is left out.
struct LeftPoint {
    /// Its index among the points that were tried; `place` is its index in the request.
    at: u32,
    place: u64,
    fate: PointFate,
}

/// A post whose cumulative points are being converted to deltas.
struct Making {
    sender: String,
    by: ByNumber,
    window: Window,
    left_out: LeftOut,
    /// The ends of series that end later in the book than was known.
    frontiers: HashMap<Digest, u64>,
    is_of_text: bool,
    /// Duplicates and refused points that earlier tries have left out.
    duplicates: u64,
    refused: RefusedPoints,
}

impl Making {
    fn of(sender: String, mut by: ByNumber, window: Window, is_of_text: bool) -> Making {
        let left_out = LeftOut::of(&mut by, &window);
        let (frontiers, refused) = (HashMap::new(), RefusedPoints::default());
        Making { sender, by, window, left_out, frontiers, is_of_text, duplicates: 0, refused }
    }

    fn part(&mut self, apart: Apart) {
        self.frontiers.extend(apart.beyond);
        for LeftPoint { at, place, fate } in &apart.left {
            match (fate, self.by.points.point(*at)) {
                (PointFate::Refused(refusal), Some(point)) => {
                    let is_cumulative = self.by.cumulative.binary_search(at).is_ok();
                    self.refused.add(*place, point, *refusal, is_cumulative);
                }
                _ => self.duplicates += 1,
            }
        }
        let left: HashSet<u32> = apart.left.iter().map(|left| left.at).collect();
        self.left_out.add(left.iter().map(|at| u64::from(*at)));
        self.by.keep(|place, _| !left.contains(&place));
    }
}

impl Shard {
    /// Does what `put_in_turn` does.
    pub(super) async fn put_cumulative(
        self: &Arc<Shard>,
        sender: String,
        by: ByNumber,
        mut claim: QuotaClaim,
    ) -> Result<PendingAnswer, Reason> {
        let all = by.points.count() as u64;
        let mut making = Making::of(sender, by, self.clock.window(), false);
        loop {
            let landed = self.landed.notified(); // registered before the try, so that none is missed
            let put;
            (making, claim, put) = self.made(making, claim, all).await;
            match put? {
                Some(put) => {
                    self.count_put(&making.sender, &put);
                    let Making { refused, sender, by, .. } = &mut making;
                    return Ok(put.journalled.with_late(Some(refused.take_kept(self, sender, &by.names))));
                }
                None => landed.await,
            }
        }
    }

    async fn made(
        self: &Arc<Shard>,
        mut making: Making,
        mut claim: QuotaClaim,
        all: u64,
    ) -> (Making, QuotaClaim, Result<Option<Put>, Reason>) {
        let (shard, length) = (self.clone(), making.by.bytes());
        let put = move || {
            let put = shard.put_made(&mut making);
            if let Some(put) = put.as_ref().ok().and_then(Option::as_ref).filter(|put| put.is_in_book) {
                claim.keep(put.points + put.duplicates, all);
            }
            (making, claim, put)
        };
        self.readers.read(length, put).await
    }

    /// None if a flush in flight has to end first; the caller waits without the lock of the runs.
    fn put_made(&self, making: &mut Making) -> Result<Option<Put>, Reason> {
        loop {
            match self.try_made(making)? {
                Tried::Put(put) => return Ok(Some(put)),
                Tried::InFlight => return Ok(None),
                Tried::Apart(apart) => making.part(apart),
                Tried::Otherwise if making.is_of_text => return Ok(Some(self.not_made(Refused::NotOne))),
                Tried::Otherwise => match self.of_text(&making.by) {
                    Ok(by) => *making = Making::of(take(&mut making.sender), by, making.window, true),
                    Err(refused) => return Ok(Some(self.not_made(refused))),
                },
            }
        }
    }

    fn not_made(&self, refused: impl Into<Outcome>) -> Put {
        let journalled = PendingAnswer::behind_all(refused, &self.journal);
        Put { journalled, is_in_book: false, points: 0, duplicates: 0 }
    }

    /// The same points as the text of the request has them: the library finds none of these foreign.
    fn of_text(&self, by: &ByNumber) -> Result<ByNumber, Refused> {
        let text = by.source.clone().text().ok_or(Refused::NotJson)?; // it could be parsed when its points got numbers
        self.numbered_text(&text)?.ok_or(Refused::WrongShape)
    }

    fn try_made(&self, making: &Making) -> Result<Tried, Reason> {
        let (by, left_out) = (&making.by, &making.left_out);
        let posted = runs::Posted { points: &by.points, cumulative: &by.cumulative, names: &by.names };
        let frontier = |series: &Digest| match making.frontiers.get(series) {
            Some(frontier) => *frontier,
            None => self.outbox.frontier(series),
        };
        let mut draft = self.runs.draft(posted, frontier);
        let among_all = |place| left_out.place_of(place);
        let left = self.of_another(making, &draft);
        if !left.is_empty() {
            return Ok(Tried::Apart(Apart { left, ..Apart::default() }));
        }
        let foreign = by.foreign + draft.foreign();
        let said = |journalled: PendingAnswer, draft: &Draft<'_>| {
            let journalled = journalled.without(foreign, left_out.off, &draft.turned);
            journalled.without_refused(making.refused.named(&by.names, |place| place))
        };
        // Including points that add nothing.
        let points = by.points.count() as u64 - draft.foreign() - draft.turned.count();
        let duplicates = making.duplicates;
        if draft.points.count() == 0 {
            if let (Some(first), 0) = (making.refused.first(), points + duplicates) {
                return Ok(Tried::Put(self.not_made(first)));
            }
            let journalled = said(PendingAnswer::behind_all(Outcome::taken(0), &self.journal), &draft);
            return Ok(Tried::Put(Put { journalled, is_in_book: false, points, duplicates }));
        }
        let mut read = match self.read_made(making, &mut draft, foreign) {
            Err(refused) => return Ok(Tried::Put(self.not_made(refused))),
            Ok(None) => return Ok(Tried::Otherwise),
            Ok(Some(read)) => read,
        };
        Ok(match self.put(&mut read)? {
            Ok(Put { journalled, is_in_book, .. }) => {
                let journalled = said(journalled, &draft);
                self.kept(making, draft);
                Tried::Put(Put { journalled, is_in_book, points, duplicates })
            }
            Err(Refused::InFlight) => Tried::InFlight,
            Err(refused) => {
                let apart = match refused.is_of_series() {
                    true => self.made_apart(making, &mut read, &mut draft, refused),
                    false => Err(refused),
                };
                match apart {
                    Ok(apart) => Tried::Apart(apart),
                    Err(refused) => {
                        Tried::Put(self.not_made(self.refusal(&read.read, draft.refused(refused, among_all))))
                    }
                }
            }
        })
    }

    /// For a draft that the book refuses for one of its series: the ends of the series with points made here, and the
    /// other points to leave out. All series are checked at once; otherwise the post would be tried once for each such
    /// series.
    fn made_apart(
        &self,
        making: &Making,
        read: &mut Posted,
        draft: &mut Draft<'_>,
        refused: Refused,
    ) -> Result<Apart, Refused> {
        let (fates, beyond) = {
            let mut book = self.shared_book.lock();
            let refusals = book.point_refusals(&mut read.read)?;
            let mut fates = self.fates_of(&book, &read.read, &refusals)?;
            let mut beyond = Vec::new();
            for (at, fate) in (0..).zip(&mut fates) {
                if let (Some(PointRefusal::OutOfOrder { frontier, .. }), true) =
                    (refusals[at as usize], draft.has_made(at))
                {
                    beyond.extend(draft.note_frontier(at, frontier).map(|series| (series, frontier)));
                    *fate = PointFate::Taken; // for now: what it adds is computed again
                }
            }
            (fates, beyond)
        };
        let left = (0..).zip(fates).filter(|(_, fate)| *fate != PointFate::Taken);
        let left = left.filter_map(|(at, fate)| Some(left_point(making, draft, draft.place(at)?, fate)));
        let apart = Apart { left: left.collect(), beyond };
        match apart.left.is_empty() && apart.beyond.is_empty() {
            true => Err(refused), // the book changed meanwhile
            false => Ok(apart),
        }
    }

    /// Points that add nothing and whose series belong to another sender: these are refused, since they are no
    /// duplicates.
    fn of_another(&self, making: &Making, draft: &Draft<'_>) -> Vec<LeftPoint> {
        let mut asked = HashMap::new();
        let mut is_of_another = |series: Digest| {
            let of_another = || self.outbox.owner(&series).is_some_and(|owner| owner != making.sender);
            *asked.entry(series).or_insert_with(of_another)
        };
        let late = draft.late.iter().filter(|(_, series)| is_of_another(*series));
        let refused = PointFate::Refused(PointRefusal::OtherWriter);
        late.map(|(at, _)| left_point(making, draft, *at, refused)).collect()
    }

    /// None if the library finds another number of points foreign.
    fn read_made(
        &self,
        making: &Making,
        draft: &mut Draft<'_>,
        foreign: u64,
    ) -> Result<Option<Posted>, Refused> {
        let points = std::mem::take(&mut draft.points);
        let foreign = foreign + draft.turned.count();
        let names = making.by.names.clone();
        let read: Read = self.shared_book.read_points(making.sender.clone(), points, names, foreign)?;
        match read.post.foreign == foreign {
            true => fits(&read).map(|()| Some(Posted::whole(read))),
            false => Ok(None),
        }
    }

    /// Keeps the changed runs, once the journal has the post, and logs what was noted.
    fn kept(&self, making: &Making, mut draft: Draft<'_>) {
        let noted = std::mem::take(&mut draft.noted);
        draft.keep();
        self.metrics.noted_runs.inc_by(noted.len() as u64);
        let Some((number, word)) = noted.first() else {
            return;
        };
        if let Some(untold) = self.noted_runs.untold_before(noted.len()) {
            let (sender, value, series_count) = (making.sender.as_str(), *word as i64, noted.len());
            let key = series::only(&making.by.names.text(*number));
            let series = key.map_or_else(String::new, |key| shown(&key.0, SERIES_SHOWN));
            tracing::info!(
                sender,
                series,
                value,
                series_count,
                more_series = untold,
                "cumulative series count from their first point here: what they had before is left out"
            );
        }
    }
}

fn left_point(making: &Making, draft: &Draft<'_>, at: u32, fate: PointFate) -> LeftPoint {
    let place = draft.placed(at, |place| making.left_out.place_of(place));
    LeftPoint { at, place, fate }
}
