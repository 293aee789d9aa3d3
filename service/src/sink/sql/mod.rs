//! How a database takes requests: one algorithm over a transaction of SQLite or of PostgreSQL.
//!
//! A request is taken once, by its key. Requests of one shard and epoch come from one life of a folder, and its book
//! takes no two overlapping points of a series. So a request can only overlap what an earlier life or a copy of the
//! folder has sent, or what was taken before a rewind: see [`Coming::limit`].

mod ends;
pub mod exact;
pub mod export;
mod fault;
mod local;
mod long;
mod periods;
pub mod reading;
mod request;
mod schema_docs;
mod sums;
pub mod totals;

pub(super) use ends::Ends;
pub(super) use fault::NotTaken;
pub use long::BegunBefore;
pub(super) use periods::{apply, closed_of, Periods, CLOSED};
pub(super) use reading::{Cell, Reader, Row};
pub(super) use request::{by_metric, sums_of, Adding, Content, InHour, OfSeries, Request, Sent};
pub(super) use schema_docs::{about, About};
pub(super) use sums::Sums;

use super::left_out::{LeftOut, OTHER_REQUEST};
use super::periods::Closed;
use super::{is_instruction, Forwarded, RenameSender, Rewind};
use crate::otlp::series::ForwardedPoint;
use ends::Coming;
use std::collections::{BTreeMap, BTreeSet};

/// A transaction of a database that takes requests. What it has written is there after the commit.
pub(super) trait Transaction {
    /// What a database knows of a series beside [`Stored`].
    type Row;
    type Fault;

    /// Makes the rows of these requests, at least one, of one shard. None if one of them is there already.
    async fn make_requests(&mut self, all: &[Request<'_>]) -> Result<Option<Place>, NotTaken<Self::Fault>>;

    /// The row of a request that was taken.
    async fn taken(&mut self, request: &Forwarded) -> Result<Taken, NotTaken<Self::Fault>>;

    /// Begins another life for the shard and epoch of a request.
    async fn begin_life(&mut self, of: &Forwarded) -> Result<(), NotTaken<Self::Fault>>;

    /// What is known of each series (new ones are made), and what is closed. Nobody else adds to these series, or
    /// closes a period, until the transaction ends.
    async fn series(
        &mut self,
        all: &[OfSeries],
    ) -> Result<(Vec<Stored<Self::Row>>, Closed), NotTaken<Self::Fault>>;

    /// How a request that may be a dead letter stands to what was taken. The series have to be locked.
    async fn late(&mut self, of: &Forwarded, all: &[OfSeries])
        -> Result<Option<Late>, NotTaken<Self::Fault>>;

    /// Adds points to intervals, totals, hours, days and months.
    async fn add(
        &mut self,
        place: &Place,
        all: &[Adding<'_, Self::Row>],
    ) -> Result<(), NotTaken<Self::Fault>>;

    /// Notes which points of a request were not added, in the form of [`LeftOut::noted`], so that a repeat gets the
    /// same answer.
    async fn leave_out(
        &mut self,
        place: &Place,
        added: usize,
        noted: &str,
    ) -> Result<(), NotTaken<Self::Fault>>;

    /// Moves the ends of these series back. What comes of them after that is of this life. Points that requests of
    /// lower numbers have for them are added only from the new end on, for good.
    async fn rewind(
        &mut self,
        life: i64,
        of: &Forwarded,
        rewind: &Rewind,
    ) -> Result<(), NotTaken<Self::Fault>>;

    /// Writes down the new sender of these series, those of them that are there.
    async fn rename_sender(&mut self, rename: &RenameSender) -> Result<(), NotTaken<Self::Fault>>;
}

/// Where the rows of requests are.
#[derive(Clone, Debug)]
pub(super) struct Place {
    /// The row of each request, by the index of its first point among the points of all requests.
    pub(super) rows: BTreeMap<usize, i64>,
    /// The life of their shard and epoch.
    pub(super) life: i64,
}

impl Place {
    /// For these requests, with their rows in order.
    pub(super) fn of(all: &[Request<'_>], rows: impl IntoIterator<Item = i64>, life: i64) -> Place {
        let mut next = 0;
        let first = |request: &Request| {
            let first = next;
            next += request.points();
            first
        };
        Place { rows: all.iter().map(first).zip(rows).collect(), life }
    }

    /// The row of the request that brought a point.
    pub(super) fn row_of(&self, point: &ForwardedPoint) -> i64 {
        self.rows.range(..=point.place).next_back().map_or(0, |(_, row)| *row)
    }
}

/// A request after a later one of its shard and epoch was taken.
#[derive(Debug)]
pub(super) struct Late {
    /// The indexes of series that a later request has rewound, or forgotten.
    pub(super) put_back: BTreeSet<usize>,
}

/// What a database knows of a series.
#[derive(Debug)]
pub(super) struct Stored<Row> {
    pub(super) row: Row,
    /// How many buckets each of its points has. None for a sum.
    pub(super) buckets: Option<usize>,
    /// None for a new series.
    pub(super) ends: Option<Ends>,
}

/// A request that was taken before.
#[derive(Debug)]
pub(super) struct Taken {
    /// SHA-256 of its body.
    pub(super) digest: Vec<u8>,
    /// Which points were not added, as noted.
    pub(super) left_out: Option<String>,
}

/// What became of a request, in a transaction that is to be committed.
#[derive(Debug)]
pub(super) enum Outcome {
    New(LeftOut),
    /// It was taken before.
    Repeat(LeftOut),
    /// Another request was taken under its key.
    OtherRequest,
}

impl Outcome {
    pub(super) fn left<Fault>(self) -> Result<LeftOut, NotTaken<Fault>> {
        match self {
            Outcome::New(left) | Outcome::Repeat(left) => Ok(left),
            Outcome::OtherRequest => Err(NotTaken::Refused(OTHER_REQUEST.into())),
        }
    }
}

/// Takes requests of one shard. One by itself is taken without points that begin too early, which are returned, also
/// for a repeat. Several are taken whole, if none of them was taken before and no point begins too early. After an
/// error the transaction must not be committed.
pub(super) async fn take<T: Transaction>(
    transaction: &mut T,
    requests: Vec<Request<'_>>,
) -> Result<Outcome, NotTaken<T::Fault>> {
    match <[Request; 1]>::try_from(requests) {
        Ok([request]) => take_one(transaction, request).await,
        Err(several) => match take_together(transaction, several).await? {
            true => Ok(Outcome::New(LeftOut::default())),
            false => Err(NotTaken::Refused("each of them has to come by itself".into())),
        },
    }
}

async fn take_one<T: Transaction>(
    transaction: &mut T,
    request: Request<'_>,
) -> Result<Outcome, NotTaken<T::Fault>> {
    let Some(place) = transaction.make_requests(std::slice::from_ref(&request)).await? else {
        return repeated(transaction, request).await;
    };
    let (of, count) = (request.of, request.points());
    let left = add(transaction, &place, request.series, (request.sent == Sent::ByHand).then_some(of)).await?;
    let left = left.of(count);
    if !left.is_empty() {
        transaction.leave_out(&place, count - left.places.len(), &left.noted()).await?;
    }
    if let Some(rewind) = Rewind::of(&of.body) {
        transaction.rewind(place.life, of, &rewind).await?;
    }
    if let Some(rename) = RenameSender::of(&of.body) {
        transaction.rename_sender(&rename).await?;
    }
    Ok(Outcome::New(left))
}

async fn take_together<T: Transaction>(
    transaction: &mut T,
    requests: Vec<Request<'_>>,
) -> Result<bool, NotTaken<T::Fault>> {
    // An instruction has its place between the others.
    if requests.is_empty() || requests.iter().any(|one| is_instruction(&one.of.body)) {
        return Ok(requests.is_empty());
    }
    match transaction.make_requests(&requests).await? {
        Some(place) => Ok(add(transaction, &place, request::together(requests)?, None).await?.is_empty()),
        None => Ok(false),
    }
}

/// Adds points that don't begin too early, and returns the others.
async fn add<T: Transaction>(
    transaction: &mut T,
    place: &Place,
    all: Vec<OfSeries>,
    by_hand: Option<&Forwarded>,
) -> Result<LeftOut, NotTaken<T::Fault>> {
    let (stored, closed) = transaction.series(&all).await?;
    let late = match by_hand {
        Some(of) => transaction.late(of, &all).await?,
        None => None,
    };
    let mut left = LeftOut::default();
    let mut both: Vec<(OfSeries, Stored<T::Row>, Coming)> = Vec::new();
    for (series, (mut of, stored)) in all.into_iter().zip(stored).enumerate() {
        of.fits(stored.buckets)?;
        let coming = Coming::new(place.life, by_hand.is_some(), late.as_ref(), series);
        let limit = stored.ends.as_ref().map_or(0, |ends| coming.limit(ends));
        of.points.retain(|point| {
            let is_added = point.start >= limit;
            if !is_added {
                left.add(point, limit);
            }
            is_added
        });
        if !of.points.is_empty() {
            both.push((of, stored, coming));
        }
    }
    let adding = both.iter().map(|(of, stored, coming)| Adding {
        of,
        stored,
        ends: coming.added(stored.ends, of.end()),
        hours: of.by_hours(&closed),
    });
    let adding: Vec<Adding<T::Row>> = adding.collect();
    transaction.add(place, &adding).await?;
    Ok(left)
}

/// A request whose key is there. What was left out of it then is left out again, for the same reason. If it is not the
/// same request, it came from a copy of the folder, so its epoch has two lives.
async fn repeated<T: Transaction>(
    transaction: &mut T,
    request: Request<'_>,
) -> Result<Outcome, NotTaken<T::Fault>> {
    let taken = transaction.taken(request.of).await?;
    if taken.digest != request.digest {
        transaction.begin_life(request.of).await?;
        return Ok(Outcome::OtherRequest);
    }
    let noted = taken.left_out.as_deref().unwrap_or("[]");
    let points = request.series.iter().flat_map(|of| &of.points);
    let odd = |error| NotTaken::Refused(format!("what was left of it is not as it was noted: {error}"));
    Ok(Outcome::Repeat(LeftOut::read(noted, points).map_err(odd)?.of(request.points())))
}
