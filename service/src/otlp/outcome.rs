//! What became of a request, as its sender is told.

use super::{Causes, OffClock, Reason, Rounded};
use serde::{Deserialize, Serialize};

/// What is said of points that the book did not take.
const OUTSIDE: &str = "points outside the profile";
const READ_ON: &str = ": see docs/OPERATING.md, \"Senders\"";
/// How many reasons are named of points and of refused parts.
const NAMED: usize = 5;

#[derive(Clone, Debug, PartialEq, Eq, Deserialize, Serialize)]
pub enum Outcome {
    /// All points were taken but these.
    Taken {
        rejected: u64,
        /// Those of them that are off by their clock.
        off: OffClock,
        /// Why others are not taken, as far as it is known: the rest is outside the profile.
        causes: Causes,
        /// Why points are outside the profile that were to be taken in a finer unit.
        unfit: Option<String>,
        /// Points that their series refuse, by reason, and parts of the request that were refused: how many points, and why.
        parts: Vec<(u64, Rejection)>,
    },
    /// Nothing was taken.
    Refused(Rejection),
}

/// Why nothing of a request was taken.
#[derive(Clone, Debug, PartialEq, Eq, Deserialize, Serialize)]
pub struct Rejection {
    pub reason: Reason,
    /// What the sender is told: it begins with the point, where the reason has one.
    pub message: String,
    pub point: Option<RejectedPoint>,
    /// In how many seconds the same may be taken, where that is known.
    pub seconds: Option<u64>,
}

/// The first point that a request was refused for.
#[derive(Clone, Copy, Debug, PartialEq, Eq, Deserialize, Serialize)]
pub struct RejectedPoint {
    /// Among those of the profile.
    pub place: u64,
    /// Up to where its series was taken, where it is refused for that.
    pub frontier: Option<u64>,
}

impl Rejection {
    pub fn new(reason: Reason, message: impl Into<String>) -> Rejection {
        Rejection { reason, message: message.into(), point: None, seconds: None }
    }

    /// Of a request that has this point.
    pub fn of_point(reason: Reason, point: RejectedPoint) -> Rejection {
        Rejection { point: Some(point), ..Rejection::new(reason, point.told(reason)) }
    }

    /// The same, which says more.
    pub fn and(mut self, more: &str) -> Rejection {
        self.message += more;
        self
    }

    /// The same where its point has another place for who hears of it.
    pub(super) fn placed(mut self, place: u64) -> Rejection {
        if let Some(point) = &mut self.point {
            let begin = point.told(self.reason).len();
            point.place = place;
            self.message.replace_range(..begin, &point.told(self.reason));
        }
        self
    }

    /// In how many seconds the same may be taken.
    pub fn again_in(&self) -> Option<u64> {
        self.seconds.or_else(|| (self.reason.status() == 503).then_some(1))
    }
}

impl RejectedPoint {
    fn told(&self, reason: Reason) -> String {
        let (text, place) = (reason.text(), self.place);
        match self.frontier {
            Some(frontier) => format!("{text}: point {place}, frontier {frontier}"),
            None => format!("{text}: point {place}"),
        }
    }
}

impl From<Reason> for Rejection {
    fn from(reason: Reason) -> Rejection {
        Rejection::new(reason, reason.text())
    }
}

impl From<Reason> for Outcome {
    fn from(reason: Reason) -> Outcome {
        Outcome::Refused(reason.into())
    }
}

impl From<Rejection> for Outcome {
    fn from(rejection: Rejection) -> Outcome {
        Outcome::Refused(rejection)
    }
}

impl Outcome {
    pub fn refused(reason: Reason, message: impl Into<String>) -> Outcome {
        Rejection::new(reason, message).into()
    }

    /// All points were taken but these, which are outside the profile.
    pub fn taken(rejected: u64) -> Outcome {
        Outcome::taken_but(rejected, OffClock::default(), Causes::default())
    }

    /// All points were taken but so many that are outside the profile, those that are off by their clock, and those that have
    /// these causes.
    pub fn taken_but(foreign: u64, off: OffClock, causes: Causes) -> Outcome {
        let rejected = foreign + off.points() + causes.count();
        Outcome::Taken { rejected, off, causes, unfit: None, parts: Vec::new() }
    }

    /// The same without these points, which their series refuse.
    pub fn without(mut self, refused: Vec<(u64, Rejection)>) -> Outcome {
        if let Outcome::Taken { rejected, parts, .. } = &mut self {
            *rejected += refused.iter().map(|(points, _)| points).sum::<u64>();
            parts.extend(refused);
        }
        self
    }

    /// The same, and why points are outside the profile that were to be taken in a finer unit.
    pub fn with(mut self, rounded: &Rounded) -> Outcome {
        if let Outcome::Taken { rejected: 1.., unfit, .. } = &mut self {
            unfit.clone_from(&rounded.unfit);
        }
        self
    }

    pub fn status(&self) -> u16 {
        self.reason().map_or(200, Reason::status)
    }

    /// Why nothing was taken.
    pub fn reason(&self) -> Option<Reason> {
        match self {
            Outcome::Taken { .. } => None,
            Outcome::Refused(rejection) => Some(rejection.reason),
        }
    }

    /// The same in words.
    pub fn refusal(&self) -> Option<&str> {
        match self {
            Outcome::Taken { .. } => None,
            Outcome::Refused(rejection) => Some(&rejection.message),
        }
    }

    /// In how many seconds the same may be taken.
    pub fn again_in(&self) -> Option<u64> {
        match self {
            Outcome::Taken { .. } => None,
            Outcome::Refused(rejection) => rejection.again_in(),
        }
    }

    /// What a sender is told; nothing where all is taken.
    pub fn message(&self) -> Option<String> {
        let (rejected, off, causes, unfit, parts) = match self {
            Outcome::Refused(rejection) => return Some(rejection.message.clone()),
            Outcome::Taken { rejected: 0, parts, .. } if parts.is_empty() => return None,
            Outcome::Taken { rejected, off, causes, unfit, parts } => (rejected, off, causes, unfit, parts),
        };
        let refused: u64 = parts.iter().map(|(points, _)| points).sum();
        let outside = (*rejected > refused).then(|| outside(off, causes, unfit.as_deref()));
        let parts = parts.iter().map(|(points, Rejection { message, .. })| match points {
            1 => format!("1 point is refused: {message}"),
            _ => format!("{points} points are refused: {message}"),
        });
        let mut all: Vec<String> = outside.into_iter().chain(parts).collect();
        let more = all.len().saturating_sub(NAMED);
        all.truncate(NAMED);
        if more > 0 {
            all.push(format!("and {more} more reasons"));
        }
        Some(all.join("; "))
    }
}

/// By cause, where its sender's owner reads on, and what does not fit.
fn outside(off: &OffClock, causes: &Causes, unfit: Option<&str>) -> String {
    let mut text = OUTSIDE.to_string();
    let causes = causes.clone().and(&Causes::of_clocks(*off));
    if causes.count() > 0 {
        text += &format!(": {causes}");
        if off.points() > 0 {
            text += &format!(": {off}");
        }
        text += READ_ON;
    }
    match unfit {
        Some(unfit) => text + ": " + unfit,
        None => text,
    }
}
