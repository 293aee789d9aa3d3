//! The refusals of the book: the library's statuses, each with its text and the reason that `otlp` answers.

use super::library::{status, Answer};
use crate::otlp::{Outcome, Reason, RejectedPoint, Rejection};
use thiserror::Error;

/// Why the book did not do what it was asked to. Except for `HalfTaken`, nothing has changed.
#[derive(Clone, Copy, Debug, Error, PartialEq, Eq)]
pub enum Refused {
    #[error("quarantined")]
    Quarantined,
    #[error("full")]
    Full,
    #[error("other writer: point {point}")]
    OtherWriter { point: u64 },
    #[error("duplicate or late: point {point}, frontier {frontier}")]
    OutOfOrder { point: u64, frontier: u64 },
    #[error("too many series")]
    TooManySeries,
    #[error("too large")]
    TooLarge,
    #[error("no memory")]
    NoMemory,
    #[error("bad sender: a name has 1 to 64 bytes of A-Z a-z 0-9 . _ -")]
    BadSender,
    #[error("not JSON")]
    NotJson,
    #[error("wrong shape")]
    WrongShape,
    #[error("not protobuf of OTLP")]
    NotProtobuf,
    #[error("nothing")]
    Nothing,
    #[error("no such flush")]
    NoSuch,
    #[error("already quarantined")]
    AlreadyQuarantined,
    #[error("not quarantined")]
    NotQuarantined,
    #[error("not ended")]
    NotEnded,
    /// Of a request that should name one series.
    #[error("not one point")]
    NotOne,
    /// Pending points of its series end in an earlier window and are being serialised: the caller retries after that.
    #[error("a flush of earlier points of its series is still being written")]
    InFlight,
    /// Each window would be forwarded by itself.
    #[error("too many hours in a post: {parts}, at most {most}: post fewer points at a time")]
    TooManyHours { parts: usize, most: usize },
    /// The identities of its series, each written in full, are too long to go by number.
    #[error("too long series in a post: attributes that its series share count for each of them: post fewer series at a time")]
    LongSeries,
    /// Only a part of a post of several windows is in the book, because memory ran out: only a new start can put that
    /// right.
    #[error("no memory is left for the rest of a post of several hours")]
    HalfTaken,
    /// The library is another version than this was written for.
    #[error("the library answered {0}, which this totxegun does not know")]
    Unknown(u32),
}

/// The answer of a call that succeeded, or its refusal.
pub(super) fn check(answer: Answer) -> Result<Answer, Refused> {
    Err(match answer.status {
        status::DONE => return Ok(answer),
        status::QUARANTINED => Refused::Quarantined,
        status::FULL => Refused::Full,
        status::OTHER_WRITER => Refused::OtherWriter { point: answer.at },
        status::OUT_OF_ORDER => Refused::OutOfOrder { point: answer.at, frontier: answer.frontier },
        status::TOO_MANY_SERIES => Refused::TooManySeries,
        status::TOO_LARGE => Refused::TooLarge,
        status::NO_MEMORY => Refused::NoMemory,
        status::BAD_SENDER => Refused::BadSender,
        status::NOT_JSON => Refused::NotJson,
        status::WRONG_SHAPE => Refused::WrongShape,
        status::NOT_PROTOBUF => Refused::NotProtobuf,
        status::NOTHING => Refused::Nothing,
        status::NO_SUCH => Refused::NoSuch,
        status::ALREADY => Refused::AlreadyQuarantined,
        status::NOT_QUARANTINED => Refused::NotQuarantined,
        status::NOT_ENDED => Refused::NotEnded,
        other => Refused::Unknown(other),
    })
}

impl Refused {
    /// The reason that a sender or an operator is given.
    fn reason(self) -> Reason {
        match self {
            Refused::Quarantined => Reason::Quarantined,
            Refused::Full => Reason::Full,
            Refused::OtherWriter { .. } => Reason::OtherWriter,
            Refused::OutOfOrder { .. } => Reason::OutOfOrder,
            Refused::TooManySeries => Reason::TooManySeries,
            Refused::TooLarge => Reason::TooLarge,
            Refused::NoMemory => Reason::NoMemory,
            Refused::BadSender => Reason::BadSender,
            Refused::NotJson => Reason::NotJson,
            Refused::WrongShape => Reason::WrongShape,
            Refused::NotProtobuf => Reason::Unreadable,
            Refused::TooManyHours { .. } => Reason::TooManyHours,
            Refused::LongSeries => Reason::TooLongSeries,
            Refused::AlreadyQuarantined => Reason::AlreadyQuarantined,
            Refused::NotQuarantined => Reason::NotQuarantined,
            // These are never answered to anybody.
            Refused::Nothing | Refused::NoSuch | Refused::NotEnded | Refused::NotOne => Reason::Fault,
            Refused::InFlight | Refused::HalfTaken | Refused::Unknown(_) => Reason::Fault,
        }
    }

    /// The HTTP status.
    pub fn status(self) -> u16 {
        self.reason().status()
    }

    /// The same refusal with the index that its point has for the sender.
    pub fn placed(self, place: impl FnOnce(u64) -> u64) -> Refused {
        match self {
            Refused::OtherWriter { point } => Refused::OtherWriter { point: place(point) },
            Refused::OutOfOrder { point, frontier } => Refused::OutOfOrder { point: place(point), frontier },
            other => other,
        }
    }

    /// Whether it concerns the series of single points, so that other points of the post may be taken.
    pub fn is_of_series(self) -> bool {
        matches!(self, Refused::OtherWriter { .. } | Refused::OutOfOrder { .. })
    }

    /// Whether it may succeed after a round is closed, which frees entries and starts the sums anew.
    pub(super) fn retry_after_compaction(self) -> bool {
        matches!(self, Refused::Full | Refused::TooLarge | Refused::NoMemory)
    }
}

impl From<Refused> for Outcome {
    fn from(refused: Refused) -> Outcome {
        let reason = refused.reason();
        let of_point = |place, frontier| Rejection::of_point(reason, RejectedPoint { place, frontier });
        Outcome::Refused(match refused {
            Refused::OtherWriter { point } => of_point(point, None),
            Refused::OutOfOrder { point, frontier } => of_point(point, Some(frontier)),
            other => Rejection::new(reason, other.to_string()),
        })
    }
}

#[cfg(test)]
mod tests {
    use super::*;

    #[test]
    fn each_number_has_its_text_and_status() {
        let said = |status| {
            let answer = Answer { status, number: 7, at: 2, frontier: 50 };
            check(answer).map(|it| it.number).map_err(|it| (it.status(), it.to_string()))
        };
        assert_eq!(said(0), Ok(7));
        let wanted = [
            (403, "quarantined"),
            (503, "full"),
            (400, "other writer: point 2"),
            (400, "duplicate or late: point 2, frontier 50"),
            (503, "too many series"),
            (503, "too large"),
            (503, "no memory"),
            (400, "bad sender: a name has 1 to 64 bytes of A-Z a-z 0-9 . _ -"),
            (400, "not JSON"),
            (400, "wrong shape"),
            (503, "nothing"),
            (503, "no such flush"),
            (400, "already quarantined"),
            (400, "not quarantined"),
            (503, "not ended"),
            (503, "the library answered 16, which this totxegun does not know"),
        ];
        for (status, (http, text)) in (1..).zip(wanted) {
            assert_eq!(said(status), Err((http, text.to_string())), "{status}");
        }
    }
}
