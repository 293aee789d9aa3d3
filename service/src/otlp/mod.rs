//! Requests and answers of OTLP, in protobuf and in JSON, and the series that a body has.
//!
//! `schema` has OTLP's structure for both encodings, `wire` and `json` read them. `prepare` writes a request of either encoding as the
//! book reads it (`from_protobuf`, `from_json`); `json_fast_path` sees at once most JSON, which goes on as it came; `numbered` reads
//! nearly all protobuf without that, by the numbers of series that are known; `finer_units` takes fractions as whole numbers of a
//! finer unit, `exponential` exponential histograms in given buckets. `series` reads bodies as the book does, and what it forwards,
//! which `encoded` writes in protobuf.
//! `request` is for whoever looks for something in a request as it came, or changes it: `sender` finds a request's sender in it,
//! `sender_attributes` puts a sender's name into its resources.
//! `outside` is what of a request is handed on to another receiver, `clock` which points end too far from the service's clock.
//! `reason` has why something is not taken, `outcome` what became of a request, `answers` how that is written. `resources` says
//! which shard a resource has and takes requests apart, `combined_outcome` is one answer of several.

mod answers;
mod causes;
mod clock;
mod combined_outcome;
mod decimal;
mod encoded;
mod explain;
mod exponential;
mod finer_units;
mod from_json;
mod from_protobuf;
mod json;
mod json_fast_path;
mod messages;
mod number;
mod numbered;
mod outcome;
mod output;
mod outside;
mod reason;
mod request;
mod resources;
mod schema;
mod sender;
mod sender_attributes;
pub mod series;
mod wire;

pub(crate) use answers::partial_success;
pub use causes::Causes;
pub use clock::{Clock, Off, OffClock, Window};
pub use combined_outcome::{combined, OfPart};
pub use explain::{answered, explained, foreign_points, point_at, second_at, taken_points, Explained};
pub use exponential::Bounds;
pub use finer_units::{Choice, Decided, FinerUnits, Rounded, Rounding, Rule, ShownSeries};
pub(crate) use messages::{Detail, ExportMetricsServiceResponse, Status};
pub use numbered::{Learnt, NotNamed, Numbered, Series};
pub use outcome::{Outcome, RejectedPoint, Rejection};
pub use outside::{Original, Outside};
pub use reason::Reason;
pub use resources::{shard_of, shard_of_series, Part, Resources, Split};
pub use sender::{legal, sender, NO_NAME};
pub use sender_attributes::{with_sender_attributes, Attributed, SenderNames, INSTANCE};
pub use series::{protobuf_of_forwarded, Profile};
#[cfg(test)]
pub(crate) use tests::{
    a_request as a_request_of_test, plain_posts as plain_posts_of_test, posted as posted_of_test,
    posts as posts_of_test, requests as requests_of_test, taken as taken_of_test,
};

use bytes::Bytes;
use json_fast_path::AsItCame;

/// How a request was written, and so how it is answered.
#[derive(Clone, Copy, Debug, PartialEq, Eq)]
pub enum Encoding {
    Json,
    Protobuf,
}

impl Encoding {
    /// As a content type says it.
    pub fn media_type(self) -> &'static str {
        match self {
            Encoding::Json => "application/json",
            Encoding::Protobuf => "application/x-protobuf",
        }
    }

    /// As metrics have it.
    pub fn label(self) -> &'static str {
        match self {
            Encoding::Json => "json",
            Encoding::Protobuf => "protobuf",
        }
    }

    /// How a body was written of which nothing is known.
    pub fn of(body: &[u8]) -> Encoding {
        let first = body.iter().find(|byte| !byte.is_ascii_whitespace());
        let may_be_protobuf = first != Some(&b'{') || body[0] == b'\n';
        match may_be_protobuf && json::Document::parse(body).is_err() {
            true => Encoding::Protobuf,
            false => Encoding::Json,
        }
    }
}

/// Why a request is not given to the book. Its text is the answer's message.
#[derive(Debug, thiserror::Error)]
pub enum Refused {
    #[error(transparent)]
    NotJson(#[from] json::NotJson),
    #[error("no sender: {0}")]
    NoSender(String),
    #[error("{0}")]
    Unreadable(String),
}

impl Refused {
    pub fn reason(&self) -> Reason {
        match self {
            Refused::NotJson(_) => Reason::NotJson,
            Refused::NoSender(_) => Reason::NoSender,
            Refused::Unreadable(_) => Reason::Unreadable,
        }
    }
}

/// Why who reads a request refuses it; none if it is read.
fn refusal(encoding: Encoding, body: &[u8], reading: &Reading) -> Option<Refused> {
    match encoding {
        Encoding::Json => from_json::written(body, reading).err(),
        Encoding::Protobuf => from_protobuf::written(body, reading).err(),
    }
}

/// How requests are read, beside what they say themselves.
#[derive(Clone, Debug, Default)]
pub struct Reading {
    /// Names of resource attributes that are left out.
    pub dropped: Vec<String>,
    /// What is measured in one unit is taken in a finer one.
    pub finer_units: FinerUnits,
    /// The resource attribute that names a sender who does not name itself.
    pub sender_from: Option<String>,
    /// Which points are taken.
    pub profile: Profile,
    /// The resource attribute that is the name that a sender proved.
    pub sender_attribute: Option<String>,
    /// A resource without a `service.instance.id` gets its sender's name as one.
    pub instance_from_sender: bool,
    /// The buckets in which exponential histograms are taken; none where they are not.
    pub exponential: Option<Bounds>,
}

impl Reading {
    /// The same for a shard of several.
    pub fn of_shard(&self) -> Reading {
        Reading { finer_units: self.finer_units.of_shard(), ..self.clone() }
    }
}

/// A request in the book's form.
#[derive(Debug, Default, PartialEq)]
pub struct Prepared {
    /// JSON.
    pub body: Bytes,
    pub rounded: Rounded,
    /// It may have points that are cumulative.
    pub is_cumulative: bool,
}

/// Puts a request into the book's form. Nothing of a request is lost in silence: it is read whole or refused whole.
pub fn prepare(encoding: Encoding, body: Bytes, reading: &Reading) -> Result<Prepared, Refused> {
    prepare_with(encoding, body, reading, |_| Ok(()))
}

/// The same; before a request is written once more, in finer units or in other buckets, `room` is asked, also for so many
/// bytes that it may have more then.
pub fn prepare_with<E: From<Refused>>(
    encoding: Encoding,
    body: Bytes,
    reading: &Reading,
    mut room: impl FnMut(usize) -> Result<(), E>,
) -> Result<Prepared, E> {
    if encoding == Encoding::Json {
        if let Some(AsItCame { is_cumulative }) = json_fast_path::as_it_came(&body, reading) {
            return Ok(Prepared { body, is_cumulative, rounded: Rounded::default() });
        }
    }
    let mut written = match encoding {
        Encoding::Json => from_json::written(&body, reading)?,
        Encoding::Protobuf => from_protobuf::written(&body, reading)?,
    };
    let unfit = match &reading.exponential {
        Some(bounds) if written.is_exponential => {
            let more = exponential::most_more(&written.text, bounds).map_err(Refused::from)?;
            room(more)?;
            let (text, unfit) = exponential::viewed(&written.text, bounds).map_err(Refused::from)?;
            written.text = text.into_bytes();
            unfit
        }
        _ => None,
    };
    let (text, mut rounded) = match written.is_measured {
        true => {
            room(written.text.len())?;
            let rewritten =
                finer_units::rewritten(&written.text, &reading.finer_units).map_err(Refused::from)?;
            (rewritten.0.into_bytes(), rewritten.1)
        }
        false => (written.text, Rounded::default()),
    };
    rounded.unfit = unfit.or(rounded.unfit);
    Ok(Prepared { body: Bytes::from(text), rounded, is_cumulative: written.is_cumulative })
}

#[cfg(test)]
mod tests;
