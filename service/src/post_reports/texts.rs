//! The texts about points that are not taken, and about series of other senders.

use crate::log::{all_shown, cut, of_nanoseconds, shown};
use crate::otlp::{point_at, second_at, Causes, Explained, OffClock, Profile, Reason, NO_NAME};

/// How much is shown of a metric's name, and of a series' key, in characters.
const NAME_SHOWN: usize = 100;
pub(crate) const SERIES_SHOWN: usize = 2000;
/// How much is shown of a point's attributes in an answer, in characters.
const ATTRIBUTES_SHOWN: usize = 300;

/// The start and the end of a point, in nanoseconds since 1970.
pub(crate) type Interval = (u64, u64);

/// Why a point is foreign: one short line, whatever its sender wrote.
pub(super) fn reason(point: &Explained) -> String {
    let name = cut(&point.metric, NAME_SHOWN);
    let why = point.foreign.as_deref().unwrap_or_default();
    all_shown(&format!("{} `{name}`: {why}", point.kind))
}

/// That so many points are not taken for one reason, in one short line.
pub(super) fn not_taken(reason: Reason, points: u64, first: Option<&Explained>, off: OffClock) -> String {
    let counted = Causes::from_iter([(reason, points)]);
    match (reason, first) {
        (Reason::ClockAhead | Reason::ClockBehind, _) => format!("{counted}: {off}"),
        (_, Some(first)) => format!("{counted}, the first of {}", self::reason(first)),
        (_, None) => format!("{counted}: {}", reason.advice()),
    }
}

/// The name of a point's metric.
pub(super) fn metric(point: &Explained) -> String {
    shown(&point.metric, NAME_SHOWN)
}

/// What the answer adds about a late point: its series, when that was, and what to do.
pub(super) fn of_late(body: &[u8], profile: Profile, (place, frontier): (u64, u64)) -> String {
    let point = point_at(body, profile, place);
    let (named, interval) =
        point.map_or_else(|| ("the point".into(), (0, 0)), |(point, _)| (named(&point), point.interval));
    late(&named, interval, frontier)
}

/// The same if the post itself contains the series up to that time: then nothing of it was taken, nor ever will be.
pub(crate) fn of_twice(body: &[u8], profile: Profile, (place, frontier): (u64, u64)) -> Option<String> {
    let second = second_at(body, profile, place, frontier)?;
    Some(twice(&named(&second), second.interval))
}

/// What the answer adds about a point of another sender's series: that series and what to do.
pub(super) fn of_other_writer(body: &[u8], profile: Profile, place: u64) -> Option<String> {
    let (point, _) = point_at(body, profile, place)?;
    Some(of_another(&named(&point), point.interval))
}

/// About a late point of the series with this name.
pub(crate) fn late(named: &str, interval: Interval, frontier: u64) -> String {
    let (time, not_counted) = (of_nanoseconds(frontier), not_counted(interval));
    format!(
        ": {named} begins before what its series has (until {time}), and is no repeat of the last two posts{not_counted}: set the \
         sender's clock, or give each process its own service.instance.id"
    )
}

/// About a series with this name that a post contains twice over one time.
pub(crate) fn twice(named: &str, interval: Interval) -> String {
    let not_counted = not_counted(interval);
    format!(
        ": the post has {named} twice over one time{not_counted}: give each process its own service.instance.id, each instrument its \
         own name"
    )
}

/// About a point of another sender's series with this name.
pub(crate) fn of_another(named: &str, interval: Interval) -> String {
    let not_counted = not_counted(interval);
    format!(
        ": {named} is another sender's{not_counted}: give each process its own service.instance.id, or, if only this sender's name has \
         changed, have it renamed"
    )
}

/// The interval that is not counted; empty if it is unknown.
fn not_counted((start, end): Interval) -> String {
    match end {
        0 => String::new(),
        _ => format!(", so {} to {} is not counted", of_nanoseconds(start), of_nanoseconds(end)),
    }
}

/// Names a point by its metric and its attributes.
pub(crate) fn named(point: &Explained) -> String {
    let name = shown(&point.metric, NAME_SHOWN);
    let attributes = shown(&point.attributes, ATTRIBUTES_SHOWN);
    format!("`{name}` {{{attributes}}}")
}

/// What an operator can do about a sender that posts to a series of `owner`.
pub(crate) fn of_owner(sender: &str, owner: &str) -> String {
    let before = match owner {
        NO_NAME => "it posted without a name before".to_string(),
        owner => format!("{owner} was its name before"),
    };
    format!(
        "if {before}, `totxegun senders rename {owner} {sender}`; if they are two, give each process a service.instance.id of its own"
    )
}

/// The owner of a series, as a text.
pub(crate) fn whose(owner: &str) -> String {
    match owner {
        NO_NAME => "that of posts without a name".to_string(),
        owner => format!("{owner}'s"),
    }
}
