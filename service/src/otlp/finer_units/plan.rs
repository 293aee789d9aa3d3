//! In which unit a metric of a request is taken: by a rule for its unit, or as `units` decides. Its request is in the book's
//! form.

use super::units::{Decided, Unit};
use super::{FinerUnits, Rule};
use crate::otlp::json::Value;
use crate::otlp::number::book_whole;
use crate::otlp::series::Profile;

const DATA: [&str; 5] = ["sum", "histogram", "gauge", "exponentialHistogram", "summary"];
/// No series has a longer name.
const MAX_NAME: usize = 4096;

/// In which unit.
#[derive(Clone, Copy)]
pub(super) enum Taken<'r> {
    /// Nothing is known of its unit, or of how it adds up.
    AsItIs,
    /// In whole numbers of its own, in which it was first taken.
    Whole(Unit),
    In(&'r Rule),
}

/// What a metric has, if it is one kind of data that is added up.
pub(super) struct Delta<'d> {
    pub kind: &'static str,
    pub data: Value<'d>,
}

impl<'d> Delta<'d> {
    pub fn of(finer_units: &FinerUnits, metric: Value<'d>) -> Option<Delta<'d>> {
        let found = metric.named(DATA)?;
        let mut there = DATA.into_iter().zip(found).filter_map(|(kind, data)| Some((kind, data?)));
        let (kind, data) = there.next()?;
        let is_one = there.next().is_none() && DATA[..2].contains(&kind);
        (is_one && finer_units.adds_up(data)).then_some(Delta { kind, data })
    }

    pub fn points(&self) -> impl Iterator<Item = Value<'d>> {
        self.data.list("dataPoints")
    }

    /// The first of its numbers that is a double, and what it is, as far as that can be seen: one of a histogram may be whole by chance.
    pub fn first_double(&self) -> Option<(&'static str, Value<'d>)> {
        match self.kind {
            "sum" => self.points().find_map(double_of_sum),
            _ => self.points().find_map(fraction_of_histogram),
        }
    }
}

impl FinerUnits {
    /// Whether points are added up, by their temporality.
    fn adds_up(&self, data: Value<'_>) -> bool {
        match data.member("aggregationTemporality").and_then(Value::number) {
            Some("1") => true,
            Some("2") => self.profile == Profile::AlsoCumulative,
            _ => false,
        }
    }
}

/// A double of a sum's point that has no whole number.
fn double_of_sum(point: Value<'_>) -> Option<(&'static str, Value<'_>)> {
    match point.named(["asInt", "asDouble"])? {
        [None, Some(double)] => Some(("the value", double)),
        _ => None,
    }
}

/// A sum or a bound of a histogram's point that is no whole number.
fn fraction_of_histogram(point: Value<'_>) -> Option<(&'static str, Value<'_>)> {
    let [sum, bounds] = point.named(["sum", "explicitBounds"])?;
    let mut bounds = bounds.and_then(Value::elements).into_iter().flatten();
    let is_fraction = |value: &Value<'_>| book_whole(*value).is_none();
    let sum = sum.filter(is_fraction).map(|sum| ("the sum", sum));
    bounds.find(is_fraction).map(|bound| ("the bound", bound)).or(sum)
}

/// How a metric is taken. Where nothing is known of its name yet, its points decide.
pub(super) fn taken<'r>(finer_units: &'r FinerUnits, metric: Value<'_>, decided: &mut Decided) -> Taken<'r> {
    plan(finer_units, metric, Some(decided)).unwrap_or(Taken::AsItIs)
}

/// The same of a metric without points; none where nothing is decided yet.
pub(super) fn decided<'r>(finer_units: &'r FinerUnits, metric: Value<'_>) -> Option<Taken<'r>> {
    plan(finer_units, metric, None)
}

/// Where there is no place for what is decided, nothing is.
fn plan<'r>(
    finer_units: &'r FinerUnits,
    metric: Value<'_>,
    decided: Option<&mut Decided>,
) -> Option<Taken<'r>> {
    let own = match metric.member("unit") {
        None => Some("".into()),
        Some(unit) => unit.text(),
    };
    let Some(own) = own else {
        return Some(Taken::AsItIs);
    };
    let name = || metric.member("name").map_or(Some("".into()), Value::text);
    if let Some(rule) = finer_units.rules.get(&*own) {
        let named = (name(), &finer_units.units, Unit::of(&rule.to), Delta::of(finer_units, metric));
        if let (Some(name), Some(units), Some(to), Some(_)) = named {
            match decided {
                Some(decided) => units.note_of_rule(&name, to, decided),
                None if units.has_of_rule(&name, to) => {}
                None => return None,
            }
        }
        return Some(Taken::In(rule));
    }
    let (Some(units), Some(unit)) = (&finer_units.units, Unit::of(&own)) else {
        return Some(Taken::AsItIs);
    };
    let name = name().filter(|name| name.len() <= MAX_NAME);
    let (Some(name), Some(delta)) = (name, Delta::of(finer_units, metric)) else {
        return Some(Taken::AsItIs);
    };
    let wanted = match decided {
        Some(decided) => {
            // Durations are measured: one that is whole is so by chance.
            let is_duration = unit.is_time() && delta.kind == "histogram";
            units.decide(&name, unit, is_duration || delta.first_double().is_some(), decided)
        }
        None => units.decided(&name, unit)?,
    };
    Some(match unit.rule(wanted) {
        // In a unit that is as fine as that of doubles, these are rounded.
        Some(rule) if unit.of_doubles() == unit => Taken::In(rule),
        Some(rule) if wanted != unit => Taken::In(rule),
        _ => Taken::Whole(unit),
    })
}
