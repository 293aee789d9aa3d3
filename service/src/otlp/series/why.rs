//! Why a point is foreign, and that in words (docs/FORMATS.md, "Reading OTLP/JSON").

use crate::log::cut;
use crate::otlp::json::{begin, Value};
use crate::otlp::number::{double_shown, MAX_WHOLE_DOUBLE};
use crate::otlp::Reason;
use std::borrow::Cow;
use std::fmt;

/// How much of a text is looked at, as it is written: many points may share it.
pub const LOOKED_AT: usize = 4 << 10;
/// How much of a value stands in words.
const SHOWN: usize = 80;
/// The same of a metric's name.
const NAME_SHOWN: usize = 100;

/// What is wrong, where, and with which value.
#[derive(Clone, Copy)]
pub struct Why<'d> {
    pub what: What,
    /// The field, or the place of an attribute.
    pub field: &'static str,
    pub value: Option<Value<'d>>,
    /// Of an attribute.
    pub key: Option<Value<'d>>,
}

/// What may be wrong has a row: as what it is counted (of some that hangs on the metric too: `of_seen`), and its words, in which
/// `{field}` and `{value}` are those of the point.
macro_rules! wrong {
    ($($what:ident $reason:ident $words:literal;)*) => {
        #[derive(Clone, Copy, Debug, PartialEq, Eq)]
        pub enum What {
            $($what,)*
        }

        impl What {
            fn row(self) -> (Reason, &'static str) {
                match self {
                    $(What::$what => (Reason::$reason, $words),)*
                }
            }
        }
    };
}

wrong! {
    OtherKind ExponentialHistogram "{field} are not added up: only sums and histograms are";
    SeveralKinds Other "its metric has more than one kind of data";
    Cumulative UpDownCounter "it is cumulative: set the sender's temporality preference to delta";
    NotDelta Other "aggregationTemporality is {value}: only 1, delta, is taken";
    NoTruth Other "{field} is {value}, neither true nor false";
    NoText Other "{field} is {value}, no text";
    LongText Other "{field} has more than 4096 bytes";
    NoAttributes Attribute "{field} is {value}, no list of attributes";
    ManyAttributes Attribute "{field} has more than 128 attributes";
    SameKeys Attribute "its key is there twice";
    DoubleValue Attribute "its value is a double, {value}: texts, whole numbers, truths and lists of them are taken";
    BytesValue Attribute "its value is bytes: texts, whole numbers, truths and lists of them are taken";
    MapValue Attribute "its value is a map: texts, whole numbers, truths and lists of them are taken";
    ListInList Attribute "its value is a list in a list";
    LongList Attribute "its value is a list of more than 128";
    SeveralValues Attribute "it has more than one value";
    WrongValue Attribute "its value can't be read: {value}";
    NoStart Span "startTimeUnixNano is {value}: each point has to say where it starts, over 0";
    EmptySpan Span "timeUnixNano is {value}, not over its start";
    NotRecorded NoValue "its flags say that no value was recorded";
    NoNumber NoValue "it has no asInt";
    Double Double "it is a double, {value}: use an instrument of whole numbers, or serve with --integer-unit UNIT=FINER";
    NotWhole Other "{field} is {value}, no whole number";
    Negative Other "{field} is {value}, below zero";
    TooLarge Other "{field} is {value}, over the limit";
    NoList Other "{field} is {value}, no list";
    ManyBounds Other "{field} are more than 255";
    NotAscending Other "{field} do not ascend at {value}";
    NotFitting Other "bucketCounts are not one more than explicitBounds";
    NotAdding Other "bucketCounts do not add up to the count";
    NoView ExponentialHistogram "it is an exponential histogram: {value}";
}

impl<'d> Why<'d> {
    pub fn new(what: What, field: &'static str, value: Option<Value<'d>>) -> Why<'d> {
        Why { what, field, value, key: None }
    }

    /// As what it is counted, where its metric does not say more.
    pub fn reason(&self) -> Reason {
        self.what.row().0
    }

    /// Whether it is of a histogram's sum or a bound that is not whole.
    pub fn is_fraction(&self) -> bool {
        self.what == What::NotWhole && ["a bound", "sum"].contains(&self.field)
    }
}

impl fmt::Display for Why<'_> {
    fn fmt(&self, out: &mut fmt::Formatter<'_>) -> fmt::Result {
        if let Some(key) = self.key.and_then(Value::text) {
            write!(out, "{} `{}`: ", self.field, short(&key, SHOWN))?;
        }
        let value = self.value.map_or_else(|| "nothing".to_string(), shown);
        let words = match self.what {
            What::Double if is_past_whole(&value) => {
                "it is a double, {value}, which also --integer-unit takes for no whole number"
            }
            what => what.row().1,
        };
        out.write_str(&words.replace("{field}", self.field).replace("{value}", &value))?;
        match self.is_fraction() {
            true => out.write_str(": measure in a finer unit, or serve with --integer-unit UNIT=FINER"),
            false => Ok(()),
        }
    }
}

/// Whether `--integer-unit` takes no such double, by whatever rule.
fn is_past_whole(shown: &str) -> bool {
    let double: f64 = shown.parse().unwrap_or(0.0);
    double.is_nan() || double.abs() > MAX_WHOLE_DOUBLE as f64
}

/// A value as people write it.
fn shown(value: Value<'_>) -> String {
    let text = value.text_up_to(LOOKED_AT).unwrap_or_else(|| begin(value.raw(), LOOKED_AT).into());
    match text.parse::<f64>() {
        Ok(double) if text.contains(['e', 'E']) => double_shown(double),
        _ => short(&text, SHOWN),
    }
}

/// The first characters of a text, and that there are more.
pub fn short(text: &str, most: usize) -> String {
    match cut(text, most) {
        whole if whole.len() == text.len() => text.to_string(),
        begin => format!("{begin}.."),
    }
}

/// What the value of an attribute says: `{"stringValue":"a"}` is a, `{"intValue":"5"}` is 5.
pub fn said(value: Value<'_>) -> Cow<'_, str> {
    let inner = value.members().and_then(|mut members| members.next());
    inner.map(|(_, inner)| inner.text().unwrap_or(inner.raw().into())).unwrap_or_default()
}

/// A metric's name, as it stands in an answer.
pub fn name_shown(metric: Value<'_>) -> String {
    let name = metric.member("name").and_then(Value::text).unwrap_or_default();
    cut(&name, NAME_SHOWN).to_string()
}
