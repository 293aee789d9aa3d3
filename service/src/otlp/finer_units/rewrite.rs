//! A request in the book's form, with the metrics of the given units in finer ones.
//!
//! A point that can't be had so stays foreign: what does not fit becomes a text with its unit, which no reader takes
//! for a number. Nothing is changed in a metric that is foreign as a whole, but its unit.

use super::plan::{taken, Delta, Taken};
use super::rounded::{resource_shown, rounded, Mark};
use super::units::Decided;
use super::{FinerUnits, Rounded, Rule};
use crate::otlp::decimal::{Decimal, Nearest};
use crate::otlp::json::{write_text, Document, Edited, NotJson, Value};
use crate::otlp::number::{book_whole, double_shown, is_whole_double, mapped_double, MAX_WHOLE_DOUBLE};
use crate::otlp::series::{is_monotonic, name_shown};
use std::borrow::Cow;
use std::cell::OnceCell;
use std::ops::Range;
use std::sync::Arc;

/// How a request in the book's form has the name before its value.
const AS_DOUBLE: &str = "\"asDouble\":";

/// The text is one that `otlp` has written.
pub fn rewritten(text: &[u8], finer_units: &FinerUnits) -> Result<(String, Rounded), NotJson> {
    let document = Document::parse(text)?;
    let mut rewriting = Rewriting {
        edited: Edited::of(document.text()),
        finer_units,
        marks: Vec::new(),
        unfit: None,
        decided: Decided::default(),
    };
    rewriting.request(&document);
    let Rewriting { edited, marks, unfit, decided, .. } = rewriting;
    let out = edited.finished();
    let rounded = rounded(&out, marks, finer_units.profile)?;
    Ok((out, Rounded { unfit, decided, ..rounded }))
}

struct Rewriting<'r> {
    edited: Edited<'r>,
    finer_units: &'r FinerUnits,
    marks: Vec<Mark<'r>>,
    /// The first point that stays foreign though its unit has a rule, in words.
    unfit: Option<String>,
    decided: Decided,
}

/// A metric with a rule.
struct Metric<'r, 'd> {
    rule: &'r Rule,
    value: Value<'d>,
    resource: &'d Resource<'d>,
}

/// A resource, and how it is shown once something of it was rounded.
struct Resource<'d> {
    value: Option<Value<'d>>,
    shown: OnceCell<Arc<str>>,
}

impl Resource<'_> {
    fn shown(&self) -> Arc<str> {
        let shown = || self.value.map(resource_shown).unwrap_or_default();
        self.shown.get_or_init(shown).clone()
    }
}

impl<'r> Rewriting<'r> {
    fn request(&mut self, document: &Document<'_>) {
        for element in document.root().list("resourceMetrics") {
            let resource = Resource { value: element.member("resource"), shown: OnceCell::new() };
            for metric in element.list("scopeMetrics").flat_map(|scope| scope.list("metrics")) {
                self.metric(metric, &resource);
            }
        }
    }

    fn put(&mut self, place: Range<usize>, new: &str) {
        self.edited.at(place).push_str(new);
    }

    fn metric<'d>(&mut self, value: Value<'d>, resource: &'d Resource<'d>) {
        let rule = match taken(self.finer_units, value, &mut self.decided) {
            Taken::AsItIs => return,
            Taken::Whole(unit) => return self.first_double(value, unit.name()),
            Taken::In(rule) => rule,
        };
        let metric = Metric { rule, value, resource };
        let kind = Delta::of(self.finer_units, value).map(|delta| delta.kind);
        for (name, part) in value.members().into_iter().flatten() {
            match &*name {
                "unit" => write_text(self.edited.at(part.range()), &rule.to),
                "sum" if kind == Some("sum") => self.sum(&metric, part),
                "histogram" if kind == Some("histogram") => {
                    part.list("dataPoints").for_each(|point| self.histogram_point(&metric, point));
                }
                _ => {}
            }
        }
    }

    fn sum(&mut self, metric: &Metric<'r, '_>, data: Value<'_>) {
        let is_monotonic = is_monotonic(data);
        for point in data.list("dataPoints") {
            match point.named(["asInt", "asDouble"]) {
                Some([Some(whole), None]) => self.whole(metric, whole),
                Some([None, Some(double)]) => self.double(metric, double, is_monotonic),
                _ => {}
            }
        }
    }

    fn whole(&mut self, metric: &Metric<'r, '_>, value: Value<'_>) {
        if metric.rule.is_same() {
            return;
        }
        let Some(whole) = book_whole(value) else { return };
        match Some(whole * i128::from(metric.rule.factor)).filter(is_word) {
            Some(product) => self.put(value.range(), &format!("\"{product}\"")),
            None => self.unfit(metric, value, "the value"),
        }
    }

    fn double(&mut self, metric: &Metric<'r, '_>, value: Value<'_>, is_monotonic: bool) {
        match exact(value, metric.rule).and_then(|product| value_of_sum(product, is_monotonic)) {
            Some(near) => {
                let range = value.range().start - AS_DOUBLE.len()..value.range().end;
                self.put(range, &format!("\"asInt\":\"{}\"", near.whole));
                self.mark(metric, near.by);
            }
            None => self.note(metric, value, "the value"),
        }
    }

    fn histogram_point(&mut self, metric: &Metric<'r, '_>, point: Value<'_>) {
        let Some([sum, bounds]) = point.named(["sum", "explicitBounds"]) else {
            return;
        };
        let (mut edits, mut by) = (Vec::new(), 0.0);
        for bound in bounds.and_then(Value::elements).into_iter().flatten() {
            let product = exact(bound, metric.rule).and_then(|product| product.whole());
            match product.filter(is_whole_double) {
                Some(product) => edits.push((bound.range(), product.to_string())),
                None => return self.unfit(metric, bound, "the bound"),
            }
        }
        if let Some(sum) = sum {
            match exact(sum, metric.rule).and_then(sum_of_histogram) {
                Some(near) => {
                    edits.push((sum.range(), near.whole.to_string()));
                    by = near.by;
                }
                None => return self.unfit(metric, sum, "the sum"),
            }
        }
        edits.sort_by_key(|edit| edit.0.start);
        edits.into_iter().for_each(|(place, new)| self.put(place, &new));
        self.mark(metric, by);
    }

    /// Marks the point of the last edit, of which a value was rounded by so much.
    fn mark(&mut self, metric: &Metric<'r, '_>, by: f64) {
        if by > 0.0 {
            self.marks.push(Mark {
                at: self.edited.out.len() - 1,
                by,
                rule: metric.rule,
                resource: metric.resource.shown(),
            });
        }
    }

    /// A value that keeps its point foreign.
    fn unfit(&mut self, metric: &Metric<'r, '_>, value: Value<'_>, what: &str) {
        self.note(metric, value, what);
        if let Some(shown) = shown(value) {
            let text = format!("{shown} {}", metric.rule.from);
            write_text(self.edited.at(value.range()), text.trim_end());
        }
    }

    /// Names the first double of a metric that was first taken in whole numbers of its own unit.
    fn first_double(&mut self, metric: Value<'_>, unit: &str) {
        let found = Delta::of(self.finer_units, metric).and_then(|delta| delta.first_double());
        if let (None, Some((what, value))) = (&self.unfit, found) {
            let name = name_shown(metric);
            let value = shown(value).unwrap_or_default();
            self.unfit = Some(format!(
                "{what} {value} {unit} of `{name}` is a double, and it was first taken in whole {unit}"
            ));
        }
    }

    fn note(&mut self, metric: &Metric<'r, '_>, value: Value<'_>, what: &str) {
        let (None, Some(shown)) = (&self.unfit, shown(value)) else {
            return;
        };
        let name = name_shown(metric.value);
        let Rule { from, to, .. } = metric.rule;
        let value = format!("{what} {shown} {from}");
        let unit = if to.is_empty() { "numbers" } else { to };
        self.unfit = Some(format!("{} of `{name}` can't be had in whole {unit}", value.trim_end()));
    }
}

/// A double, as it is written too. What is no value of its field is none, however it looks.
fn double(value: Value<'_>) -> Option<(Cow<'_, str>, f64)> {
    let double = mapped_double(value)?;
    Some((value.number().map(Cow::Borrowed).or_else(|| value.text())?, double))
}

/// A double of at most 2^53 in size, times the factor. Over that a shortest decimal is not the double's own value.
fn exact(value: Value<'_>, rule: &Rule) -> Option<Decimal> {
    let (text, double) = double(value)?;
    let is_exact = double.abs() <= MAX_WHOLE_DOUBLE as f64;
    is_exact.then(|| Decimal::times(&text, rule.factor)).flatten()
}

/// A value as people write it; `None` where it was no number.
fn shown(value: Value<'_>) -> Option<String> {
    let (text, double) = double(value)?;
    Some(match text.parse::<i128>() {
        Ok(_) => text.into_owned(),
        Err(_) => double_shown(double),
    })
}

/// What a sum's point has of a number, as near as may be; none of one that it may not have.
pub(super) fn value_of_sum(product: Decimal, is_monotonic: bool) -> Option<Nearest> {
    let near = (!(is_monotonic && product.is_below_zero())).then(|| product.nearest())?;
    is_word(&near.whole).then_some(near)
}

/// The same of a histogram's sum.
pub(super) fn sum_of_histogram(product: Decimal) -> Option<Nearest> {
    let near = (!product.is_below_zero()).then(|| product.nearest())?;
    is_whole_double(&near.whole).then_some(near)
}

/// Whether a sum's point may have it.
pub(super) fn is_word(whole: &i128) -> bool {
    whole.unsigned_abs() <= i64::MAX as u128
}
