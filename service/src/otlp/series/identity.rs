//! What identifies a point, read as the book reads it and written as the book writes it. An error is of what
//! no series may have; its points are foreign (docs/FORMATS.md, "Reading OTLP/JSON").

use super::why::{What, Why};
use crate::otlp::json::{write_text, Value};
use crate::otlp::number::book_whole;
use std::borrow::Cow;
use std::fmt::Write;

const MAX_TEXT: usize = 4096;
const MAX_ATTRIBUTES: usize = 128;
const MAX_VALUES: usize = 128;

type Read<'d, T> = Result<T, Why<'d>>;

/// A text, empty where it is absent.
pub fn text<'d>(field: &'static str, found: Option<Value<'d>>) -> Read<'d, Cow<'d, str>> {
    let Some(value) = found else {
        return Ok(Cow::Borrowed(""));
    };
    match value.text() {
        Some(text) if text.len() <= MAX_TEXT => Ok(text),
        Some(_) => Err(Why::new(What::LongText, field, found)),
        None => Err(Why::new(What::NoText, field, found)),
    }
}

/// Writes an attribute list in key order. `one` is what one of its attributes is called.
pub fn write_attributes<'d>(out: &mut String, one: &'static str, found: Option<Value<'d>>) -> Read<'d, ()> {
    let Some(list) = found else {
        out.push_str("[]");
        return Ok(());
    };
    let no_list = || Why::new(What::NoAttributes, one, found);
    let mut pairs = Vec::new();
    for pair in list.elements().ok_or_else(no_list)? {
        let [key, value] = pair.named(["key", "value"]).ok_or_else(no_list)?;
        if pairs.len() == MAX_ATTRIBUTES {
            return Err(Why::new(What::ManyAttributes, one, None));
        }
        pairs.push((text(one, key)?, value, key));
    }
    // Of the same keys none is allowed, so the values have no say in the order.
    pairs.sort_unstable_by(|one, other| one.0.as_bytes().cmp(other.0.as_bytes()));
    let of = |key, what, value| Why { key, ..Why::new(what, one, value) };
    if let Some(two) = pairs.windows(2).find(|two| two[0].0 == two[1].0) {
        return Err(of(two[0].2, What::SameKeys, None));
    }
    out.push('[');
    for (place, (text, value, key)) in pairs.into_iter().enumerate() {
        out.push_str(if place > 0 { ",{\"key\":" } else { "{\"key\":" });
        write_text(out, &text);
        out.push_str(",\"value\":");
        match value {
            None => out.push_str("{}"),
            Some(value) => {
                write_value(out, value, MayBeList::Yes).map_err(|(what, value)| of(key, what, Some(value)))?
            }
        }
        out.push('}');
    }
    out.push(']');
    Ok(())
}

#[derive(Clone, Copy, PartialEq)]
enum MayBeList {
    Yes,
    No,
}

/// The fields that a value may have: it has one at most, and of series one of the first four.
pub(super) const VALUES: [&str; 7] =
    ["stringValue", "boolValue", "intValue", "arrayValue", "doubleValue", "bytesValue", "kvlistValue"];

/// What is wrong with a value, and the part of it that is.
type Wrong<'d> = (What, Value<'d>);

/// Writes the value of an attribute, or an element of a list.
fn write_value<'d>(out: &mut String, value: Value<'d>, may_be_list: MayBeList) -> Result<(), Wrong<'d>> {
    let wrong = |value| (What::WrongValue, value);
    let named = value.named(VALUES);
    match named.ok_or((What::WrongValue, value))? {
        [None, None, None, None, None, None, None] => out.push_str("{}"),
        [Some(text), None, None, None, None, None, None] => {
            out.push_str("{\"stringValue\":");
            let sound = text.text().filter(|text| text.len() <= MAX_TEXT);
            write_text(out, &sound.ok_or(wrong(text))?);
            out.push('}');
        }
        [None, Some(truth), None, None, None, None, None] => {
            let _ = write!(out, "{{\"boolValue\":{}}}", truth.truth().ok_or(wrong(truth))?);
        }
        [None, None, Some(whole), None, None, None, None] => {
            let number = book_whole(whole).and_then(|whole| i64::try_from(whole).ok());
            let _ = write!(out, "{{\"intValue\":\"{}\"}}", number.ok_or(wrong(whole))?);
        }
        [None, None, None, Some(list), None, None, None] if may_be_list == MayBeList::Yes => {
            write_list(out, list)?
        }
        [None, None, None, Some(list), None, None, None] => return Err((What::ListInList, list)),
        [None, None, None, None, Some(double), None, None] => return Err((What::DoubleValue, double)),
        [None, None, None, None, None, Some(bytes), None] => return Err((What::BytesValue, bytes)),
        [None, None, None, None, None, None, Some(map)] => return Err((What::MapValue, map)),
        _ => return Err((What::SeveralValues, value)),
    }
    Ok(())
}

fn write_list<'d>(out: &mut String, list: Value<'d>) -> Result<(), Wrong<'d>> {
    let [values] = list.named(["values"]).ok_or((What::WrongValue, list))?;
    out.push_str("{\"arrayValue\":{\"values\":[");
    if let Some(values) = values {
        for (place, value) in values.elements().ok_or((What::WrongValue, values))?.enumerate() {
            if place == MAX_VALUES {
                return Err((What::LongList, list));
            }
            if place > 0 {
                out.push(',');
            }
            write_value(out, value, MayBeList::No)?;
        }
    }
    out.push_str("]}}");
    Ok(())
}
