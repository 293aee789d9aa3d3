//! The rows of new series.

use super::store::NotTaken;
use super::values::{row, Jsonb, NewRow};
use crate::otlp::series::NotForwarded;
use crate::sink::attributes::object;
use crate::sink::sql::totals::Kind;
use crate::sink::sql::OfSeries;
use serde_json::Value;

/// Stands for U+0000, the one character that PostgreSQL's text and jsonb can't hold.
const SHOWN_FOR_ZERO: &str = "\u{fffd}";

/// A row of `series`, without the columns that the server makes.
pub(super) fn series_row(series: &OfSeries, sender: Option<String>) -> Result<NewRow<'_>, NotTaken> {
    let parts = series.key.parts()?;
    let (kind, bounds) = Kind::identified(parts.kind);
    series.fits(bounds.as_ref().map(|bounds| bounds.len() + 1))?;
    let name_json = parts.name.contains('\0').then(|| Value::from(parts.name.as_str()).to_string());
    let mut is_exact = true;
    let [attributes, resource, scope_attributes] =
        [&parts.attributes, &parts.resource, &parts.scope_attributes]
            .map(|list| held_list(list, &mut is_exact));
    let (attributes, resource, scope_attributes) = (attributes?, resource?, scope_attributes?);
    let [name, unit, scope_name, scope_version] =
        [parts.name, parts.unit, parts.scope_name, parts.scope_version].map(|text| held(text, &mut is_exact));
    Ok(row(move |write| {
        write(&[
            &None::<i64>,
            &&series.digest[..],
            &&*series.key.0,
            &is_exact,
            &name,
            &name_json,
            &unit,
            &kind.name(),
            &kind.is_monotonic(),
            &bounds,
            &attributes,
            &resource,
            &scope_name,
            &scope_version,
            &scope_attributes,
            &sender,
            &None::<&[u8]>,
        ])
    }))
}

fn held_list(list: &str, is_exact: &mut bool) -> Result<Jsonb, NotForwarded> {
    let object = object(list)?.into_iter();
    let object = object.map(|(key, value)| (held(key, is_exact), held_value(value, is_exact)));
    Ok(Jsonb(Value::Object(object.collect()).to_string()))
}

fn held_value(value: Value, is_exact: &mut bool) -> Value {
    match value {
        Value::String(text) => Value::String(held(text, is_exact)),
        Value::Array(values) => values.into_iter().map(|value| held_value(value, is_exact)).collect(),
        other => other,
    }
}

/// A text in the form that PostgreSQL can hold.
fn held(text: String, is_exact: &mut bool) -> String {
    if !text.contains('\0') {
        return text;
    }
    *is_exact = false;
    text.replace('\0', SHOWN_FOR_ZERO)
}
