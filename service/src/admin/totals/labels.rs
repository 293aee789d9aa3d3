//! The labels of a series and of its resource.
//!
//! A series keeps its labels, whichever other series there are: to Prometheus, a series with one more label is another
//! series.

use super::names;
use crate::sink::sql::totals::{text, SeriesTotal};
use serde_json::{json, Map, Value};
use sha2::{Digest, Sha256};
use std::collections::BTreeMap;
use std::fmt::Write;

pub type Labels = BTreeMap<String, String>;

/// Labels that the page sets itself. An attribute of such a name becomes `exported_NAME`.
const OURS: [&str; 8] =
    ["job", "instance", "le", "otel_scope_name", "otel_scope_version", METRIC, SENDER, SERIES];

/// The metric's name as it was sent: several names may become the same one.
const METRIC: &str = "otel_metric_name";
/// The sender of the series, if the request asks for it.
const SENDER: &str = "otel_sender";
/// The `identity` of the series: attributes of several series may become the same labels.
const SERIES: &str = "otel_series";
/// How many bytes of the digest are used. They are enough that nobody finds two series with the same ones.
const IDENTITY: usize = 16;

const NAMESPACE: &str = "service.namespace";
const NAME: &str = "service.name";
const INSTANCE: &str = "service.instance.id";

pub fn of_series(series: &SeriesTotal) -> Labels {
    let mut labels = Labels::new();
    add(&mut labels, "", &series.attributes, &[]);
    add(&mut labels, "otel_scope_", &series.scope_attributes, &[]);
    labels.insert("otel_scope_name".into(), series.scope_name.clone());
    labels.insert("otel_scope_version".into(), series.scope_version.clone());
    identify(&mut labels, &series.resource);
    labels.insert(METRIC.into(), series.name.clone());
    labels.insert(SENDER.into(), series.sender.clone().unwrap_or_default());
    labels.insert(SERIES.into(), identity(series));
    labels.retain(|_, value| !value.is_empty()); // to Prometheus, an empty label is a missing one
    labels
}

/// A digest of all that distinguishes the series, in hexadecimal.
pub fn identity(series: &SeriesTotal) -> String {
    let all = json!([
        series.name,
        series.unit,
        series.kind,
        series.attributes,
        series.resource,
        series.scope_name,
        series.scope_version,
        series.scope_attributes,
        series.histogram.as_ref().map(|histogram| &histogram.bounds),
    ]);
    let digest = Sha256::digest(all.to_string().as_bytes());
    digest[..IDENTITY].iter().map(|byte| format!("{byte:02x}")).collect()
}

/// The labels of `target_info`. None if the resource has only a job and an instance.
pub fn of_resource(resource: &Map<String, Value>) -> Option<Labels> {
    let mut labels = Labels::new();
    add(&mut labels, "", resource, &[NAMESPACE, NAME, INSTANCE]);
    labels.retain(|_, value| !value.is_empty());
    if labels.is_empty() {
        return None;
    }
    identify(&mut labels, resource);
    Some(labels)
}

/// Adds attributes. If several keys become the same label, their values are joined in the order of the keys.
fn add(labels: &mut Labels, prefix: &str, attributes: &Map<String, Value>, but: &[&str]) {
    let mut pairs: Vec<(&String, &Value)> = attributes.iter().collect();
    pairs.sort_by_key(|(key, _)| *key);
    for (key, value) in pairs {
        if but.contains(&key.as_str()) {
            continue;
        }
        let name = names::label(&format!("{prefix}{key}"));
        let name = match OURS.contains(&name.as_str()) {
            true => format!("exported_{name}"),
            false => name,
        };
        let value = text(value);
        labels.entry(name).and_modify(|found| *found += &format!(";{value}")).or_insert(value);
    }
}

fn identify(labels: &mut Labels, resource: &Map<String, Value>) {
    let of = |key: &str| resource.get(key).map(text).filter(|text| !text.is_empty());
    if let Some(name) = of(NAME) {
        let job = match of(NAMESPACE) {
            Some(namespace) => format!("{namespace}/{name}"),
            None => name,
        };
        labels.insert("job".into(), job);
    }
    if let Some(instance) = of(INSTANCE) {
        labels.insert("instance".into(), instance);
    }
}

/// `{a="b",c="d"}`, or nothing. A zero byte is replaced, since Prometheus ends the page there.
pub fn written(labels: &Labels, bound: Option<&str>) -> String {
    let mut written = String::new();
    let bound = bound.map(|bound| ("le", bound));
    let all = labels.iter().map(|(name, value)| (name.as_str(), value.as_str())).chain(bound);
    for (name, value) in all {
        written.push(if written.is_empty() { '{' } else { ',' });
        let _ = write!(written, "{name}=\""); // writing to a string does not fail
        for sign in value.chars() {
            match sign {
                '\\' => written.push_str("\\\\"),
                '"' => written.push_str("\\\""),
                '\n' => written.push_str("\\n"),
                '\0' => written.push(char::REPLACEMENT_CHARACTER),
                other => written.push(other),
            }
        }
        written.push('"');
    }
    if !written.is_empty() {
        written.push('}');
    }
    written
}
