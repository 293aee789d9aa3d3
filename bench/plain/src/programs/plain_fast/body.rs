//! A body whose texts are borrowed of its bytes.

use std::borrow::Cow;

use plain::number::Number;
use serde::de::{Deserializer, Error};
use serde::Deserialize;

use crate::few::Few;

pub type Attributes<'a> = Few<Attribute<'a>, 4>;

#[derive(Deserialize)]
#[serde(rename_all = "camelCase")]
pub struct Body<'a> {
    #[serde(borrow, default)]
    pub resource_metrics: Vec<ResourceMetrics<'a>>,
}

#[derive(Deserialize)]
#[serde(rename_all = "camelCase")]
pub struct ResourceMetrics<'a> {
    #[serde(borrow, default)]
    pub resource: Resource<'a>,
    #[serde(borrow, default)]
    pub scope_metrics: Vec<ScopeMetrics<'a>>,
}

#[derive(Deserialize, Default)]
pub struct Resource<'a> {
    #[serde(borrow, default, deserialize_with = "sorted")]
    pub attributes: Attributes<'a>,
}

#[derive(Deserialize)]
pub struct ScopeMetrics<'a> {
    #[serde(borrow, default)]
    pub scope: Scope<'a>,
    #[serde(borrow, default)]
    pub metrics: Vec<Metric<'a>>,
}

#[derive(Deserialize, Default)]
pub struct Scope<'a> {
    #[serde(borrow, default)]
    pub name: Cow<'a, str>,
    #[serde(borrow, default)]
    pub version: Cow<'a, str>,
    #[serde(borrow, default, deserialize_with = "sorted")]
    pub attributes: Attributes<'a>,
}

#[derive(Deserialize, Default)]
pub struct Attribute<'a> {
    #[serde(borrow)]
    pub key: Cow<'a, str>,
    #[serde(borrow)]
    pub value: AnyValue<'a>,
}

#[derive(Deserialize, Default)]
pub enum AnyValue<'a> {
    #[default]
    #[serde(skip)]
    Empty,
    #[serde(borrow, rename = "stringValue")]
    Text(Cow<'a, str>),
    #[serde(rename = "intValue")]
    Int(Signed),
    #[serde(rename = "boolValue")]
    Bool(bool),
}

#[derive(Deserialize)]
pub struct Metric<'a> {
    #[serde(borrow, default)]
    pub name: Cow<'a, str>,
    #[serde(borrow, default)]
    pub unit: Cow<'a, str>,
    #[serde(borrow)]
    pub sum: Option<Sum<'a>>,
    #[serde(borrow)]
    pub histogram: Option<Histogram<'a>>,
}

#[derive(Deserialize)]
#[serde(rename_all = "camelCase")]
pub struct Sum<'a> {
    pub aggregation_temporality: u64,
    #[serde(default)]
    pub is_monotonic: bool,
    #[serde(borrow, default)]
    pub data_points: Vec<SumPoint<'a>>,
}

#[derive(Deserialize)]
#[serde(rename_all = "camelCase")]
pub struct SumPoint<'a> {
    #[serde(borrow, default, deserialize_with = "sorted")]
    pub attributes: Attributes<'a>,
    pub start_time_unix_nano: Natural,
    pub time_unix_nano: Natural,
    pub as_int: Signed,
}

#[derive(Deserialize)]
#[serde(rename_all = "camelCase")]
pub struct Histogram<'a> {
    pub aggregation_temporality: u64,
    #[serde(borrow, default)]
    pub data_points: Vec<HistogramPoint<'a>>,
}

#[derive(Deserialize)]
#[serde(rename_all = "camelCase")]
pub struct HistogramPoint<'a> {
    #[serde(borrow, default, deserialize_with = "sorted")]
    pub attributes: Attributes<'a>,
    pub start_time_unix_nano: Natural,
    pub time_unix_nano: Natural,
    pub sum: Option<u64>,
    #[serde(default)]
    pub bucket_counts: Few<Natural, 16>,
    #[serde(default)]
    pub explicit_bounds: Few<i64, 16>,
}

#[derive(Clone, Copy, Default)]
pub struct Natural(pub u64);

#[derive(Clone, Copy, Default)]
pub struct Signed(pub i64);

impl<'de> Deserialize<'de> for Natural {
    fn deserialize<D: Deserializer<'de>>(from: D) -> Result<Natural, D::Error> {
        let number = Number::deserialize(from)?.natural();
        number.map(Natural).ok_or_else(out_of_range)
    }
}

impl<'de> Deserialize<'de> for Signed {
    fn deserialize<D: Deserializer<'de>>(from: D) -> Result<Signed, D::Error> {
        let number = Number::deserialize(from)?.signed();
        number.map(Signed).ok_or_else(out_of_range)
    }
}

fn out_of_range<E: Error>() -> E {
    E::custom("a number is out of range")
}

/// The attributes of a list, by their keys.
fn sorted<'de, D: Deserializer<'de>>(from: D) -> Result<Attributes<'de>, D::Error> {
    let mut list = Attributes::deserialize(from)?;
    list.sort_unstable_by(|a, b| a.key.cmp(&b.key));
    Ok(list)
}
