//! The fields of an ExportMetricsServiceRequest that are read.

use plain::number::Number;
use serde::de::MapAccess;
use serde::Deserialize;

use crate::lenient::{Anything, Field, Nothing, Wanted};

/// Each name that is known in some object.
#[derive(Deserialize)]
#[serde(field_identifier, rename_all = "camelCase")]
enum Member {
    AggregationTemporality,
    ArrayValue,
    AsDouble,
    AsInt,
    Attributes,
    BoolValue,
    BucketCounts,
    BytesValue,
    Count,
    DataPoints,
    DoubleValue,
    ExplicitBounds,
    ExponentialHistogram,
    Flags,
    Gauge,
    Histogram,
    IntValue,
    IsMonotonic,
    Key,
    KvlistValue,
    Metrics,
    Name,
    Resource,
    ResourceMetrics,
    Scope,
    ScopeMetrics,
    StartTimeUnixNano,
    StringValue,
    Sum,
    Summary,
    TimeUnixNano,
    Unit,
    Value,
    Values,
    Version,
    #[serde(other)]
    Unknown,
}

/// Objects, by the fields that are read of them. Of a name that is there twice the last value counts.
macro_rules! objects {
    ($($object:ident { $($name:ident => $field:ident: $wanted:ty,)* })*) => {$(
        #[derive(Default)]
        pub struct $object {
            $(pub $field: Field<$wanted>,)*
        }

        impl Wanted for $object {
            fn of_object<'de, A: MapAccess<'de>>(mut from: A) -> Result<Option<$object>, A::Error> {
                let mut object = $object::default();
                while let Some(name) = from.next_key()? {
                    match name {
                        $(Member::$name => object.$field = from.next_value()?,)*
                        _ => {
                                from.next_value::<Anything>()?;
                            }
                    }
                }
                Ok(Some(object))
            }
        }
    )*};
}

objects! {
    Body {
        ResourceMetrics => resource_metrics: Vec<ResourceMetrics>,
    }
    ResourceMetrics {
        Resource => resource: Resource,
        ScopeMetrics => scope_metrics: Vec<ScopeMetrics>,
    }
    Resource {
        Attributes => attributes: Vec<Attribute>,
    }
    ScopeMetrics {
        Scope => scope: Scope,
        Metrics => metrics: Vec<Metric>,
    }
    Scope {
        Name => name: String,
        Version => version: String,
        Attributes => attributes: Vec<Attribute>,
    }
    Metric {
        Name => name: String,
        Unit => unit: String,
        Gauge => gauge: Foreign,
        Sum => sum: Sum,
        Histogram => histogram: Histogram,
        ExponentialHistogram => exponential_histogram: Foreign,
        Summary => summary: Foreign,
    }
    Foreign {
        DataPoints => data_points: Vec<Object>,
    }
    Sum {
        AggregationTemporality => temporality: Delta,
        IsMonotonic => is_monotonic: bool,
        DataPoints => data_points: Vec<SumPoint>,
    }
    SumPoint {
        Attributes => attributes: Vec<Attribute>,
        StartTimeUnixNano => start: Number,
        TimeUnixNano => end: Number,
        Flags => flags: Number,
        AsInt => as_int: Number,
        AsDouble => as_double: Nothing,
    }
    Histogram {
        AggregationTemporality => temporality: Delta,
        DataPoints => data_points: Vec<HistogramPoint>,
    }
    HistogramPoint {
        Attributes => attributes: Vec<Attribute>,
        StartTimeUnixNano => start: Number,
        TimeUnixNano => end: Number,
        Flags => flags: Number,
        Count => count: Number,
        Sum => sum: Number,
        BucketCounts => bucket_counts: Vec<Number>,
        ExplicitBounds => explicit_bounds: Vec<Number>,
    }
    Attribute {
        Key => key: String,
        Value => value: AnyValue,
    }
    AnyValue {
        StringValue => string: String,
        BoolValue => boolean: bool,
        IntValue => int: Number,
        ArrayValue => array: ArrayValue,
        DoubleValue => double: Nothing,
        BytesValue => bytes: Nothing,
        KvlistValue => list_of_pairs: Nothing,
    }
    ArrayValue {
        Values => values: Vec<AnyValue>,
    }
}

/// An object of which nothing is read.
pub struct Object;

impl Wanted for Object {
    fn of_object<'de, A: MapAccess<'de>>(from: A) -> Result<Option<Object>, A::Error> {
        Nothing::of_object(from)?;
        Ok(Some(Object))
    }
}

/// The temporality of which points are taken: the number 1, and no text.
pub struct Delta;

impl Wanted for Delta {
    fn of_number(number: Number) -> Option<Delta> {
        (number == Number::Natural(1)).then_some(Delta)
    }
}
