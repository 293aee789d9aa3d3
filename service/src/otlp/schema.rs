//! The messages of `ExportMetricsServiceRequest` as tables: names, numbers and kinds of their fields, for
//! both encodings (`opentelemetry/proto/metrics/v1/metrics.proto`, `common/v1/common.proto`).
//!
//! Fields that say nothing about a point (descriptions, exemplars, the least and the largest value) are not
//! here, or are only looked through. Fields of older versions that carried points or their identity are here
//! to be refused.

mod fields;

use super::Reading;
pub use fields::*;

/// A line of a table.
macro_rules! field {
    ($name:literal, $proto_name:literal, $number:literal, $kind:expr $(,)?) => {
        Field {
            name: $name,
            written: concat!("\"", $name, "\":"),
            initial: $name.as_bytes()[0],
            proto_name: $proto_name,
            number: {
                assert!($number < 16);
                $number
            },
            kind: $kind,
        }
    };
}

pub struct Message {
    pub name: &'static str,
    pub fields: &'static [Field],
    /// Numbers of fields of which a message has one: in protobuf the last that is there. The kinds of a metric's data are
    /// not here, since points of the others would be lost in silence: they are all written, and foreign.
    pub one_of: &'static [u8],
    pub refused: &'static [RefusedField],
}

pub struct Field {
    /// The name that the book reads (lowerCamelCase).
    pub name: &'static str,
    /// The same with its quotes and colon.
    pub written: &'static str,
    /// Its first letter.
    pub initial: u8,
    /// The name of the `.proto` file, which the JSON mapping allows too.
    pub proto_name: &'static str,
    /// Below 16, so that its key is one byte.
    pub number: u8,
    pub kind: Kind,
}

/// A field that can't be read and would be lost in silence.
pub struct RefusedField {
    pub names: &'static [&'static str],
    /// 0 where there is none in protobuf.
    pub number: u32,
    pub why: &'static str,
}

#[derive(Clone, Copy)]
pub enum Kind {
    /// A container; in JSON another type refuses the request.
    Message(&'static Message),
    Messages(&'static Message),
    /// A part of an identity; in JSON another type makes foreign what it identifies.
    Part(&'static Message),
    Parts(&'static Message),
    /// The list from which attributes are dropped.
    ResourceAttributes,
    Text,
    /// A metric's unit, by which `--integer-unit` tells what it is about.
    Unit,
    Bool,
    Temporality,
    Whole(Wire),
    /// Packed, each of 8 bytes.
    Wholes,
    /// The same, each as short as it may be.
    Numbers,
    /// A double that may be a whole number.
    Double,
    Doubles,
    /// A double that makes its point foreign, whatever it is.
    Fraction,
    Bytes,
    /// A map or a list in a list, which makes foreign what it identifies: it is looked through, and written as empty.
    Foreign(&'static Message),
    /// Is only looked through for what is malformed, in protobuf.
    Exemplars,
    /// A container, which says more where it is taken.
    Exponential,
}

/// How a whole number is written in protobuf.
#[derive(Clone, Copy, PartialEq, Eq)]
pub enum Wire {
    Int64,
    Uint32,
    Sint32,
    Fixed64,
    Sfixed64,
}

/// A message of which nothing more is to be said.
const PLAIN: Message = Message { name: "", fields: &[], one_of: &[], refused: &[] };

const fn refused(names: &'static [&'static str], number: u32, why: &'static str) -> RefusedField {
    RefusedField { names, number, why }
}

const OTHER_SIGNAL: &str = "is not of metrics: send it to the path of its signal";
const MISPLACED: &str = "is not at the top of a request: it belongs into resourceMetrics";
const OLD: &str = "is of an old version of OTLP and can't be read: send it with a newer exporter";

pub static REQUEST: Message = Message {
    name: "ExportMetricsServiceRequest",
    fields: &[field!("resourceMetrics", "resource_metrics", 1, Kind::Messages(&RESOURCE_METRICS),)],
    refused: &[
        refused(&["resourceSpans", "resource_spans"], 0, OTHER_SIGNAL),
        refused(&["resourceLogs", "resource_logs"], 0, OTHER_SIGNAL),
        refused(&["resourceProfiles", "resource_profiles"], 0, OTHER_SIGNAL),
        refused(&["resource", "scopeMetrics", "scope_metrics"], 0, MISPLACED),
        refused(&["scope", "metrics", "dataPoints", "data_points"], 0, MISPLACED),
        refused(&["gauge", "sum", "histogram", "exponentialHistogram", "summary"], 0, MISPLACED),
        refused(&["instrumentationLibraryMetrics", "instrumentation_library_metrics"], 0, OLD),
    ],
    ..PLAIN
};

pub static RESOURCE_METRICS: Message = Message {
    name: "ResourceMetrics",
    fields: &[
        field!("resource", "resource", 1, Kind::Message(&RESOURCE)),
        field!("scopeMetrics", "scope_metrics", 2, Kind::Messages(&SCOPE_METRICS)),
    ],
    refused: &[
        refused(&["instrumentationLibraryMetrics", "instrumentation_library_metrics"], 1000, OLD),
        refused(&["scopeSpans", "scope_spans", "scopeLogs", "scope_logs"], 0, OTHER_SIGNAL),
        refused(&["metrics"], 0, "is not in ResourceMetrics: it belongs into scopeMetrics"),
    ],
    ..PLAIN
};

pub static RESOURCE: Message = Message {
    name: "Resource",
    fields: &[field!("attributes", "attributes", 1, Kind::ResourceAttributes)],
    refused: &[refused(&["labels"], 0, OLD)],
    ..PLAIN
};

pub static SCOPE_METRICS: Message = Message {
    name: "ScopeMetrics",
    fields: &[
        field!("scope", "scope", 1, Kind::Message(&SCOPE)),
        field!("metrics", "metrics", 2, Kind::Messages(&METRIC)),
    ],
    refused: &[refused(&["instrumentationLibrary", "instrumentation_library"], 0, OLD)],
    ..PLAIN
};

pub static SCOPE: Message = Message {
    name: "InstrumentationScope",
    fields: &[
        field!("name", "name", 1, Kind::Text),
        field!("version", "version", 2, Kind::Text),
        field!("attributes", "attributes", 3, Kind::Parts(&KEY_VALUE)),
    ],
    ..PLAIN
};

pub static METRIC: Message = Message {
    name: "Metric",
    fields: &[
        field!("name", "name", 1, Kind::Text),
        field!("unit", "unit", 3, Kind::Unit),
        field!("gauge", "gauge", 5, Kind::Message(&OTHER_DATA)),
        field!("sum", "sum", 7, Kind::Message(&SUM)),
        field!("histogram", "histogram", 9, Kind::Message(&HISTOGRAM)),
        field!("exponentialHistogram", "exponential_histogram", 10, Kind::Exponential,),
        field!("summary", "summary", 11, Kind::Message(&OTHER_DATA)),
    ],
    refused: &[
        refused(&["intGauge", "int_gauge"], 4, OLD),
        refused(&["intSum", "int_sum"], 6, OLD),
        refused(&["intHistogram", "int_histogram"], 8, OLD),
        refused(&["doubleGauge", "double_gauge", "doubleSum", "double_sum"], 0, OLD),
        refused(&["doubleHistogram", "double_histogram", "doubleSummary", "double_summary"], 0, OLD),
    ],
    ..PLAIN
};

/// A gauge, an exponential histogram or a summary: its points are counted, no more.
static OTHER_DATA: Message = Message {
    name: "Metric.data",
    fields: &[field!("dataPoints", "data_points", 1, Kind::Messages(&COUNTED))],
    ..PLAIN
};

static COUNTED: Message = Message { name: "DataPoint", ..PLAIN };

static SUM: Message = Message {
    name: "Sum",
    fields: &[
        field!("dataPoints", "data_points", 1, Kind::Messages(&NUMBER_POINT)),
        field!("aggregationTemporality", "aggregation_temporality", 2, Kind::Temporality,),
        field!("isMonotonic", "is_monotonic", 3, Kind::Bool),
    ],
    ..PLAIN
};

pub static NUMBER_POINT: Message = Message {
    name: "NumberDataPoint",
    fields: &[
        field!("startTimeUnixNano", "start_time_unix_nano", 2, Kind::Whole(Wire::Fixed64),),
        field!("timeUnixNano", "time_unix_nano", 3, Kind::Whole(Wire::Fixed64)),
        field!("asDouble", "as_double", 4, Kind::Fraction),
        field!("exemplars", "exemplars", 5, Kind::Exemplars),
        field!("asInt", "as_int", 6, Kind::Whole(Wire::Sfixed64)),
        field!("attributes", "attributes", 7, Kind::Parts(&KEY_VALUE)),
        field!("flags", "flags", 8, Kind::Whole(Wire::Uint32)),
    ],
    one_of: &[4, 6],
    refused: &[refused(&["labels"], 1, OLD), refused(&["value"], 0, OLD)],
};

static HISTOGRAM: Message = Message {
    name: "Histogram",
    fields: &[
        field!("dataPoints", "data_points", 1, Kind::Messages(&HISTOGRAM_POINT)),
        field!("aggregationTemporality", "aggregation_temporality", 2, Kind::Temporality,),
    ],
    ..PLAIN
};

pub static HISTOGRAM_POINT: Message = Message {
    name: "HistogramDataPoint",
    fields: &[
        field!("startTimeUnixNano", "start_time_unix_nano", 2, Kind::Whole(Wire::Fixed64),),
        field!("timeUnixNano", "time_unix_nano", 3, Kind::Whole(Wire::Fixed64)),
        field!("count", "count", 4, Kind::Whole(Wire::Fixed64)),
        field!("sum", "sum", 5, Kind::Double),
        field!("bucketCounts", "bucket_counts", 6, Kind::Wholes),
        field!("explicitBounds", "explicit_bounds", 7, Kind::Doubles),
        field!("exemplars", "exemplars", 8, Kind::Exemplars),
        field!("attributes", "attributes", 9, Kind::Parts(&KEY_VALUE)),
        field!("flags", "flags", 10, Kind::Whole(Wire::Uint32)),
    ],
    refused: &[refused(&["labels"], 1, OLD)],
    ..PLAIN
};

pub static EXEMPLAR: Message = Message {
    name: "Exemplar",
    fields: &[
        field!("timeUnixNano", "time_unix_nano", 2, Kind::Whole(Wire::Fixed64)),
        field!("asDouble", "as_double", 3, Kind::Fraction),
        field!("spanId", "span_id", 4, Kind::Bytes),
        field!("traceId", "trace_id", 5, Kind::Bytes),
        field!("asInt", "as_int", 6, Kind::Whole(Wire::Sfixed64)),
        field!("filteredAttributes", "filtered_attributes", 7, Kind::Parts(&KEY_VALUE),),
    ],
    one_of: &[3, 6],
    refused: &[],
};

pub static KEY_VALUE: Message = Message {
    name: "KeyValue",
    fields: &[field!("key", "key", 1, Kind::Text), field!("value", "value", 2, Kind::Part(&ANY_VALUE))],
    ..PLAIN
};

/// All that a value may be.
pub const ONE_VALUE: &[u8] = &[1, 2, 3, 4, 5, 6, 7];

/// A value; `list` is the kind of its `arrayValue`.
const fn any_value(list: Kind) -> [Field; 7] {
    [
        field!("stringValue", "string_value", 1, Kind::Text),
        field!("boolValue", "bool_value", 2, Kind::Bool),
        field!("intValue", "int_value", 3, Kind::Whole(Wire::Int64)),
        field!("doubleValue", "double_value", 4, Kind::Fraction),
        field!("arrayValue", "array_value", 5, list),
        field!("kvlistValue", "kvlist_value", 6, Kind::Foreign(&KEY_VALUE_LIST)),
        field!("bytesValue", "bytes_value", 7, Kind::Bytes),
    ]
}

pub static ANY_VALUE: Message = Message {
    name: "AnyValue",
    fields: &any_value(Kind::Part(&ARRAY_VALUE)),
    one_of: ONE_VALUE,
    refused: &[],
};

static ARRAY_VALUE: Message = Message {
    name: "ArrayValue",
    fields: &[field!("values", "values", 1, Kind::Parts(&SINGLE_VALUE))],
    ..PLAIN
};

/// A value in a list. It may be no list itself, so what is written is no deeper than the book reads.
static SINGLE_VALUE: Message = Message {
    name: "AnyValue",
    fields: &any_value(Kind::Foreign(&ARRAY_VALUE)),
    one_of: ONE_VALUE,
    refused: &[],
};

static KEY_VALUE_LIST: Message = Message {
    name: "KeyValueList",
    fields: &[field!("values", "values", 1, Kind::Parts(&KEY_VALUE))],
    ..PLAIN
};

/// How exponential histograms are read: what their points say where it is wanted; else they are counted, as those of a gauge are.
pub fn exponential_histogram(reading: &Reading) -> &'static Message {
    match reading.exponential {
        Some(_) => &EXPONENTIAL_HISTOGRAM,
        None => &OTHER_DATA,
    }
}

static EXPONENTIAL_HISTOGRAM: Message = Message {
    name: "ExponentialHistogram",
    fields: &[
        field!("dataPoints", "data_points", 1, Kind::Messages(&EXPONENTIAL_POINT)),
        field!("aggregationTemporality", "aggregation_temporality", 2, Kind::Temporality,),
    ],
    ..PLAIN
};

static EXPONENTIAL_POINT: Message = Message {
    name: "ExponentialHistogramDataPoint",
    fields: &[
        field!("attributes", "attributes", 1, Kind::Parts(&KEY_VALUE)),
        field!("startTimeUnixNano", "start_time_unix_nano", 2, Kind::Whole(Wire::Fixed64),),
        field!("timeUnixNano", "time_unix_nano", 3, Kind::Whole(Wire::Fixed64)),
        field!("count", "count", 4, Kind::Whole(Wire::Fixed64)),
        field!("sum", "sum", 5, Kind::Double),
        field!("scale", "scale", 6, Kind::Whole(Wire::Sint32)),
        field!("zeroCount", "zero_count", 7, Kind::Whole(Wire::Fixed64)),
        field!("positive", "positive", 8, Kind::Message(&BUCKETS)),
        field!("negative", "negative", 9, Kind::Message(&BUCKETS)),
        field!("flags", "flags", 10, Kind::Whole(Wire::Uint32)),
        field!("exemplars", "exemplars", 11, Kind::Exemplars),
        field!("zeroThreshold", "zero_threshold", 14, Kind::Double),
    ],
    ..PLAIN
};

static BUCKETS: Message = Message {
    name: "Buckets",
    fields: &[
        field!("offset", "offset", 1, Kind::Whole(Wire::Sint32)),
        field!("bucketCounts", "bucket_counts", 2, Kind::Numbers),
    ],
    ..PLAIN
};
