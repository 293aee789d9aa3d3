//! What is looked up in the tables: fields by their numbers and names, and those that have names here, which are found as the program
//! is compiled: a name that no table has stops that.

use super::{
    Field, Kind, Message, RefusedField, ANY_VALUE, EXEMPLAR, EXPONENTIAL_HISTOGRAM, HISTOGRAM_POINT,
    KEY_VALUE, METRIC, NUMBER_POINT, REQUEST, RESOURCE, RESOURCE_METRICS, SCOPE_METRICS, SUM,
};
use crate::otlp::json::Value;

impl Message {
    /// The field that has this number in protobuf.
    pub fn numbered(&self, number: u32) -> Option<&'static Field> {
        self.fields.iter().find(|field| u32::from(field.number) == number)
    }

    /// The field that has this name in JSON.
    pub fn named(&self, name: &str) -> Option<&'static Field> {
        self.fields.iter().find(|field| field.is_named(name))
    }

    /// What would be lost with a field of this number.
    pub fn lost(&self, number: u32) -> Option<&'static RefusedField> {
        self.refused.iter().find(|lost| lost.number == number)
    }

    /// The same of a member of JSON that has something to say.
    pub fn lost_in_json(&self, name: &str, value: Value<'_>) -> Option<&'static RefusedField> {
        let is_empty = match value.elements() {
            Some(mut elements) => elements.next().is_none(),
            None => value.is_null(),
        };
        self.refused.iter().find(|lost| !is_empty && lost.names.contains(&name))
    }

    /// Whether a field of this number is passed over in protobuf, whatever it is.
    pub fn says_nothing(&self, number: u32) -> bool {
        self.numbered(number).is_none() && self.lost(number).is_none()
    }
}

impl Field {
    /// Either name is read ("JSON Options" of protobuf's language guide).
    pub fn is_named(&self, name: &str) -> bool {
        self.name == name || self.proto_name == name
    }

    /// The table of the messages that it has.
    pub fn message(&self) -> Option<&'static Message> {
        match self.kind {
            Kind::Message(inner) | Kind::Messages(inner) | Kind::Part(inner) | Kind::Parts(inner) => {
                Some(inner)
            }
            Kind::Foreign(inner) => Some(inner),
            Kind::ResourceAttributes => Some(&KEY_VALUE),
            Kind::Exemplars => Some(&EXEMPLAR),
            Kind::Exponential => Some(&EXPONENTIAL_HISTOGRAM),
            _ => None,
        }
    }

    /// Whether these are a list.
    pub fn is_list(&self) -> bool {
        matches!(self.kind, Kind::Messages(_) | Kind::Parts(_) | Kind::ResourceAttributes | Kind::Exemplars)
    }
}

pub const fn field_of(message: &Message, name: &str) -> &'static Field {
    let mut place = 0;
    while !is_same(message.fields[place].name.as_bytes(), name.as_bytes()) {
        place += 1;
    }
    &message.fields[place]
}

const fn is_same(one: &[u8], other: &[u8]) -> bool {
    let mut place = 0;
    while place < one.len() && place < other.len() && one[place] == other[place] {
        place += 1;
    }
    place == one.len() && place == other.len()
}

/// The way to a point, and to what an attribute says.
pub static RESOURCES: &Field = field_of(&REQUEST, "resourceMetrics");
pub static RESOURCE_OF: &Field = field_of(&RESOURCE_METRICS, "resource");
pub static SCOPES: &Field = field_of(&RESOURCE_METRICS, "scopeMetrics");
pub static SCOPE_OF: &Field = field_of(&SCOPE_METRICS, "scope");
pub static METRICS: &Field = field_of(&SCOPE_METRICS, "metrics");
pub static GAUGE_OF: &Field = field_of(&METRIC, "gauge");
pub static SUM_OF: &Field = field_of(&METRIC, "sum");
pub static HISTOGRAM_OF: &Field = field_of(&METRIC, "histogram");
pub static EXPONENTIAL_OF: &Field = field_of(&METRIC, "exponentialHistogram");
pub static SUMMARY_OF: &Field = field_of(&METRIC, "summary");
/// All kinds of data have their points in one field, and their temporality.
pub static POINTS: &Field = field_of(&SUM, "dataPoints");
pub static TEMPORALITY: &Field = field_of(&SUM, "aggregationTemporality");
pub static ATTRIBUTES: &Field = field_of(&RESOURCE, "attributes");
pub static KEY: &Field = field_of(&KEY_VALUE, "key");
pub static VALUE: &Field = field_of(&KEY_VALUE, "value");
pub static STRING_VALUE: &Field = field_of(&ANY_VALUE, "stringValue");

/// Numbers of the fields of points.
pub mod of_sum {
    use super::{field_of, NUMBER_POINT};

    pub const START: u8 = field_of(&NUMBER_POINT, "startTimeUnixNano").number;
    pub const END: u8 = field_of(&NUMBER_POINT, "timeUnixNano").number;
    pub const DOUBLE: u8 = field_of(&NUMBER_POINT, "asDouble").number;
    pub const EXEMPLARS: u8 = field_of(&NUMBER_POINT, "exemplars").number;
    pub const INT: u8 = field_of(&NUMBER_POINT, "asInt").number;
    pub const ATTRIBUTES: u8 = field_of(&NUMBER_POINT, "attributes").number;
    pub const FLAGS: u8 = field_of(&NUMBER_POINT, "flags").number;
}

/// Start and end are as of a sum.
pub mod of_histogram {
    use super::{field_of, HISTOGRAM_POINT};

    pub const COUNT: u8 = field_of(&HISTOGRAM_POINT, "count").number;
    pub const SUM: u8 = field_of(&HISTOGRAM_POINT, "sum").number;
    pub const BUCKETS: u8 = field_of(&HISTOGRAM_POINT, "bucketCounts").number;
    pub const BOUNDS: u8 = field_of(&HISTOGRAM_POINT, "explicitBounds").number;
    pub const EXEMPLARS: u8 = field_of(&HISTOGRAM_POINT, "exemplars").number;
    pub const ATTRIBUTES: u8 = field_of(&HISTOGRAM_POINT, "attributes").number;
    pub const FLAGS: u8 = field_of(&HISTOGRAM_POINT, "flags").number;
    /// The least and the largest value, which say nothing and are in no table.
    pub const EXTREMES: [u8; 2] = [11, 12];
}
