//! Encoders of the JSON mapping, each with its own spelling.

use crate::otlp::messages::*;
use serde_json::{json, Value};

/// How an encoder of the mapping spells names and numbers.
pub struct Spelling {
    pub proto_names: bool,
    pub numbers: bool,
    pub enum_names: bool,
}

impl Spelling {
    fn name(&self, name: &str) -> String {
        if !self.proto_names {
            return name.to_string();
        }
        name.chars()
            .flat_map(|one| {
                one.is_ascii_uppercase().then_some('_').into_iter().chain([one.to_ascii_lowercase()])
            })
            .collect()
    }

    fn object<const N: usize>(&self, members: [(&str, Value); N]) -> Value {
        members
            .into_iter()
            .map(|(name, value)| (self.name(name), value))
            .collect::<serde_json::Map<_, _>>()
            .into()
    }

    fn whole(&self, number: i128) -> Value {
        match u64::try_from(number) {
            Ok(number) if self.numbers => number.into(),
            _ => number.to_string().into(),
        }
    }

    fn double(&self, double: f64) -> Value {
        if double.is_finite() {
            double.into()
        } else {
            if double.is_nan() {
                "NaN"
            } else if double > 0.0 {
                "Infinity"
            } else {
                "-Infinity"
            }
            .into()
        }
    }

    fn list<T>(&self, all: &[T], one: impl Fn(&T) -> Value) -> Value {
        all.iter().map(one).collect()
    }

    fn any(&self, value: &AnyValue) -> Value {
        match &value.value {
            None => json!({}),
            Some(Any::Text(text)) => self.object([("stringValue", json!(text))]),
            Some(Any::Bool(truth)) => self.object([("boolValue", json!(truth))]),
            Some(Any::Int(int)) => self.object([("intValue", self.whole((*int).into()))]),
            Some(Any::Double(double)) => self.object([("doubleValue", self.double(*double))]),
            Some(Any::Bytes(_)) => self.object([("bytesValue", json!("AAE="))]),
            Some(Any::Array(array)) => {
                let values = self.list(&array.values, |value| self.any(value));
                self.object([("arrayValue", self.object([("values", values)]))])
            }
            Some(Any::Map(list)) => {
                self.object([("kvlistValue", self.object([("values", self.attributes(&list.values))]))])
            }
        }
    }

    fn attributes(&self, attributes: &[KeyValue]) -> Value {
        self.list(attributes, |pair| {
            self.object([
                ("key", json!(pair.key)),
                ("value", pair.value.as_ref().map_or(Value::Null, |value| self.any(value))),
            ])
        })
    }

    fn sum_point(&self, point: &NumberDataPoint) -> Value {
        let (int, double) = match point.value {
            None => (Value::Null, Value::Null),
            Some(Number::AsInt(int)) => (self.whole(int.into()), Value::Null),
            Some(Number::AsDouble(double)) => (Value::Null, self.double(double)),
        };
        let (start, end) =
            (self.whole(point.start_time_unix_nano.into()), self.whole(point.time_unix_nano.into()));
        self.object([
            ("startTimeUnixNano", start),
            ("timeUnixNano", end),
            ("asInt", int),
            ("asDouble", double),
            ("flags", json!(point.flags)),
            ("attributes", self.attributes(&point.attributes)),
        ])
    }

    fn histogram_point(&self, point: &HistogramDataPoint) -> Value {
        let (start, end) =
            (self.whole(point.start_time_unix_nano.into()), self.whole(point.time_unix_nano.into()));
        self.object([
            ("attributes", self.attributes(&point.attributes)),
            ("startTimeUnixNano", start),
            ("timeUnixNano", end),
            ("count", self.whole(point.count.into())),
            ("sum", point.sum.map_or(Value::Null, |sum| self.double(sum))),
            ("bucketCounts", self.list(&point.bucket_counts, |count| self.whole((*count).into()))),
            ("explicitBounds", self.list(&point.explicit_bounds, |bound| self.double(*bound))),
        ])
    }

    fn temporality(&self, temporality: i32) -> Value {
        match (self.enum_names, temporality) {
            (true, 1) => "AGGREGATION_TEMPORALITY_DELTA".into(),
            (true, _) => "AGGREGATION_TEMPORALITY_CUMULATIVE".into(),
            (false, number) => number.into(),
        }
    }

    fn metric(&self, metric: &Metric) -> Value {
        let (mut sum, mut histogram) = (Value::Null, Value::Null);
        match &metric.data {
            None => {}
            Some(Data::Sum(data)) => {
                let points = self.list(&data.data_points, |point| self.sum_point(point));
                sum = self.object([
                    ("dataPoints", points),
                    ("isMonotonic", json!(data.is_monotonic)),
                    ("aggregationTemporality", self.temporality(data.aggregation_temporality)),
                ]);
            }
            Some(Data::Histogram(data)) => {
                let points = self.list(&data.data_points, |point| self.histogram_point(point));
                histogram = self.object([
                    ("dataPoints", points),
                    ("aggregationTemporality", self.temporality(data.aggregation_temporality)),
                ]);
            }
        }
        self.object([
            ("sum", sum),
            ("histogram", histogram),
            ("name", json!(metric.name)),
            ("unit", json!(metric.unit)),
            ("description", json!("d")),
        ])
    }

    pub fn request(&self, request: &ExportMetricsServiceRequest) -> String {
        let resources = self.list(&request.resource_metrics, |found| {
            let resource = found.resource.as_ref().map_or(Value::Null, |resource| {
                self.object([("attributes", self.attributes(&resource.attributes))])
            });
            let scopes = self.list(&found.scope_metrics, |found| {
                let scope = found.scope.as_ref().map_or(Value::Null, |scope| {
                    self.object([
                        ("name", json!(scope.name)),
                        ("version", json!(scope.version)),
                        ("attributes", self.attributes(&scope.attributes)),
                    ])
                });
                self.object([
                    ("metrics", self.list(&found.metrics, |metric| self.metric(metric))),
                    ("scope", scope),
                ])
            });
            self.object([("scopeMetrics", scopes), ("resource", resource)])
        });
        self.object([("resourceMetrics", resources)]).to_string()
    }
}
