//! The request that a flush is forwarded in: a metric for each series.

use serde_json::{json, Value as Json};

use crate::series::{Data, Kind, Taken, Value};

pub fn request_text(taken: &[Taken]) -> String {
    let resources: Vec<Json> = taken.iter().map(resource_of).collect();
    json!({ "resourceMetrics": resources }).to_string()
}

fn resource_of(taken: &Taken) -> Json {
    let series = &taken.series;
    json!({
        "resource": { "attributes": attributes(&series.resource) },
        "scopeMetrics": [{
            "scope": { "name": series.scope_name, "version": series.scope_version,
                       "attributes": attributes(&series.scope_attributes) },
            "metrics": [metric_of(taken)],
        }],
    })
}

fn metric_of(Taken { series, stored }: &Taken) -> Json {
    let mut point = json!({
        "attributes": attributes(&series.attributes),
        "startTimeUnixNano": stored.start.to_string(), "timeUnixNano": stored.end.to_string(),
    });
    match &stored.data {
        Data::Sum(value) => point["asInt"] = json!(value.to_string()),
        Data::Histogram { sum, buckets } => {
            if let Some(sum) = sum {
                point["sum"] = json!(sum);
            }
            point["count"] = json!(buckets.iter().sum::<u64>().to_string());
            point["bucketCounts"] = buckets.iter().map(u64::to_string).collect();
        }
    }
    let mut data = json!({ "aggregationTemporality": 1 });
    let kind = match &series.kind {
        Kind::Sum { is_monotonic } => {
            data["isMonotonic"] = json!(is_monotonic);
            "sum"
        }
        Kind::Histogram { bounds } => {
            point["explicitBounds"] = json!(bounds);
            "histogram"
        }
    };
    data["dataPoints"] = json!([point]);
    let mut metric = json!({ "name": series.name, "unit": series.unit });
    metric[kind] = data;
    metric
}

fn attributes(pairs: &[(String, Value)]) -> Json {
    pairs
        .iter()
        .map(|(key, one)| json!({ "key": key, "value": value(one) }))
        .collect()
}

fn value(one: &Value) -> Json {
    match one {
        Value::Empty => json!({}),
        Value::Bool(it) => json!({ "boolValue": it }),
        Value::Int(number) => json!({ "intValue": number.to_string() }),
        Value::Text(text) => json!({ "stringValue": text }),
        Value::List(list) => {
            json!({ "arrayValue": { "values": list.iter().map(value).collect::<Vec<_>>() } })
        }
    }
}
