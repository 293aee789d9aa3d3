//! Turns attribute lists into objects, the form that the tables of sinks have.

use crate::otlp::series::NotForwarded;
use serde_json::{Map, Value};

/// An attribute list as one object, `{"key":value}`. Nothing is lost: keys are distinct and in order, and the JSON type
/// of a value is its type.
pub(super) fn object(list: &str) -> Result<Map<String, Value>, NotForwarded> {
    let bad = || {
        let start: String = list.chars().take(300).collect();
        NotForwarded(format!("not an attribute list: {start}"))
    };
    let list: Vec<Value> = serde_json::from_str(list).map_err(|_| bad())?;
    let mut object = Map::new();
    for mut pair in list {
        let key = pair.get("key").and_then(Value::as_str).ok_or_else(bad)?.to_string();
        let value = single(pair.get_mut("value").map_or(Value::Null, Value::take)).ok_or_else(bad)?;
        if object.insert(key, value).is_some() {
            return Err(bad());
        }
    }
    Ok(object)
}

/// `{"intValue":"5"}` becomes 5, `{"stringValue":"5"}` "5", `{}` null, and `{"arrayValue":{"values":[..]}}` an array.
fn single(value: Value) -> Option<Value> {
    let Value::Object(object) = value else {
        return value.is_null().then_some(Value::Null);
    };
    let mut fields = object.into_iter();
    let Some((kind, value)) = fields.next() else {
        return Some(Value::Null);
    };
    if fields.next().is_some() {
        return None;
    }
    match (kind.as_str(), value) {
        ("stringValue", text @ Value::String(_)) => Some(text),
        ("boolValue", value @ Value::Bool(_)) => Some(value),
        ("intValue", Value::String(text)) => text.parse::<i64>().ok().map(Value::from),
        ("intValue", Value::Number(number)) => number.as_i64().map(Value::from),
        ("arrayValue", Value::Object(mut array)) => match array.remove("values") {
            None => Some(Value::Array(Vec::new())),
            Some(Value::Array(values)) => {
                values.into_iter().map(single).collect::<Option<_>>().map(Value::Array)
            }
            Some(_) => None,
        },
        _ => None,
    }
}

#[cfg(test)]
mod tests {
    use super::*;

    #[test]
    fn attributes_are_an_object() {
        let list = r#"[{"key":"a","value":{"arrayValue":{"values":[{},{"boolValue":true},{"intValue":"-5"}]}}},
            {"key":"b","value":{}},{"key":"c\u0000\"","value":{"stringValue":"5"}},
            {"key":"d","value":{"intValue":"9223372036854775807"}}]"#;
        let object = object(list).expect("a list");
        assert_eq!(
            Value::Object(object).to_string(),
            r#"{"a":[null,true,-5],"b":null,"c\u0000\"":"5","d":9223372036854775807}"#
        );
    }

    #[test]
    fn other_lists_are_refused() {
        for bad in [
            "{}",
            "[1]",
            r#"[{"value":{}}]"#,
            r#"[{"key":"a","value":{"doubleValue":1.5}}]"#,
            r#"[{"key":"a","value":{"intValue":"x"}}]"#,
            r#"[{"key":"a","value":{"intValue":"1","stringValue":"1"}}]"#,
            r#"[{"key":"a","value":{}},{"key":"a","value":{}}]"#,
        ] {
            assert!(object(bad).is_err(), "{bad}");
        }
    }
}
