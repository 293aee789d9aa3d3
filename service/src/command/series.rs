//! A series with what it counted, as `totals --json` and `export --json` print it: one object on a line.

use super::with_end;
use crate::sink::sql::export::{Line, Times};
use anyhow::{Context, Result};
use serde::Serialize;
use serde_json::value::RawValue;

/// Whole numbers are decimal texts, so that no reader rounds them; attributes are objects.
#[derive(Serialize)]
struct Object<'a> {
    series: String,
    name: &'a str,
    kind: &'a str,
    is_monotonic: bool,
    unit: &'a str,
    attributes: &'a RawValue,
    resource: &'a RawValue,
    scope_name: &'a str,
    scope_version: &'a str,
    scope_attributes: &'a RawValue,
    points: String,
    total: &'a str,
    adjustments: &'a str,
    total_adjusted: &'a str,
    count: Option<&'a str>,
    bounds: Option<Vec<String>>,
    buckets: Option<Vec<String>>,
    sender: Option<&'a str>,
    #[serde(flatten)]
    times: Option<&'a Times>,
}

/// The object as a line. An export is of one period, so it has no times.
pub fn object(line: &Line) -> Result<Vec<u8>> {
    let object = Object {
        series: line.series.to_string(),
        name: &line.name,
        kind: line.kind.name(),
        is_monotonic: line.kind.is_monotonic(),
        unit: &line.unit,
        attributes: &line.attributes,
        resource: &line.resource,
        scope_name: &line.scope_name,
        scope_version: &line.scope_version,
        scope_attributes: &line.scope_attributes,
        points: line.points.to_string(),
        total: &line.total,
        adjustments: &line.adjustments,
        total_adjusted: &line.total_adjusted,
        count: line.count.as_deref(),
        bounds: texts(line.bounds.as_deref())?,
        buckets: texts(line.buckets.as_deref())?,
        sender: line.sender.as_deref(),
        times: line.times.as_ref(),
    };
    serde_json::to_vec(&object).map(with_end).context("a series can't be written")
}

/// The numbers of a list as texts, digit by digit as in the list.
fn texts(list: Option<&RawValue>) -> Result<Option<Vec<String>>> {
    let Some(list) = list else { return Ok(None) };
    let numbers: Vec<&RawValue> =
        serde_json::from_str(list.get()).context("a list of the sink is none of numbers")?;
    Ok(Some(numbers.iter().map(|number| number.get().to_string()).collect()))
}

#[cfg(test)]
mod tests {
    use super::*;
    use crate::sink::sql::totals::Kind;

    fn raw(text: &str) -> Box<RawValue> {
        RawValue::from_string(text.into()).unwrap()
    }

    fn line() -> Line {
        Line {
            series: 7,
            name: "wait".into(),
            kind: Kind::Histogram,
            unit: "us".into(),
            attributes: raw(r#"{"code":200,"route":"/"}"#),
            resource: raw("{}"),
            scope_name: "lib".into(),
            scope_version: String::new(),
            scope_attributes: raw("{}"),
            sender: Some("shop".into()),
            points: 3,
            total: "9223372036854775810".into(),
            adjustments: "-5".into(),
            total_adjusted: "9223372036854775805".into(),
            count: Some("9007199254740993".into()),
            bounds: Some(raw("[-1, 5]")),
            buckets: Some(raw("[0,9007199254740993,0]")),
            times: None,
        }
    }

    #[test]
    fn numbers_are_texts_and_attributes_are_objects() {
        let written = r#"{"series":"7","name":"wait","kind":"histogram","is_monotonic":false,"unit":"us","attributes":{"code":200,"route":"/"},"resource":{},"scope_name":"lib","scope_version":"","scope_attributes":{},"points":"3","total":"9223372036854775810","adjustments":"-5","total_adjusted":"9223372036854775805","count":"9007199254740993","bounds":["-1","5"],"buckets":["0","9007199254740993","0"],"sender":"shop""#;
        assert_eq!(object(&line()).unwrap(), format!("{written}}}\n").into_bytes());
        let times =
            Times { first_start: "2026-11-05T13:30:15Z".into(), last_end: "2026-11-05T14:00:00Z".into() };
        let with_times = format!(
            "{written},\"first_start\":\"{}\",\"last_end\":\"{}\"}}\n",
            times.first_start, times.last_end
        );
        assert_eq!(object(&Line { times: Some(times), ..line() }).unwrap(), with_times.into_bytes());
        let sum = Line { kind: Kind::Sum, count: None, bounds: None, buckets: None, sender: None, ..line() };
        let written = String::from_utf8(object(&sum).unwrap()).unwrap();
        let end = "\"count\":null,\"bounds\":null,\"buckets\":null,\"sender\":null}\n";
        assert!(written.ends_with(end), "{written}");
    }
}
