//! How an operator names series: as `totals` shows them, `shop.orders{"shop":"s1"}`; as `explain` does,
//! `shop.orders{shop=s1}`; or by the whole key, as in the log. Attributes may be those of the point or of its resource.

use crate::otlp::series::SeriesKey;
use crate::sink::sql::totals::{text, Filter, SeriesTotal};
use serde_json::{Map, Value};
use std::str::FromStr;

#[derive(Clone, Debug, PartialEq, Eq)]
pub enum Named {
    /// One series, by its key.
    One(SeriesKey),
    /// All series of a name that have these attributes.
    Some(Filter),
}

impl Named {
    pub fn has(&self, key: &SeriesKey) -> bool {
        match self {
            Named::One(one) => one == key,
            Named::Some(filter) => {
                // Most series have another name, and so are not parsed.
                let has = |name: &String| key.0.contains(&Value::from(name.as_str()).to_string());
                filter.name.as_ref().is_none_or(has)
                    && SeriesTotal::of_none(key).is_ok_and(|series| filter.takes(&series))
            }
        }
    }
}

impl FromStr for Named {
    type Err = String;

    fn from_str(written: &str) -> Result<Named, String> {
        let written = written.trim();
        let faulty = || {
            format!("`{written}` names no series: write NAME, NAME{{key=value,..}} or NAME{{\"key\":\"value\",..}}")
        };
        if written.starts_with('[') {
            return Ok(Named::One(SeriesKey(written.into())));
        }
        let (name, attributes) = match written.split_once('{') {
            None => (written, Some(Vec::new())),
            Some((name, rest)) => (name.trim(), rest.strip_suffix('}').and_then(pairs)),
        };
        let filter = Filter {
            name: Some(name.to_string()),
            attributes: attributes.filter(|_| !name.is_empty()).ok_or_else(faulty)?,
        };
        Ok(Named::Some(filter))
    }
}

/// The attributes within braces, as JSON or as `key=value`. A value may be in quotes.
fn pairs(written: &str) -> Option<Vec<(String, String)>> {
    let mut rest = written.trim_start();
    if rest.is_empty() || rest.starts_with('"') {
        let object: Map<String, Value> = serde_json::from_str(&format!("{{{rest}}}")).ok()?;
        return Some(object.iter().map(|(key, value)| (key.clone(), text(value))).collect());
    }
    let mut pairs = Vec::new();
    while !rest.is_empty() {
        let (key, behind) = rest.split_once('=')?;
        let behind = behind.trim_start();
        let (value, behind) = match behind.starts_with('"') {
            true => quoted(behind)?,
            false => {
                let end = behind.find(',').unwrap_or(behind.len());
                (behind[..end].trim_end().to_string(), &behind[end..])
            }
        };
        pairs.push((key.trim().to_string(), value));
        let behind = behind.trim_start();
        rest = match behind.is_empty() {
            true => behind,
            false => behind.strip_prefix(',')?.trim_start(),
        };
    }
    Some(pairs)
}

/// A JSON string, and the rest after it.
fn quoted(written: &str) -> Option<(String, &str)> {
    let mut texts = serde_json::Deserializer::from_str(written).into_iter::<String>();
    let text = texts.next()?.ok()?;
    Some((text, &written[texts.byte_offset()..]))
}

/// The name of a series, with the attributes of its point and of its resource.
pub fn named(key: &SeriesKey) -> String {
    let Ok(series) = SeriesTotal::of_none(key) else {
        return key.0.to_string();
    };
    let both: Map<String, Value> = series.resource.into_iter().chain(series.attributes).collect();
    match both.is_empty() {
        true => series.name,
        false => format!("{}{}", series.name, Value::Object(both)),
    }
}

#[cfg(test)]
mod tests {
    use super::*;

    const KEY: &str = r#"[[{"key":"service.instance.id","value":{"stringValue":"a"}}],"","",[],"shop.orders","1","monotonic",[{"key":"code","value":{"intValue":"200"}},{"key":"shop","value":{"stringValue":"s1, \"x\""}}]]"#;

    fn has(written: &str) -> bool {
        let named: Named = written.parse().expect(written);
        named.has(&SeriesKey(KEY.into()))
    }

    #[test]
    fn a_series_is_named_in_each_way_that_it_is_shown() {
        let shown = named(&SeriesKey(KEY.into()));
        for written in [
            KEY,
            &shown,
            "shop.orders",
            " shop.orders {} ",
            r#"shop.orders{"code":200}"#,
            r#"shop.orders{"code":200,"shop":"s1, \"x\""}"#,
            "shop.orders{code=200}",
            "shop.orders{ code = 200 , service.instance.id=a}",
            r#"shop.orders{shop="s1, \"x\"",code=200}"#,
        ] {
            assert!(has(written), "{written}");
        }
        for written in [
            "shop.order",
            "[]",
            "shop.orders{code=201}",
            "shop.orders{code=200,host=b}",
            r#"shop.orders{"shop":"s1"}"#,
        ] {
            assert!(!has(written), "{written}");
        }
    }

    #[test]
    fn what_names_none_is_refused() {
        for written in [
            "",
            "{}",
            "{shop=s1}",
            "a{shop=s1",
            "a{shop}",
            r#"a{"shop"}"#,
            r#"a{shop="s1}"#,
            r#"a{shop="s1" b=c}"#,
        ] {
            assert!(written.parse::<Named>().is_err(), "{written}");
        }
    }
}
