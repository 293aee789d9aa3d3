//! A request without points that moves the ends of series back (`totxegun rewind`).
//!
//! In the outbox it comes after everything that was forwarded of these series before, and before everything that is
//! forwarded later. So a sink rewinds them once and at the right place, even after a kill or after hours without a
//! connection.

use crate::otlp::series::SeriesKey;
use serde::{Deserialize, Serialize};
use serde_json::json;

/// How the body of a rewind begins and ends. The book's own requests begin with `resourceMetrics`.
const BEGIN: &str = r#"{"rewind":"#;
pub(super) const END: &str = r#","resourceMetrics":[]}"#;
/// The most bytes of keys in one, but for a longer key.
const LONGEST: usize = if cfg!(test) { 100 } else { 1 << 20 };

/// These series end at `to`, in nanoseconds since 1970, if they ended later.
///
/// What a sink counted of them after `to` stays counted. A point that begins at `to` or later is added, since from
/// there on the book takes each point once, in order.
#[derive(Debug, PartialEq, Eq, Serialize, Deserialize)]
pub struct Rewind {
    pub(super) to: u64,
    series: Vec<String>,
}

impl Rewind {
    /// The requests that rewind these series.
    pub fn requests(series: &[SeriesKey], to: u64) -> Vec<Vec<u8>> {
        in_requests(series).map(|series| Rewind { to, series }.body()).collect()
    }

    fn body(&self) -> Vec<u8> {
        format!("{BEGIN}{}{END}", json!(self)).into_bytes()
    }

    /// Reads a request. None if it is not a rewind.
    pub(super) fn of(body: &[u8]) -> Option<Rewind> {
        let inner = body.strip_prefix(BEGIN.as_bytes())?.strip_suffix(END.as_bytes())?;
        serde_json::from_slice(inner).ok()
    }

    pub(super) fn keys(&self) -> impl Iterator<Item = SeriesKey> + '_ {
        self.series.iter().map(|key| SeriesKey(key.as_str().into()))
    }
}

/// The keys of these series, by the requests that have them.
pub(super) fn in_requests(series: &[SeriesKey]) -> impl Iterator<Item = Vec<String>> {
    let (mut requests, mut length) = (Vec::<Vec<String>>::new(), 0);
    for key in series {
        length += key.0.len();
        match requests.last_mut().filter(|_| length <= LONGEST) {
            Some(last) => last.push(key.0.to_string()),
            None => {
                length = key.0.len();
                requests.push(vec![key.0.to_string()]);
            }
        }
    }
    requests.into_iter()
}

#[cfg(test)]
mod tests {
    use super::*;
    use crate::otlp::series::forwarded;

    #[test]
    fn many_series_are_several_requests_without_points() {
        let key = |number| SeriesKey(format!(r#"[[],"","",[],"a{number}","","sum",[]]"#).into());
        let all: Vec<SeriesKey> = (0..10).map(key).collect();
        let requests = Rewind::requests(&all, u64::MAX);
        assert!(requests.len() > 1);
        let mut found = Vec::new();
        for body in &requests {
            assert_eq!(forwarded(body).expect("a request").len(), 0);
            let rewind = Rewind::of(body).expect("a rewind");
            assert_eq!(rewind.to, u64::MAX);
            found.extend(rewind.keys());
        }
        assert_eq!(found, all);
        assert_eq!(Rewind::requests(&[], 1).len(), 0);
    }

    #[test]
    fn a_request_of_points_is_none() {
        for body in [r#"{"resourceMetrics":[]}"#, r#"{"rewind":1,"resourceMetrics":[]}"#, ""] {
            assert_eq!(Rewind::of(body.as_bytes()), None, "{body}");
        }
    }
}
