//! A request without points that says which sender some series have from now on (`totxegun senders rename`).
//!
//! The group that has it also gives these series their new owner, so the sink and the service agree, also after a kill.

use super::rewind::{in_requests, END};
use crate::otlp::series::SeriesKey;
use serde::{Deserialize, Serialize};
use serde_json::json;

/// How its body begins; the book's own begin with `resourceMetrics`.
const BEGIN: &str = r#"{"renameSender":"#;

/// These series have this sender from now on.
#[derive(Debug, PartialEq, Eq, Serialize, Deserialize)]
pub struct RenameSender {
    pub(super) to: String,
    series: Vec<String>,
}

impl RenameSender {
    /// The requests that say it.
    pub fn requests(series: &[SeriesKey], to: &str) -> Vec<Vec<u8>> {
        let of = |series| RenameSender { to: to.into(), series };
        in_requests(series).map(|series| of(series).body()).collect()
    }

    fn body(&self) -> Vec<u8> {
        format!("{BEGIN}{}{END}", json!(self)).into_bytes()
    }

    /// What a request says, if it is one.
    pub(super) fn of(body: &[u8]) -> Option<RenameSender> {
        let inner = body.strip_prefix(BEGIN.as_bytes())?.strip_suffix(END.as_bytes())?;
        serde_json::from_slice(inner).ok()
    }

    pub(super) fn keys(&self) -> impl Iterator<Item = SeriesKey> + '_ {
        self.series.iter().map(|key| SeriesKey(key.as_str().into()))
    }
}

#[cfg(test)]
mod tests {
    use super::*;
    use crate::otlp::series::forwarded;

    #[test]
    fn many_series_are_several_requests_without_points() {
        let key = |number| SeriesKey(format!(r#"[[],"","",[],"a{number}","","sum",[]]"#).into());
        let all: Vec<SeriesKey> = (0..10).map(key).collect();
        let requests = RenameSender::requests(&all, "shop-1");
        assert!(requests.len() > 1);
        let mut found = Vec::new();
        for body in &requests {
            assert_eq!(forwarded(body).expect("a request").len(), 0);
            let rename = RenameSender::of(body).expect("a new name");
            assert_eq!(rename.to, "shop-1");
            found.extend(rename.keys());
        }
        assert_eq!(found, all);
        assert_eq!(RenameSender::of(br#"{"rewind":{},"resourceMetrics":[]}"#), None);
    }
}
