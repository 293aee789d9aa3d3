//! The points of a request that a sink could not add, as a request of their own.
//!
//! `sql` collects them, and `delivery` keeps them as a dead letter.

use super::DeliveryOutcome;
use crate::log;
use crate::otlp::series::ForwardedPoint;
use serde_json::Value;
use std::collections::BTreeMap;

/// Why a request is refused if its key is that of another one. A folder gives no key twice, unless it was restored over
/// itself, or its disk was copied.
pub(super) const OTHER_REQUEST: &str =
    "its key is that of another request, which was taken: the folder was restored over itself, or two services run on \
     copies of it";

/// How much of a series is shown, in characters.
const SERIES_SHOWN: usize = 300;

/// A point for an error: its interval, and its series, cut if that is long.
pub(super) fn shown(point: &ForwardedPoint) -> String {
    let series = log::shown(&point.series.0, SERIES_SHOWN);
    format!("({}, {}] of {series}", point.start, point.end)
}

/// The points of a request that were not added although the others were.
#[derive(Debug, Default, PartialEq, Eq)]
pub(super) struct LeftOut {
    /// The time until which the series of each point has others, by the point's index in the request.
    pub(super) places: BTreeMap<usize, u64>,
    /// Why the first of them was not added.
    reason: String,
    /// Whether these are all points of the request.
    pub(super) is_all: bool,
}

impl LeftOut {
    pub(super) fn is_empty(&self) -> bool {
        self.places.is_empty()
    }

    /// Notes a point that is not added, since its series has others until `until`.
    pub(super) fn add(&mut self, point: &ForwardedPoint, until: u64) {
        if self.places.range(..point.place).next().is_none() {
            self.reason = format!("{} is not added, since its series has points until {until}", shown(point));
        }
        self.places.insert(point.place, until);
    }

    /// The form in which a database keeps it: a JSON array of indexes and times.
    pub(super) fn noted(&self) -> String {
        let pairs: Vec<(&usize, &u64)> = self.places.iter().collect();
        serde_json::to_string(&pairs).unwrap_or_default() // serialising numbers does not fail
    }

    /// Reads what was noted of the request with these points.
    pub(super) fn read<'p>(
        noted: &str,
        points: impl Iterator<Item = &'p ForwardedPoint>,
    ) -> serde_json::Result<LeftOut> {
        let pairs: Vec<(usize, u64)> = serde_json::from_str(noted)?;
        let places: BTreeMap<usize, u64> = pairs.into_iter().collect();
        let mut left = LeftOut::default();
        for point in points {
            if let Some(until) = places.get(&point.place) {
                left.add(point, *until);
            }
        }
        Ok(left)
    }

    /// Sets `is_all`, by the number of points of the request.
    pub(super) fn of(self, points: usize) -> LeftOut {
        LeftOut { is_all: self.places.len() == points, ..self }
    }

    pub(super) fn fate(self, body: &[u8]) -> DeliveryOutcome {
        if self.is_empty() {
            return DeliveryOutcome::Taken;
        }
        if self.is_all {
            return DeliveryOutcome::refused(self.reason);
        }
        match part(body, &self.places) {
            Some(left) => DeliveryOutcome::TakenPartly {
                rejected: self.places.len() as u64,
                reason: self.reason,
                left: Some(left),
            },
            None => DeliveryOutcome::again("a request that was read before can't be read again"),
        }
    }
}

/// The request with only these points. None if it is not a request that the gateway makes.
fn part(body: &[u8], places: &BTreeMap<usize, u64>) -> Option<Vec<u8>> {
    let mut request: Value = serde_json::from_slice(body).ok()?;
    let mut place = 0;
    keep(request.get_mut("resourceMetrics")?, |resource| {
        keep(resource.get_mut("scopeMetrics")?, |scope| {
            keep(scope.get_mut("metrics")?, |metric| {
                let data = match metric.get("sum").is_some() {
                    true => metric.get_mut("sum")?,
                    false => metric.get_mut("histogram")?,
                };
                keep(data.get_mut("dataPoints")?, |_| {
                    place += 1;
                    Some(places.contains_key(&(place - 1)))
                })
            })
        })
    })?;
    Some(request.to_string().into_bytes())
}

/// Keeps the elements for which `one` returns true. Returns whether any are left.
fn keep(list: &mut Value, mut one: impl FnMut(&mut Value) -> Option<bool>) -> Option<bool> {
    let list = list.as_array_mut()?;
    let mut kept = Vec::new();
    for mut element in list.drain(..) {
        if one(&mut element)? {
            kept.push(element);
        }
    }
    *list = kept;
    Some(!list.is_empty())
}

#[cfg(test)]
mod tests {
    use super::*;

    fn metric(name: &str, points: &str) -> String {
        format!(
            r#"{{"name":"{name}","sum":{{"aggregationTemporality":1,"dataPoints":[{points}],"isMonotonic":true}},"unit":""}}"#
        )
    }

    fn request(metrics: &[String]) -> String {
        let metrics = metrics.join(",");
        format!(
            r#"{{"resourceMetrics":[{{"resource":{{"attributes":[]}},"scopeMetrics":[{{"metrics":[{metrics}],"scope":{{"name":"s"}}}}]}}]}}"#
        )
    }

    #[test]
    fn a_part_has_its_points_alone() {
        let body = request(&[metric("a", "1,2"), metric("b", "3"), metric("c", "4,5")]);
        for (places, metrics) in [
            (vec![0, 1, 2, 3, 4], vec![metric("a", "1,2"), metric("b", "3"), metric("c", "4,5")]),
            (vec![1], vec![metric("a", "2")]),
            (vec![2, 4], vec![metric("b", "3"), metric("c", "5")]),
        ] {
            let places = places.into_iter().map(|place| (place, 0)).collect();
            let left = part(body.as_bytes(), &places).expect("a part");
            assert_eq!(String::from_utf8(left).expect("text"), request(&metrics));
        }
    }

    #[test]
    fn what_is_no_request_has_no_part() {
        for body in ["", "{}", r#"{"resourceMetrics":1}"#, r#"{"resourceMetrics":[{}]}"#] {
            assert_eq!(part(body.as_bytes(), &BTreeMap::from([(0, 0)])), None, "{body}");
        }
    }
}
