//! Requests drawn at random, in both encodings.

use super::mapping::Spelling;
use super::posts::written;
use super::*;
use crate::otlp::messages::*;
use crate::otlp::schema::REQUEST;
use std::collections::BTreeMap;

/// xorshift64: the same draws in each run.
pub struct Random(pub u64);

impl Random {
    pub fn below(&mut self, limit: u64) -> u64 {
        self.0 ^= self.0 << 13;
        self.0 ^= self.0 >> 7;
        self.0 ^= self.0 << 17;
        self.0 % limit
    }

    fn list<T>(&mut self, limit: u64, mut one: impl FnMut(&mut Self) -> T) -> Vec<T> {
        (0..self.below(limit)).map(|_| one(self)).collect()
    }

    fn text(&mut self) -> String {
        ["", "a", "b", "é\u{1}\"", "long name", "\u{1f600}\\"][self.below(6) as usize].to_string()
    }

    fn number(&mut self) -> u64 {
        let edges = [0, 1, 2, 5, 1 << 53, (1 << 53) + 1, i64::MAX as u64, 1 << 63, u64::MAX];
        edges[self.below(9) as usize]
    }

    fn double(&mut self) -> f64 {
        if self.below(3) == 0 {
            return self.below(100_000) as f64 / 10f64.powi(self.below(9) as i32);
        }
        let edges = [
            0.0,
            -0.0,
            5.0,
            -5.0,
            0.5,
            9007199254740992.0,
            1e300,
            f64::MAX,
            f64::NAN,
            f64::INFINITY,
            f64::NEG_INFINITY,
            5e-324,
        ];
        edges[self.below(12) as usize]
    }

    fn any(&mut self, depth: u64) -> AnyValue {
        let value = match self.below(if depth > 2 { 6 } else { 8 }) {
            0 => None,
            1 => Some(Any::Text(self.text())),
            2 => Some(Any::Bool(self.below(2) == 0)),
            3 => Some(Any::Int(self.number() as i64)),
            4 if self.below(4) == 0 => Some(Any::Double(self.double())),
            5 if self.below(4) == 0 => Some(Any::Bytes(self.text().into_bytes())),
            6 => Some(Any::Array(ArrayValue { values: self.list(3, |random| random.any(depth + 1)) })),
            7 if self.below(4) == 0 => Some(Any::Map(KeyValueList { values: self.attributes(depth + 1) })),
            _ => Some(Any::Int(5)),
        };
        AnyValue { value }
    }

    fn attributes(&mut self, depth: u64) -> Vec<KeyValue> {
        self.list(3, |random| KeyValue { key: random.text(), value: Some(random.any(depth)) })
    }

    /// A small one, or one as programs have it.
    fn time(&mut self) -> u64 {
        match self.below(2) {
            0 => 1 + self.below(3),
            _ => 1_700_000_000_000_000_000 + self.below(5) * 500_000_001,
        }
    }

    fn sum_point(&mut self) -> NumberDataPoint {
        let value = match self.below(8) {
            0 => None,
            1 => Some(Number::AsDouble(self.double())),
            _ => Some(Number::AsInt(self.number() as i64)),
        };
        let (start_time_unix_nano, flags) = (self.time(), self.below(8) as u32 / 6);
        let time_unix_nano = match self.below(2) {
            0 => self.number(),
            _ => start_time_unix_nano + self.below(3) * 100_000_000,
        };
        NumberDataPoint { start_time_unix_nano, time_unix_nano, value, attributes: self.attributes(0), flags }
    }

    fn histogram_point(&mut self) -> HistogramDataPoint {
        let explicit_bounds: Vec<f64> = (0..self.below(4))
            .map(|bound| bound as f64 * [0.005, 2.0, 2.0, 2.5e-7][(self.0 % 4) as usize])
            .collect();
        let bucket_counts: Vec<u64> = (0..=explicit_bounds.len()).map(|_| self.below(9)).collect();
        let start_time_unix_nano = self.time();
        HistogramDataPoint {
            start_time_unix_nano,
            time_unix_nano: start_time_unix_nano + self.below(3) * 100_000_000,
            count: bucket_counts.iter().sum::<u64>() + self.below(5) / 4,
            sum: (self.below(2) == 0).then(|| self.double()),
            bucket_counts,
            explicit_bounds,
            attributes: self.attributes(0),
            flags: 0,
        }
    }

    fn metric(&mut self) -> Metric {
        let aggregation_temporality = if self.below(6) == 0 { 2 } else { 1 };
        let data = match self.below(9) {
            0 => None,
            1..=4 => Some(Data::Sum(Sum {
                data_points: self.list(5, Self::sum_point),
                aggregation_temporality,
                is_monotonic: self.below(2) == 0,
            })),
            _ => Some(Data::Histogram(Histogram {
                data_points: self.list(5, Self::histogram_point),
                aggregation_temporality,
            })),
        };
        Metric { name: self.text(), unit: ["", "s", "By", "a\"b"][self.below(4) as usize].to_string(), data }
    }

    pub fn request(&mut self) -> ExportMetricsServiceRequest {
        let resource_metrics = self.list(4, |random| ResourceMetrics {
            resource: (random.below(3) > 0).then(|| Resource { attributes: random.attributes(0) }),
            scope_metrics: random.list(4, |random| ScopeMetrics {
                scope: (random.below(3) > 0).then(|| InstrumentationScope {
                    name: random.text(),
                    version: random.text(),
                    attributes: random.attributes(0),
                }),
                metrics: random.list(4, Self::metric),
            }),
        });
        ExportMetricsServiceRequest { resource_metrics }
    }
}

/// Requests in the book's form, each as it comes of protobuf and of JSON.
pub fn requests(many: usize) -> Vec<[Bytes; 2]> {
    let mut random = Random(11);
    let spelling = Spelling { proto_names: false, numbers: false, enum_names: false };
    let one = |_| {
        let request = random.request();
        let both = [
            prepared(Encoding::Protobuf, request.encode_to_vec()),
            prepared(Encoding::Json, spelling.request(&request)),
        ];
        both.map(Result::unwrap)
    };
    (0..many).map(one).collect()
}

#[test]
fn both_encodings_of_a_request_mean_the_same() {
    both_mean_the_same(&Reading::default());
}

#[test]
fn both_encodings_mean_the_same_in_finer_units() {
    let rules = ["s=us", "By", "a\"b=3:c"].map(|rule| rule.parse().unwrap());
    let finer_units = FinerUnits::new(rules).unwrap();
    let rounded = both_mean_the_same(&Reading { finer_units, ..Reading::default() });
    assert!(rounded.len() == 3 && rounded.values().all(|one| one.values > 10), "{rounded:?}");
}

/// What is decided by the one encoding holds for the other.
#[test]
fn both_encodings_mean_the_same_in_units_that_are_decided() {
    let rounded = both_mean_the_same(&Reading {
        finer_units: FinerUnits::of([Choice::Auto]).unwrap(),
        ..Reading::default()
    });
    assert!(rounded.values().any(|one| one.values > 10), "{rounded:?}");
}

/// Of each profile why points of a request are not taken, how many are handed on, and why the others are not.
fn reasons(encoding: Encoding, body: &Bytes, prepared: &Prepared) -> Vec<(Causes, u64, Causes)> {
    let of = |profile| {
        let window = Clock::default().window();
        let explained = explained(&prepared.body, profile, window).unwrap();
        let foreign = explained.iter().filter(|point| point.foreign.is_some()).count() as u64;
        let original = Original { encoding, body: body.clone() };
        let (outside, others) = original.outside(foreign, profile, || Some(prepared.body.clone()));
        let causes = Causes::of(&prepared.body, profile, foreign);
        (causes, outside.map_or(0, |outside| outside.points), others)
    };
    [Profile::Deltas, Profile::AlsoCumulative].map(of).into()
}

fn both_mean_the_same(reading: &Reading) -> BTreeMap<String, Rounding> {
    let prepared = |encoding, body: Vec<u8>| prepare(encoding, body.into(), reading).unwrap();
    let mut random = Random(0x9e37_79b9_7f4a_7c15);
    let (mut series, mut foreign, mut rounded) = (0, 0, BTreeMap::new());
    for place in 0..600 {
        let request = random.request();
        let body: Bytes = request.encode_to_vec().into();
        let mut binary = prepared(Encoding::Protobuf, body.to_vec());
        let of_binary = reasons(Encoding::Protobuf, &body, &binary);
        let expected = posted(&binary.body).unwrap();
        let explained = explained(&binary.body, Profile::Deltas, Clock::default().window()).unwrap();
        let told = explained.iter().filter(|point| point.foreign.is_some()).count();
        assert_eq!(told as u64, expected.foreign);
        let points = |metric: &Metric| match &metric.data {
            None => 0,
            Some(Data::Sum(sum)) => sum.data_points.len(),
            Some(Data::Histogram(histogram)) => histogram.data_points.len(),
        };
        let all = request
            .resource_metrics
            .iter()
            .flat_map(|one| &one.scope_metrics)
            .flat_map(|one| &one.metrics)
            .map(points)
            .sum::<usize>();
        assert_eq!(explained.len(), all);
        for draw in 0..8 {
            let spelling =
                Spelling { proto_names: draw & 1 != 0, numbers: draw & 2 != 0, enum_names: draw & 4 != 0 };
            let text = spelling.request(&request);
            let written = prepared(Encoding::Json, text.clone().into_bytes());
            assert_eq!(written.rounded, binary.rounded, "{text}");
            let found = posted(&written.body).unwrap();
            assert_eq!((found.series, found.foreign), (expected.series.clone(), expected.foreign), "{text}");
            if draw == place % 8 {
                assert_eq!(reasons(Encoding::Json, &text.into_bytes().into(), &written), of_binary);
            }
        }
        series += expected.series.len();
        foreign += expected.foreign;
        binary.rounded.decided.stays(true);
        for (rule, more) in binary.rounded.by_rule {
            let sum: &mut Rounding = rounded.entry(rule).or_default();
            sum.values += more.values;
        }
    }
    assert!(series > 500 && foreign > 500, "{series} {foreign}");
    rounded
}

/// Also what is remembered of the attributes before is written as if its key were another.
#[test]
fn fields_with_long_keys_are_written_as_any_other() {
    let (mut random, mut other) = (Random(0x2545_f491_4f6c_dd1d), Random(7));
    for _ in 0..2000 {
        let body = random.request().encode_to_vec();
        let field_by_field = prepared(Encoding::Protobuf, written(&REQUEST, &body, &mut |_| true, false));
        let mixed = written(&REQUEST, &body, &mut |_| other.below(9) == 0, false);
        assert_eq!(prepared(Encoding::Protobuf, body), field_by_field);
        assert_eq!(prepared(Encoding::Protobuf, mixed), field_by_field);
    }
}

#[test]
fn cut_and_changed_bytes_never_panic() {
    let mut random = Random(7);
    for _ in 0..3 {
        let request = random.request();
        let spelling = Spelling { proto_names: false, numbers: true, enum_names: true };
        for (encoding, body) in [
            (Encoding::Protobuf, request.encode_to_vec()),
            (Encoding::Json, spelling.request(&request).into_bytes()),
        ] {
            for place in (0..body.len()).step_by(1 + body.len() / 500) {
                let cut = prepared(encoding, body[..place].to_vec());
                assert!(encoding == Encoding::Protobuf || cut.is_err());
                let mut changed = body.clone();
                changed[place] = random.below(256) as u8;
                if let Ok(body) = prepared(encoding, changed) {
                    assert!(posted(&body).is_some(), "{}", String::from_utf8_lossy(&body));
                }
            }
        }
    }
}
