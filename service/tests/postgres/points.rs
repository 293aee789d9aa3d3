//! Points as a plain list, their sums by hour, and requests of them.

use std::collections::BTreeMap;

pub const HOUR: u64 = 3_600_000_000_000;

#[derive(Clone, Debug)]
pub enum Value {
    Sum(i64),
    Histogram { sum: Option<u64>, buckets: [u64; 3] },
}

#[derive(Clone, Debug)]
pub struct Point {
    pub name: String,
    pub start: u64,
    pub end: u64,
    pub value: Value,
}

/// The sums of points.
#[derive(Default)]
struct Total {
    points: u64,
    total: i128,
    count: u64,
    without_sum: u64,
    buckets: Option<[u64; 3]>,
}

/// A request with these points.
pub fn body(points: &[Point]) -> String {
    let metrics: Vec<String> = points.iter().map(metric).collect();
    format!(
        r#"{{"resourceMetrics":[{{"resource":{{"attributes":[]}},"scopeMetrics":[{{"metrics":[{}],"scope":{{"attributes":[],"name":"s","version":"1"}}}}]}}]}}"#,
        metrics.join(",")
    )
}

fn metric(point: &Point) -> String {
    let Point { name, start, end, value } = point;
    let time = format!(r#""startTimeUnixNano":"{start}","timeUnixNano":"{end}""#);
    match value {
        Value::Sum(value) => format!(
            r#"{{"name":"{name}","sum":{{"aggregationTemporality":1,"dataPoints":[{{"asInt":"{value}","attributes":[],{time}}}],"isMonotonic":false}},"unit":"1"}}"#
        ),
        Value::Histogram { sum, buckets } => {
            let sum = sum.map_or(String::new(), |sum| format!(r#""sum":"{sum}","#));
            let (count, [one, two, three]) = (buckets.iter().sum::<u64>(), buckets);
            format!(
                r#"{{"histogram":{{"aggregationTemporality":1,"dataPoints":[{{"attributes":[],"bucketCounts":["{one}","{two}","{three}"],"count":"{count}","explicitBounds":[5,10],{sum}{time}}}]}},"name":"{name}","unit":"ms"}}"#
            )
        }
    }
}

/// The sums as lines of name, `key` of a point's last nanosecond, points, total, count, without_sum and buckets, in
/// order.
pub fn lines(points: &[Point], key: impl Fn(u64) -> String) -> String {
    let mut totals: BTreeMap<(String, String), Total> = BTreeMap::new();
    for point in points {
        let total = totals.entry((point.name.clone(), key(point.end - 1))).or_default();
        total.points += 1;
        match &point.value {
            Value::Sum(value) => total.total += i128::from(*value),
            Value::Histogram { sum, buckets } => {
                total.total += i128::from(sum.unwrap_or(0));
                total.without_sum += u64::from(sum.is_none());
                total.count += buckets.iter().sum::<u64>();
                let all = total.buckets.get_or_insert([0; 3]);
                all.iter_mut().zip(buckets).for_each(|(all, one)| *all += one);
            }
        }
    }
    let line = |((name, key), of): ((String, String), Total)| {
        let buckets =
            of.buckets.map_or(String::new(), |[one, two, three]| format!("{{{one},{two},{three}}}"));
        format!("{name}|{key}|{}|{}|{}|{}|{buckets}", of.points, of.total, of.count, of.without_sum)
    };
    totals.into_iter().map(line).collect::<Vec<String>>().join("\n")
}

/// Numbers that look random, and are the same in each run.
pub struct Random(pub u64);

impl Random {
    pub fn below(&mut self, end: u64) -> u64 {
        self.0 = self.0.wrapping_mul(6364136223846793005).wrapping_add(1442695040888963407);
        (self.0 >> 33) % end
    }
}

/// A value for a series of this name: names that begin with `h` are histograms.
pub fn value(name: &str, random: &mut Random) -> Value {
    match name.starts_with('h') {
        false => Value::Sum(random.below(2001) as i64 - 1000),
        true => Value::Histogram {
            sum: (random.below(4) > 0).then(|| random.below(100_000)),
            buckets: [random.below(9), random.below(9), random.below(9)],
        },
    }
}
