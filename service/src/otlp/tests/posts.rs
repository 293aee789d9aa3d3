//! Protobuf as senders post it, one body after the other: the same series again, later each time, and in between what
//! nobody should send.

use super::random::Random;
use super::{bytes, varint};
use crate::otlp::messages::*;
use crate::otlp::schema::{Kind, Message as Table, KEY_VALUE, NUMBER_POINT, REQUEST};
use crate::otlp::wire::{Fields, Payload};
use prost::Message;

/// How many requests are drawn, of which each is posted again and again.
const REQUESTS: usize = 12;

/// Drawn at random.
pub fn posts(seed: u64, many: usize) -> Vec<Vec<u8>> {
    let mut random = Random(seed);
    let mut clock = 1_700_000_000_000_000_000;
    let mut requests: Vec<_> = (0..REQUESTS).map(|_| random.request()).collect();
    let one = |_| {
        let place = random.below(REQUESTS as u64) as usize;
        if random.below(40) == 0 {
            requests[place] = random.request();
        }
        set(&mut requests[place], &mut random, &mut clock);
        let body = requests[place].encode_to_vec();
        let body = match random.below(4) {
            0 => written(&REQUEST, &body, &mut |_| false, true),
            1 if random.below(4) == 0 => written(&REQUEST, &body, &mut |_| random.below(20) == 0, false),
            _ => body,
        };
        match random.below(3) {
            0 => mutated(body, &mut random),
            _ => body,
        }
    };
    (0..many).map(one).collect()
}

/// The same of points that are plain, nearly all of them.
pub fn plain_posts(seed: u64, many: usize) -> Vec<Vec<u8>> {
    let mut random = Random(seed);
    let mut clock = 1_700_000_000_000_000_000;
    let mut requests: Vec<_> = (0..REQUESTS).map(|_| plain_request(&mut random)).collect();
    let one = |_| {
        let place = random.below(REQUESTS as u64) as usize;
        if random.below(40) == 0 {
            requests[place] = plain_request(&mut random);
        }
        set(&mut requests[place], &mut random, &mut clock);
        let body = requests[place].encode_to_vec();
        let body = written(&REQUEST, &body, &mut |_| false, random.below(2) == 0);
        match random.below(6) {
            0 => mutated(body, &mut random),
            _ => body,
        }
    };
    (0..many).map(one).collect()
}

fn plain_request(random: &mut Random) -> ExportMetricsServiceRequest {
    let mut request = random.request();
    for resource in &mut request.resource_metrics {
        resource.resource.iter_mut().for_each(|one| keep_scalars(&mut one.attributes));
        for scope in &mut resource.scope_metrics {
            scope.scope.iter_mut().for_each(|one| keep_scalars(&mut one.attributes));
            scope.metrics.truncate(2);
            scope.metrics.iter_mut().for_each(make_plain);
        }
    }
    request
}

/// No two of one key.
fn keep_scalars(attributes: &mut Vec<KeyValue>) {
    let is_scalar = |one: &KeyValue| {
        let value = one.value.as_ref().and_then(|any| any.value.as_ref());
        matches!(value, Some(Any::Text(_) | Any::Bool(_) | Any::Int(_)))
    };
    attributes.retain(is_scalar);
    attributes.dedup_by(|one, other| one.key == other.key);
}

fn make_plain(metric: &mut Metric) {
    metric.name.insert(0, 'm');
    match metric.data.as_mut() {
        None => metric.data = Some(Data::Sum(Sum::default())),
        Some(Data::Sum(sum)) => {
            sum.aggregation_temporality = 1;
            sum.data_points.truncate(2);
            sum.data_points.iter_mut().for_each(|point| keep_scalars(&mut point.attributes));
        }
        Some(Data::Histogram(histogram)) => {
            histogram.aggregation_temporality = 1;
            histogram.data_points.truncate(2);
            for point in &mut histogram.data_points {
                keep_scalars(&mut point.attributes);
                let bounds = point.explicit_bounds.iter_mut().enumerate();
                bounds.for_each(|(place, bound)| *bound = place as f64 * 2.0);
            }
        }
    }
    if let Some(Data::Sum(sum)) = &mut metric.data {
        sum.aggregation_temporality = 1;
    }
}

/// Gives each point a span behind all others, and nearly all of them values that can be added up.
fn set(request: &mut ExportMetricsServiceRequest, random: &mut Random, clock: &mut u64) {
    let scopes = request.resource_metrics.iter_mut().flat_map(|resource| &mut resource.scope_metrics);
    for metric in scopes.flat_map(|scope| &mut scope.metrics) {
        match &mut metric.data {
            None => {}
            Some(Data::Sum(sum)) => {
                for point in &mut sum.data_points {
                    (point.start_time_unix_nano, point.time_unix_nano) = span(random, clock);
                    set_sum(point, random);
                }
            }
            Some(Data::Histogram(histogram)) => {
                for point in &mut histogram.data_points {
                    (point.start_time_unix_nano, point.time_unix_nano) = span(random, clock);
                    set_histogram(point, random);
                }
            }
        }
    }
}

fn span(random: &mut Random, clock: &mut u64) -> (u64, u64) {
    let start = *clock;
    *clock += 1 + random.below(1_000_000_000);
    match random.below(60) {
        0 => (start, start),
        1 => (0, *clock),
        _ => (start, *clock),
    }
}

fn set_sum(point: &mut NumberDataPoint, random: &mut Random) {
    point.flags = random.below(30) as u32 / 28;
    point.value = Some(match random.below(40) {
        0 => Number::AsDouble(0.5),
        1 => Number::AsInt(-5),
        2 => Number::AsInt(i64::MAX - 3),
        _ => Number::AsInt(random.below(1000) as i64),
    });
}

fn set_histogram(point: &mut HistogramDataPoint, random: &mut Random) {
    point.bucket_counts.iter_mut().for_each(|bucket| *bucket = random.below(9));
    point.count = point.bucket_counts.iter().sum::<u64>() + random.below(20) / 19;
    point.sum = match random.below(12) {
        0 => None,
        1 => Some(0.5),
        2 => Some(-1.0),
        3 => Some(-0.0),
        4 => Some(9007199254740994.0),
        _ => Some(random.below(1000) as f64),
    };
    if random.below(20) == 0 {
        point.bucket_counts.pop();
    }
}

/// The same in another order, as encoders that write the fields of a oneof last; and with keys that are longer than they
/// need be where `is_long` says so.
pub fn written(
    of: &Table,
    message: &[u8],
    is_long: &mut impl FnMut(u32) -> bool,
    value_last: bool,
) -> Vec<u8> {
    let (mut out, mut last) = (Vec::new(), Vec::new());
    for field in Fields::of(message) {
        let (number, payload) = field.unwrap();
        let known = of.fields.iter().find(|field| u32::from(field.number) == number);
        let inner = match known.unwrap().kind {
            Kind::Message(inner) | Kind::Messages(inner) | Kind::Part(inner) | Kind::Parts(inner) => {
                Some(inner)
            }
            Kind::ResourceAttributes => Some(&KEY_VALUE),
            _ => None,
        };
        let mut field = match payload {
            Payload::Bytes(part) => {
                let inner = inner.map(|inner| written(inner, part, is_long, value_last));
                bytes(number, inner.as_deref().unwrap_or(part))
            }
            Payload::Varint(bits) => [varint(number << 3), varint(bits)].concat(),
            Payload::Fixed64(bits) => [&varint(number << 3 | 1)[..], &bits.to_le_bytes()].concat(),
            Payload::Fixed32(_) | Payload::Group => panic!("no message of metrics has one"),
        };
        if is_long(number) {
            field.splice(0..1, [field[0] | 128, 0]);
        }
        match value_last && std::ptr::eq(of, &NUMBER_POINT) && number == 6 {
            true => last = field,
            false => out.extend(field),
        }
    }
    [out, last].concat()
}

/// With a few changes anywhere.
fn mutated(mut body: Vec<u8>, random: &mut Random) -> Vec<u8> {
    for _ in 0..=random.below(2) {
        if body.is_empty() {
            return body;
        }
        let at = random.below(body.len() as u64) as usize;
        let length = random.below(12) as usize % (body.len() - at);
        let piece = body[at..at + length].to_vec();
        match random.below(6) {
            0 => body[at] = random.below(256) as u8,
            1 => body[at] ^= 1 << random.below(8),
            2 => body.insert(at, random.below(256) as u8),
            3 => drop(body.drain(at..at + length)),
            4 => drop(body.splice(at..at, piece)),
            _ => body.truncate(at),
        }
    }
    body
}
