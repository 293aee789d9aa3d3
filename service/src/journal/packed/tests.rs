//! Points are read as they were written, in few bytes; bytes that are no points are refused.

use super::super::post::OfRun;
use super::*;
use crate::storage::records;
use crate::storage::test_random::TestRandom;
use crate::storage::test_runs::runs;

const MINUTE: u64 = 60_000_000_000;
/// A moment in 2026.
const NOW: u64 = 1_795_000_000_000_000_000;

/// Any 64 bits, small numbers more often.
fn any(chance: &mut TestRandom) -> u64 {
    let bits = chance.below(1 << 31) << 33 ^ chance.below(1 << 31) << 16 ^ chance.below(1 << 16);
    match chance.below(4) {
        0 => 0,
        1 => chance.below(300),
        2 => bits >> chance.below(64),
        _ => bits.wrapping_neg(),
    }
}

fn random(chance: &mut TestRandom) -> Points {
    let mut points = Points::default();
    for _ in 0..chance.below(12) {
        let says: Vec<u64> = (0..chance.below(25)).map(|_| any(chance)).collect();
        points.push(any(chance), any(chance), any(chance), says);
    }
    points
}

#[test]
fn the_bytes_are_those_of_the_table() {
    let mut points = Points::default();
    points.push(3, 70, 100, [5]);
    points.push(4, 70, 100, [u64::MAX]);
    points.push(2, 100, 130, [300, 0, 0, 0, 0, 0, 0, 0, 0, 1]);
    let bytes = [
        &[32 + 6, 128 + 72, 32 + 1, 32 + 60, 32 + 1, 32 + 0b1, 32 + 10][..],
        &[32, 32, 32, 32 + 1, 32 + 0b1, 32 + 1],
        &[32 + 5, 32 + 60, 32, 32 + 10, 32 + 0b1, 32 + 0b1000, 128 + 88, 32 + 4, 32 + 2],
    ];
    assert_eq!(of(&points), bytes.concat());
}

/// Random points, some of which are converted ones.
fn of_runs(chance: &mut TestRandom) -> Points {
    let mut points = random(chance);
    points.push(any(chance), any(chance), any(chance), [any(chance)]);
    for place in 0..points.count() as u32 {
        let start = any(chance);
        let is_last = place + 1 == points.count() as u32;
        match chance.below(4) {
            0 if !is_last || !points.runs().is_empty() => {}
            1 => points.put_run(place, OfRun::Began(start)),
            2 => {
                let words = (0..chance.below(9)).map(|_| any(chance)).collect();
                points.put_run(place, OfRun::Noted { start, words });
            }
            _ => points.put_run(place, OfRun::More),
        }
    }
    points
}

#[test]
fn the_bytes_of_runs_are_those_of_the_table() {
    let mut points = Points::default();
    for _ in 0..4 {
        points.push(0, 70, 100, [5]);
    }
    let plain = of(&points);
    points.put_run(0, OfRun::More);
    points.put_run(2, OfRun::Began(60));
    let (start, words) = (70, vec![300, 0]);
    points.put_run(3, OfRun::Noted { start, words });
    let bytes = [32 + 3, 32, 32 + 3 + 1, 32 + 20, 32 + 2, 32, 32 + 2, 128 + 88, 32 + 4, 32];
    assert_eq!(of(&points), [&bytes[..], &plain].concat());
}

#[test]
fn random_runs_come_back_and_changed_ones_are_none_or_of_others() {
    let mut chance = TestRandom(3);
    for _ in 0..3_000 {
        let points = of_runs(&mut chance);
        let bytes = of(&points);
        let is_kind = |byte: &u8| (records::HEADER..=records::LAST).contains(byte);
        assert!(!bytes.iter().any(is_kind), "a record could be in it");
        assert_eq!(read_with_runs(&bytes), Some(points));
        let at = chance.below(bytes.len() as u64) as usize;
        let mut flipped = bytes.clone();
        flipped[at] ^= 1 << chance.below(8);
        for changed in [&bytes[..at], &flipped] {
            if let Some(points) = read_with_runs(changed) {
                assert_eq!(of(&points), changed);
            }
        }
    }
}

#[test]
fn random_points_come_back() {
    let mut chance = TestRandom(1);
    for _ in 0..20_000 {
        let points = random(&mut chance);
        let bytes = of(&points);
        let is_kind = |byte: &u8| (records::HEADER..=records::LAST).contains(byte);
        assert!(!bytes.iter().any(is_kind), "a record could be in it");
        assert_eq!(read(&bytes), Some(points));
    }
}

/// So a changed byte is refused, or gives other points; the record's checksum tells that they are other ones.
#[test]
fn each_cut_and_each_flipped_byte_is_no_points_or_the_one_form_of_some() {
    let mut chance = TestRandom(2);
    for _ in 0..runs(60, 300) {
        let bytes = of(&random(&mut chance));
        for at in 0..bytes.len() {
            is_one_form(&bytes[..at]);
            let mut flipped = bytes.clone();
            flipped[at] ^= 1 << chance.below(8);
            is_one_form(&flipped);
        }
    }
}

#[test]
fn any_bytes_are_no_points_or_the_one_form_of_some() {
    let mut chance = TestRandom(3);
    for _ in 0..100_000 {
        let (least, most) = [(32, 3), (32, 70), (0, 256)][chance.below(3) as usize];
        let length = chance.below(60);
        let byte = |_| (least + chance.below(most)) as u8;
        let bytes: Vec<u8> = (0..length).map(byte).collect();
        is_one_form(&bytes);
    }
}

fn is_one_form(bytes: &[u8]) {
    if let Some(points) = read(bytes) {
        assert_eq!(of(&points), bytes);
        assert!(points.words().len() <= 6 * bytes.len(), "{bytes:?}");
    }
}

#[test]
fn a_number_that_is_read_is_no_length_of_anything() {
    for count in [8, 1 << 20, 1 << 40, u64::MAX] {
        let mut bytes = vec![FIRST; 3];
        put_number(&mut bytes, count);
        assert_eq!(read(&bytes), None, "{count}");
    }
}

#[test]
fn a_number_has_one_form() {
    let faulty: [&[u8]; 7] = [&[128, 32], &[255, 128, 32], &[223, 32], &[128], &[255; 10], &[31], &[]];
    for bytes in faulty {
        assert_eq!(take_number(&mut &bytes[..]), None, "{bytes:?}");
    }
    for number in (0..20_000).chain((0..64).flat_map(|bit| [1 << bit, (1 << bit) - 1])) {
        let mut bytes = Vec::new();
        put_number(&mut bytes, number);
        assert_eq!(take_number(&mut &bytes[..]), Some(number));
    }
    let most = [[255; 9].as_slice(), &[33]].concat();
    assert_eq!(take_number(&mut &most[..]), Some(u64::MAX));
}

/// A histogram with the SDKs' 15 default bounds.
fn histogram(points: &mut Points, number: u64, end: u64, chance: &mut TestRandom) {
    let mut buckets = [0; 16];
    let near = 2 + chance.below(8) as usize;
    let counts = [0, 1, 2, 3, 4].map(|_| chance.below(40));
    buckets[near..near + 5].copy_from_slice(&counts);
    let count = buckets.iter().sum();
    points.push(number, end - MINUTE, end, [count, 1, count * 37].into_iter().chain(buckets));
}

fn sum(points: &mut Points, number: u64, end: u64, chance: &mut TestRandom) {
    points.push(number, end - MINUTE - chance.below(2000), end, [chance.below(5000)]);
}

/// Points as the SDKs send them: each instrument is read a little later than the previous one, and its series share
/// their times.
fn usual(count: u64, histograms: impl Fn(u64) -> bool) -> Points {
    let (mut points, mut chance, mut end) = (Points::default(), TestRandom(4), NOW);
    for number in 0..count {
        if number % 4 == 0 {
            end += 1000 + chance.below(100_000);
        }
        match histograms(number / 4) {
            true => histogram(&mut points, 700 + number, end, &mut chance),
            false => sum(&mut points, 700 + number, end, &mut chance),
        }
    }
    points
}

#[test]
fn a_usual_point_takes_at_most_20_bytes_and_a_histogram_at_most_40() {
    type Kind = fn(u64) -> bool;
    let kinds: [(&str, Kind, usize); 3] = [
        ("sums", |_| false, 12),
        ("sums, and a quarter histograms", |metric| metric % 4 == 3, 20),
        ("histograms", |_| true, 40),
    ];
    for count in [20, 103] {
        for (what, histograms, most) in kinds {
            let points = usual(count, histograms);
            let takes = of(&points).len().div_ceil(count as usize);
            println!("{count} points, {what}: {takes} bytes a point");
            assert!(takes <= most, "{count} points, {what}: {takes} bytes a point");
        }
    }
}
