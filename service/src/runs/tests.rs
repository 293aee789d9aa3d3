//! Each case of the law, and random points of runs compared with a plain count.

mod draft;

use super::rules::entry;
use super::*;
use crate::storage::test_random::TestRandom;

fn point(start: u64, time: u64, words: &[u64]) -> Point {
    let words = words.to_vec();
    Point { start, time, words }
}

/// A run with a point every ten.
fn run(start: u64, time: u64, words: &[u64]) -> Run {
    Run { last: point(start, time, words), interval: 10, before: EndedRun { start: 90, time: 105 } }
}

fn more(from: u64, time: u64, words: &[u64]) -> Result<Option<Entry>, Reason> {
    Ok(Some(Entry { of_run: OfRun::More, from, time, words: words.to_vec() }))
}

fn counted(start: u64, from: u64, time: u64, words: &[u64]) -> Result<Option<Entry>, Reason> {
    Ok(Some(Entry { of_run: OfRun::Began(start), from, time, words: words.to_vec() }))
}

fn noted(start: u64, time: u64, words: &[u64]) -> Result<Option<Entry>, Reason> {
    let of_run = OfRun::Noted { start, words: words.to_vec() };
    Ok(Some(Entry { of_run, from: time - 1, time, words: vec![0; words.len()] }))
}

const SINCE: Since = Since { made: 100, forgotten: 50 };

fn options(initial_value: InitialValue, reset: Reset) -> Options {
    Options { initial_value, reset }
}

#[test]
fn a_first_point_counts_from_its_start_as_it_was_told() {
    let first = |first, start, time| {
        let options = options(first, Reset::Refuse);
        entry(options, SINCE, Kind::Monotonic, None, &point(start, time, &[7]))
    };
    let cases = [
        (InitialValue::Auto, 100, counted(100, 100, 200, &[7])),
        (InitialValue::Auto, 99, noted(99, 200, &[7])),
        (InitialValue::Auto, 0, noted(0, 200, &[7])),
        // Its start is unknown.
        (InitialValue::Auto, 200, noted(200, 200, &[7])),
        (InitialValue::Keep, 99, counted(99, 99, 200, &[7])),
        // It may have been counted before the series was forgotten.
        (InitialValue::Keep, 49, noted(49, 200, &[7])),
        (InitialValue::Keep, 0, noted(0, 200, &[7])),
        (InitialValue::Drop, 150, noted(150, 200, &[7])),
    ];
    for (option, start, wanted) in cases {
        assert_eq!(first(option, start, 200), wanted, "{option:?} {start}");
    }
    // Late, of a series that may have been counted before it was forgotten.
    assert_eq!(first(InitialValue::Auto, 40, 50), Err(Reason::Forgotten));
    assert_eq!(first(InitialValue::Auto, 40, 51), noted(40, 51, &[7]));
}

#[test]
fn a_later_point_adds_what_its_run_has_more_or_all_of_a_new_run() {
    let known = run(110, 200, &[7]);
    let next = |reset, kind, start, time, value: i64| {
        let options = options(InitialValue::Auto, reset);
        entry(options, SINCE, kind, Some(&known), &point(start, time, &[value as u64]))
    };
    let refuse = |start, time, value| next(Reset::Refuse, Kind::Monotonic, start, time, value);
    assert_eq!(refuse(110, 210, 9), more(200, 210, &[2]));
    assert_eq!(refuse(110, 210, 7), more(200, 210, &[0]));
    assert_eq!(refuse(200, 210, 3), counted(200, 200, 210, &[3]));
    assert_eq!(refuse(205, 210, 3), counted(205, 205, 210, &[3]));
    // Even with less than before, since it is another run. Where this one began is unknown.
    assert_eq!(refuse(210, 210, 3), noted(210, 210, &[3]));
    for start in [0, 109, 111, 199] {
        assert_eq!(refuse(start, 210, 9), Err(Reason::EarlierRun), "{start}");
    }
    // The same point again; an older one, also of the run before, whatever its value.
    for (start, time, value) in [(110, 200, 7), (110, 199, 9), (90, 105, 9), (90, 95, 9)] {
        assert_eq!(refuse(start, time, value), Ok(None), "{start} {time}");
    }
    // These report what nobody has counted.
    for (start, time, value) in [(110, 200, 9), (150, 200, 7), (0, 1, 9), (90, 106, 9)] {
        assert_eq!(refuse(start, time, value), Err(Reason::EarlierRun), "{start} {time}");
    }
    assert_eq!(refuse(110, 210, 6), Err(Reason::WentDown));
    let reset = next(Reset::Count, Kind::Monotonic, 110, 210, 6);
    assert_eq!(reset, counted(110, 200, 210, &[6]));
    let down = next(Reset::Refuse, Kind::Sum, 110, 210, -6);
    assert_eq!(down, more(200, 210, &[-13i64 as u64]));
    // Over 63 bits.
    let lowest = next(Reset::Refuse, Kind::Sum, 110, 210, i64::MIN + 1);
    assert_eq!(lowest, Err(Reason::Leap));
}

/// Nothing else could say that a counter began anew.
#[test]
fn without_a_start_a_word_that_goes_down_begins_the_run_anew() {
    let known = run(0, 200, &[7]);
    let next =
        |value| entry(Options::default(), SINCE, Kind::Monotonic, Some(&known), &point(0, 210, &[value]));
    assert_eq!(next(9), more(200, 210, &[2]));
    assert_eq!(next(6), counted(0, 200, 210, &[6]));
}

#[test]
fn a_histogram_has_a_sum_more_where_both_points_have_one() {
    let next = |before: &[u64], now: &[u64]| {
        let known = run(110, 200, before);
        let entry = entry(Options::default(), SINCE, Kind::Histogram, Some(&known), &point(110, 210, now));
        let after = entry.clone().ok().flatten().and_then(|entry| entry.after(Kind::Histogram, Some(&known)));
        (entry, after.map(|run| run.last.words))
    };
    let both = next(&[3, 1, 30, 1, 2], &[5, 1, 70, 2, 3]);
    assert_eq!(both, (more(200, 210, &[2, 1, 40, 1, 1]), Some(vec![5, 1, 70, 2, 3])));
    let lost = next(&[3, 1, 30, 1, 2], &[5, 0, 0, 2, 3]);
    assert_eq!(lost, (more(200, 210, &[2, 0, 0, 1, 1]), Some(vec![5, 0, 0, 2, 3])));
    // What a start reads is what was added: so the sum stays away until a new run begins.
    let came = next(&[3, 0, 0, 1, 2], &[5, 1, 70, 2, 3]);
    assert_eq!(came, (more(200, 210, &[2, 0, 0, 1, 1]), Some(vec![5, 0, 0, 2, 3])));
    for now in [[2, 1, 30, 0, 2], [4, 1, 29, 2, 2], [4, 1, 40, 0, 4]] {
        assert_eq!(next(&[3, 1, 30, 1, 2], &now).0, Err(Reason::WentDown), "{now:?}");
    }
}

/// Nothing says whether what it has counted was counted before.
#[test]
fn a_run_is_noted_that_overlaps_one_which_was_silent_for_three_intervals() {
    let known = run(110, 200, &[7]);
    let next = |first, known: &Run, start, time| {
        let options = options(first, Reset::Refuse);
        entry(options, SINCE, Kind::Monotonic, Some(known), &point(start, time, &[9]))
    };
    for (first, start) in [
        (InitialValue::Auto, 150),
        (InitialValue::Drop, 199),
        (InitialValue::Keep, 109),
        (InitialValue::Auto, 0),
    ] {
        for time in [201, 229] {
            assert_eq!(next(first, &known, start, time), Err(Reason::EarlierRun), "{start} {time}");
        }
        assert_eq!(next(first, &known, start, 230), noted(start, 230, &[9]));
    }
    // A run that begins after it counts at once.
    assert_eq!(next(InitialValue::Auto, &known, 200, 201), counted(200, 200, 201, &[9]));
    // Its interval is unknown.
    let unknown = Run { interval: 0, ..known };
    assert_eq!(next(InitialValue::Auto, &unknown, 150, 9_000), Err(Reason::EarlierRun));
}

/// Also if a start reads it again.
#[test]
fn an_interval_is_at_least_half_of_the_one_before() {
    let intervals = |points: &[(u64, u64)]| -> Vec<u64> {
        let mut run = None;
        let next = |(start, time): &(u64, u64)| {
            let point = point(*start, *time, &[*time]);
            let entry = entry(Options::default(), SINCE, Kind::Monotonic, run.as_ref(), &point).unwrap();
            let entry = entry.expect("it is later");
            let mut put = run.clone().unwrap_or_default();
            entry.put_after(Kind::Monotonic, point.clone(), &mut put);
            run = entry.after(Kind::Monotonic, run.as_ref());
            assert_eq!(run.as_ref(), Some(&put));
            put.interval
        };
        points.iter().map(next).collect()
    };
    assert_eq!(
        intervals(&[(100, 160), (100, 220), (100, 225), (100, 230), (100, 300)]),
        [60, 60, 30, 15, 70]
    );
    // A new run has its own interval. A run that is only noted has its age as interval, or an unknown one.
    assert_eq!(intervals(&[(100, 900), (900, 910), (910, 925)]), [800, 10, 15]);
    assert_eq!(intervals(&[(60, 160), (60, 170), (60, 180)]), [100, 50, 25]);
    assert_eq!(intervals(&[(0, 160), (0, 170)]), [0, 10]);
    assert_eq!(intervals(&[(160, 160), (160, 190)]), [0, 30]);
    assert_eq!(intervals(&[(100, 160), (150, 340), (150, 350)]), [60, 190, 95]);
}

/// A plain count that knows nothing of deltas: the last value of each run.
#[derive(Default)]
struct Plain {
    last: Option<(u64, u64)>,
    interval: u64,
    runs: Vec<i128>,
    /// What noted runs had counted before.
    left_out: i128,
}

impl Plain {
    fn take(&mut self, start: u64, time: u64, value: i64) {
        let silence = |last| time - last;
        self.interval = match self.last {
            Some((_, last)) if time <= last => return,
            Some((run, last)) if run == start => {
                self.runs.pop();
                silence(last).max(self.interval / 2)
            }
            Some((_, last)) if start < last && silence(last) < 3 * self.interval => return,
            Some((_, last)) if start < last => {
                self.left_out += i128::from(value);
                time - start
            }
            _ => time - start,
        };
        self.runs.push(value.into());
        self.last = Some((start, time));
    }
}

/// Lost, repeated and reordered points, runs that begin anew, and clocks that jump.
#[test]
fn what_was_added_is_the_sum_of_the_last_values_of_the_runs() {
    let mut chance = TestRandom(1);
    for kind in [Kind::Monotonic, Kind::Sum] {
        for _ in 0..2_000 {
            let (mut plain, mut added, mut kept) = (Plain::default(), 0i128, None);
            let (mut start, mut time, mut value) = (1_000u64, 1_000u64, 0i64);
            let mut sent = Vec::new();
            for _ in 0..30 {
                time = match chance.below(20) {
                    0 => time.saturating_sub(chance.below(50)).max(start + 1),
                    _ => time + 1 + chance.below(10),
                };
                if chance.below(8) == 0 {
                    (start, value) = (time - [0, 1, 15][chance.below(3) as usize], 0);
                    time += 1;
                }
                value += chance.below(9) as i64 - if kind == Kind::Sum { 4 } else { 0 };
                sent.push((start, time, value));
                let (start, time, value) = match chance.below(5) {
                    0 => continue, // the point is lost
                    1 => sent[chance.below(sent.len() as u64) as usize],
                    _ => (start, time, value),
                };
                let point = point(start, time, &[value as u64]);
                let Ok(entry) = entry(
                    options(InitialValue::Keep, Reset::Refuse),
                    Since::default(),
                    kind,
                    kept.as_ref(),
                    &point,
                ) else {
                    // A clock that went back gives two values the same time.
                    continue;
                };
                let Some(entry) = entry else { continue };
                plain.take(start, time, value);
                added += i128::from(entry.words[0] as i64);
                let mut put = kept.clone().unwrap_or_default();
                entry.put_after(kind, point.clone(), &mut put);
                kept = entry.after(kind, kept.as_ref());
                assert_eq!(kept.as_ref(), Some(&put));
                assert_eq!(put.last, point);
            }
            assert_eq!(added, plain.runs.iter().sum::<i128>() - plain.left_out, "{sent:?}");
        }
    }
}

/// A start finds some entries that a commit contains already, and others.
#[test]
fn entries_behind_any_commit_come_to_what_was_kept() {
    let mut chance = TestRandom(2);
    for _ in 0..2_000 {
        let (mut kept, mut entries) = (vec![None], Vec::new());
        let (mut start, mut time, mut words) = (10, 10, [0, 1, 0, 0, 0]);
        for _ in 0..12 {
            if chance.below(5) == 0 {
                (start, words) = (time, [0, 1, 0, 0, 0]);
            }
            time += 1 + chance.below(5);
            let bucket = 3 + chance.below(2) as usize;
            words[bucket] += 2;
            (words[0], words[2]) = (words[3] + words[4], words[2] + chance.below(9));
            words[1] = u64::from(chance.below(6) > 0);
            let words = words.map(|word| if words[1] == 0 && word == words[2] { 0 } else { word });
            let point = point(start, time, &words);
            let before = kept.last().cloned().flatten();
            let first = [InitialValue::Auto, InitialValue::Drop][chance.below(2) as usize];
            let found = entry(
                options(first, Reset::Count),
                Since::default(),
                Kind::Histogram,
                before.as_ref(),
                &point,
            );
            let Ok(Some(entry)) = found else { continue };
            let mut put = before.clone().unwrap_or_default();
            entry.put_after(Kind::Histogram, point.clone(), &mut put);
            kept.push(entry.after(Kind::Histogram, before.as_ref()));
            assert_eq!(kept.last().unwrap().as_ref(), Some(&put));
            entries.push(entry);
        }
        for commit in 0..kept.len() {
            let replayed_from = chance.below(commit as u64 + 1) as usize;
            let behind = entries[replayed_from..].iter();
            let replayed = behind
                .fold(kept[commit].clone(), |known, entry| entry.after(Kind::Histogram, known.as_ref()));
            assert_eq!(&replayed, kept.last().unwrap(), "{entries:?}");
        }
    }
}
