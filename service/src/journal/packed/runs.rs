//! Codes what converted points say of their runs, before the points: how many of them do, and for each:
//!
//! | field | written as a difference from |
//! |---|---|
//! | its index, times three, plus 0 if the run goes on, 1 if it began, 2 if it was noted | the previous index plus one |
//! | for the last two, the start of the run | the point's start |
//! | for the last, how many values it has, and these | |

use super::super::post::{OfRun, Points};
use super::{put_number, put_signed, take_number, take_signed};

const TAGS: u64 = 3;

pub fn put(out: &mut Vec<u8>, points: &Points) {
    put_number(out, points.runs().len() as u64);
    let mut next = 0;
    for ((place, of_run), point) in points.with_runs() {
        let tag = match of_run {
            OfRun::More => 0,
            OfRun::Began(_) => 1,
            OfRun::Noted { .. } => 2,
        };
        put_number(out, u64::from(place - next) * TAGS + tag);
        next = place + 1;
        match of_run {
            OfRun::More => {}
            OfRun::Began(start) => put_signed(out, point[1].wrapping_sub(*start)),
            OfRun::Noted { start, words } => {
                put_signed(out, point[1].wrapping_sub(*start));
                put_number(out, words.len() as u64);
                words.iter().for_each(|word| put_signed(out, *word));
            }
        }
    }
}

/// Takes them off the front of the bytes. Each start is still the difference from its point's start. Uses at most one
/// word of memory for a byte.
pub fn take(bytes: &mut &[u8]) -> Option<Vec<(u32, OfRun)>> {
    let count = take_number(bytes)?;
    let (mut all, mut next) = (Vec::new(), 0u64);
    for _ in 0..count {
        let number = take_number(bytes)?;
        let place = next.checked_add(number / TAGS)?;
        let of_run = match number % TAGS {
            0 => OfRun::More,
            1 => OfRun::Began(take_signed(bytes)?),
            _ => OfRun::Noted { start: take_signed(bytes)?, words: take_words(bytes)? },
        };
        all.push((u32::try_from(place).ok()?, of_run));
        next = place + 1;
    }
    Some(all)
}

fn take_words(bytes: &mut &[u8]) -> Option<Vec<u64>> {
    let count = take_number(bytes)?;
    (0..count).map(|_| take_signed(bytes)).collect()
}

/// Gives these runs to the points that follow them. None if a point is missing.
pub fn give(points: &mut Points, read: Vec<(u32, OfRun)>) -> Option<()> {
    for (place, mut of_run) in read {
        let of_point = points.point(place)?[1];
        if let OfRun::Began(start) | OfRun::Noted { start, .. } = &mut of_run {
            *start = of_point.wrapping_sub(*start);
        }
        points.put_run(place, of_run);
    }
    Some(())
}
