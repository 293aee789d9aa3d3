//! Which ends are off by the clock.

use super::*;

const SECOND: u64 = 1_000_000_000;

#[test]
fn ends_at_the_bounds_are_taken_and_past_them_not() {
    let clock =
        Clock { max_ahead: Some(Duration::from_secs(600)), max_age: Some(Duration::from_secs(86_400)) };
    let now = 1_700_000_000 * SECOND;
    let window = clock.window_at(now);
    let (last, first) = (now + 600 * SECOND, now - 86_400 * SECOND);
    assert!(window.has_all(first, last));
    assert!(!window.has_all(first - 1, last) && !window.has_all(first, last + 1));
    assert_eq!((window.off(first), window.off(last)), (None, None));
    let mut off = OffClock::default();
    for end in [last + 1, now + 365 * 86_400 * SECOND, first - 1, 1] {
        off.count(window.off(end).unwrap());
    }
    assert_eq!((off.ahead, off.behind, off.points()), (2, 2, 4));
    let said = "its clock is 365d ahead, and its clock is 19675d behind, or it comes late";
    assert_eq!(off.to_string(), said);
    assert_eq!(window.off(last + 1).unwrap().to_string(), "its clock is 10m ahead");
}

#[test]
fn what_is_not_bounded_is_taken_whatever_the_clock_says() {
    for now in [0, SECOND, u64::MAX] {
        let window = Clock::default().window_at(now);
        assert!(window.has_all(0, u64::MAX));
    }
    let ahead = Clock { max_ahead: Some(Duration::MAX), max_age: None };
    assert!(ahead.window_at(5).has_all(0, u64::MAX));
}
