//! The drafts of posts, and how many lookups they take.

use super::*;

/// The number of a series.
fn number(names: &Names, name: &str) -> u64 {
    let sum = r#""aggregationTemporality":1,"isMonotonic":true,"dataPoints":[{"startTimeUnixNano":"1","timeUnixNano":"2","asInt":"0"}]"#;
    let text = format!(
        r#"{{"resourceMetrics":[{{"scopeMetrics":[{{"metrics":[{{"name":"{name}","sum":{{{sum}}}}}]}}]}}]}}"#
    );
    names.learn(text.into()).unwrap()
}

/// The reader that looks up the point does not count points that are not sound.
#[test]
fn a_place_is_told_among_the_points_of_the_profile() {
    let names = Names::new().unwrap();
    let mut points = Points::default();
    for (name, value) in [("a", -5i64), ("b", 5), ("c", -7), ("d", 7)] {
        points.push(number(&names, name), 10, 20, [value as u64]);
    }
    let runs = Runs::default();
    let posted = Posted { points: &points, cumulative: &[0, 1, 2, 3], names: &names };
    let draft = runs.draft(posted, |_| 0);
    assert_eq!((draft.foreign(), draft.points.count()), (2, 2));
    // The first point of the request is off the clock.
    let among_all = |place| place + 1;
    for point in [0, 1] {
        let refused = draft.refused(crate::book::Refused::OtherWriter { point }, among_all);
        assert_eq!(refused, crate::book::Refused::OtherWriter { point: point + 1 });
    }
}

/// The text of a series is long, and a post may have very many points of it that are not taken.
#[test]
fn a_series_is_looked_up_once_however_many_of_its_points_are_not_taken() {
    let names = Names::new().unwrap();
    let number = number(&names, "a");
    let mut points = Points::default();
    for _ in 0..50 {
        points.push(number, 10, 20, [-5i64 as u64]); // not sound
    }
    for _ in 0..50 {
        points.push(number, 10, 20, [5]); // delta points have this span
    }
    points.push(number, 60, 70, [5]);
    points.push(number, 60, 80, [7]);
    let cumulative: Vec<u32> = (0..points.count() as u32).collect();
    let posted = Posted { points: &points, cumulative: &cumulative, names: &names };
    let (runs, asked) = (Runs::default(), std::cell::Cell::new(0));
    let drafted = |posted| {
        asked.set(0);
        runs.draft(posted, |_| {
            asked.set(asked.get() + 1);
            50
        })
    };
    let draft = drafted(posted);
    assert_eq!((draft.foreign(), draft.turned.count(), draft.points.count()), (50, 50, 2));
    assert_eq!(draft.turned, [(Reason::Mixed, 50)].into_iter().collect());
    assert_eq!(asked.get(), 1);
    drop(draft);
    // Nor for the posts after it.
    let untaken = Posted { points: &points_before(&points, 100), cumulative: &cumulative[..100], ..posted };
    for _ in 0..2 {
        let draft = drafted(untaken);
        assert_eq!((draft.foreign(), draft.turned.count(), draft.points.count()), (50, 50, 0));
        assert_eq!(asked.get(), 0);
    }
}

fn points_before(points: &Points, place: usize) -> Points {
    let mut before = Points::default();
    points.each().take(place).for_each(|point| before.push_words(point[0], &point[1..]));
    before
}

/// Otherwise what one of two processes, or of two instruments with one name, has counted would be lost silently.
#[test]
fn of_two_points_over_one_time_in_a_post_the_second_is_refused_by_name() {
    let (names, runs) = (Names::new().unwrap(), Runs::default());
    let number = number(&names, "a");
    // How many points of a post add nothing, and how many are refused.
    let taken = |said: &[(u64, u64, u64)]| {
        let mut points = Points::default();
        said.iter().for_each(|(start, time, value)| points.push(number, *start, *time, [*value]));
        let cumulative: Vec<u32> = (0..points.count() as u32).collect();
        let posted = Posted { points: &points, cumulative: &cumulative, names: &names };
        let draft = runs.draft(posted, |_| 0);
        let (late, refused) = (draft.late.len(), draft.turned.count());
        assert!(draft.turned.iter().all(|(cause, _)| cause == Reason::EarlierRun));
        draft.keep();
        (late, refused)
    };
    assert_eq!(taken(&[(10, 20, 5)]), (0, 0));
    assert_eq!(taken(&[(10, 30, 9), (10, 30, 9)]), (1, 0), "twice the same");
    assert_eq!(taken(&[(10, 40, 11), (10, 40, 3)]), (0, 1), "of one start and time, and another value");
    assert_eq!(taken(&[(10, 50, 13), (12, 45, 4), (12, 50, 4)]), (0, 2), "of another start");
    assert_eq!(taken(&[(10, 60, 15), (10, 55, 14)]), (1, 0), "the later one has it");
    assert_eq!(taken(&[(10, 60, 15), (10, 55, 14), (12, 50, 4)]), (2, 1), "two come again");
    assert_eq!(taken(&[(10, 60, 16)]), (0, 1), "of one start and time, also in another post");
    assert_eq!(taken(&[(10, 70, 17), (12, 60, 5)]), (0, 1), "of another start, and late");
    assert_eq!(taken(&[(70, 80, 1), (10, 75, 18)]), (0, 1), "what a run came to before the next one began");
    assert_eq!(taken(&[(70, 80, 1), (10, 70, 17), (10, 65, 16)]), (3, 0), "two of the run before");
}

/// Series with the longest attributes, about 48 KB each.
const LONG: u64 = 100;
/// The most memory of a run, with its words and its index by number.
const MOST_OF_A_RUN: usize = 400;

fn long_request(number: u64) -> String {
    let text = "x".repeat(3_900);
    let pair = |key: &str| format!(r#"{{"key":"{key}","value":{{"stringValue":"{text}"}}}}"#);
    let pairs = ["a", "b", "c", "d"].map(pair).join(",");
    let own =
        format!(r#"{{"key":"n","value":{{"intValue":"{number}"}}}},{}"#, ["a", "b", "c"].map(pair).join(","));
    format!(
        r#"{{"resourceMetrics":[{{"resource":{{"attributes":[{pairs}]}},"scopeMetrics":[{{"scope":{{"attributes":[{pairs}]}},"metrics":[{{"name":"m","sum":{{"aggregationTemporality":1,"isMonotonic":true,"dataPoints":[{{"attributes":[{own}],"startTimeUnixNano":"1","timeUnixNano":"2","asInt":"0"}}]}}}}]}}]}}]}}"#
    )
}

/// The next test runs this in a process of its own, where nothing else takes memory.
#[test]
#[ignore]
fn takes_memory_for_runs_of_long_series() {
    let (names, runs) = (Names::new().unwrap(), Runs::default());
    let numbers: Vec<u64> =
        (0..LONG).map(|number| names.learn(long_request(number).into()).unwrap()).collect();
    let length = series::only(&journal::Names::text(&*names, numbers[0])).unwrap().0.len();
    assert!(length > 42_000, "{length}");
    let mut points = Points::default();
    numbers.iter().for_each(|number| points.push(*number, 10, 20, [5]));
    let cumulative: Vec<u32> = (0..LONG as u32).collect();
    let before = crate::book::allocated();
    runs.draft(Posted { points: &points, cumulative: &cumulative, names: &names }, |_| 0).keep();
    let taken = crate::book::allocated() - before;
    assert_eq!(runs.count() as u64, LONG);
    assert!(taken < LONG as usize * MOST_OF_A_RUN, "{taken} bytes");
    println!("{taken} bytes");
}

#[test]
fn a_run_takes_as_little_memory_where_its_key_is_long() {
    let mut this = std::process::Command::new(std::env::current_exe().unwrap());
    this.args([
        "--exact",
        "--ignored",
        "--nocapture",
        "runs::tests::draft::takes_memory_for_runs_of_long_series",
    ]);
    let ended = this.output().unwrap();
    let said = [ended.stdout, ended.stderr].map(|text| String::from_utf8_lossy(&text).into_owned()).concat();
    assert!(ended.status.success() && said.contains("1 passed"), "{said}");
}
