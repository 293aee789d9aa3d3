//! The points that seed a book.

use crate::book::{Names, SharedBook};
use crate::otlp::series::{request_of, zeros, SeriesKey, KINDS, VALUES};

/// Otherwise a late repeat would be taken, and a posted point would belong to another series than the seeded one.
#[test]
fn what_primes_is_of_the_series_that_its_key_names() {
    let lists =
        VALUES.map(|value| format!(r#"[{{"key":"","value":{value}}},{{"key":"é","value":{value}}}]"#));
    let mut keys = Vec::new();
    for list in &lists {
        for kind in KINDS {
            keys.push(format!(r#"[{list},"","",[],"m","",{kind},[]]"#));
            keys.push(format!(r#"[[],"s","\"1",{list},"m","é",{kind},[]]"#));
            keys.push(format!(r#"[[],"s","\"1",[],"m\\","é",{kind},{list}]"#));
        }
    }
    let series = || keys.iter().map(|key| (SeriesKey(key.as_str().into()), 9));
    let (shared_book, names) = (SharedBook::new(1).unwrap(), Names::new().unwrap());
    for body in zeros(series()).unwrap() {
        let mut read = shared_book.read("A".into(), body.into()).unwrap();
        assert_eq!((read.points(), read.post.foreign, read.ends()), (keys.len() as u64, 0, Some((9, 9))));
        read.note(&names);
    }
    for (number, (key, _)) in (0..).zip(series()) {
        assert_eq!(names.number_of(request_of(&key, 2).unwrap().as_bytes()), Ok(number), "{key:?}");
    }
}
