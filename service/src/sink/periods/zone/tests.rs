//! Offsets beside those that `date` says, and what is no zone.

use super::*;
use std::fmt::Write;
use std::io::Write as _;
use std::process::{Command, Stdio};

const ZONES: [&str; 14] = [
    "UTC",
    "Europe/Berlin",
    "Europe/Dublin",
    "America/New_York",
    "America/Sao_Paulo",
    "America/Nuuk",
    "Asia/Kolkata",
    "Asia/Gaza",
    "Asia/Tehran",
    "Africa/Casablanca",
    "Africa/Cairo",
    "Australia/Lord_Howe",
    "Pacific/Apia",
    "Pacific/Auckland",
];

fn zone(name: &str) -> Zone {
    name.parse().unwrap_or_else(|why| panic!("{why}"))
}

/// What `date` says of each time: the seconds by which clocks are ahead.
fn of_date(name: &str, times: &[i64]) -> Vec<i64> {
    let mut asked = String::new();
    times.iter().for_each(|time| writeln!(asked, "@{time}").unwrap());
    let mut date = Command::new("date")
        .env("TZ", name)
        .args(["-f", "-", "+%::z"])
        .stdin(Stdio::piped())
        .stdout(Stdio::piped())
        .spawn()
        .unwrap();
    let mut to = date.stdin.take().unwrap();
    let writing = std::thread::spawn(move || to.write_all(asked.as_bytes()).unwrap());
    let said = date.wait_with_output().unwrap().stdout;
    writing.join().unwrap();
    let offset = |line: &str| {
        let parts: Vec<i64> = line[1..].split(':').map(|part| part.parse().unwrap()).collect();
        (parts[0] * 3600 + parts[1] * 60 + parts[2]) * if line.starts_with('-') { -1 } else { 1 }
    };
    String::from_utf8(said).unwrap().lines().map(offset).collect()
}

/// From 1970 to 2099, every 13 hours, and around each change.
#[test]
fn offsets_are_those_that_date_says() {
    for name in ZONES {
        let zone = zone(name);
        let mut times: Vec<i64> = (0..130 * 366 * 24 / 13).map(|step| step * 13 * HOUR).collect();
        let changes = zone.changes.iter().map(|(time, _)| *time).filter(|time| *time > 0);
        times.extend(changes.flat_map(|time| [time - 1, time, time + 1]));
        let ours: Vec<i64> = times.iter().map(|time| zone.offset(*time)).collect();
        let theirs = of_date(name, &times);
        let differ = times.iter().zip(ours.iter().zip(&theirs)).find(|(_, (ours, theirs))| ours != theirs);
        assert_eq!((theirs.len(), differ), (times.len(), None), "{name}");
    }
}

/// Each rule that a file ends with, over the years that its changes tell too.
#[test]
fn the_rule_at_the_end_of_a_file_says_the_same_as_its_last_changes() {
    for name in ZONES {
        let zone = zone(name);
        let (Some(rule), Some((last, _))) = (&zone.rule, zone.changes.last()) else { continue };
        if *last < 2_000_000_000 {
            continue; // it has a change of its rules last, and no years that are alike
        }
        for time in (last - 5 * 366 * DAY..last - DAY).step_by(3 * HOUR as usize) {
            let is_moving = matches!(name, "Africa/Casablanca" | "Asia/Gaza");
            assert!(is_moving || rule.offset(time) == zone.offset(time), "{name} at {time}");
        }
    }
}

#[test]
fn rules_are_read() {
    let of = |text: &str| Rule::read(text).unwrap_or_else(|| panic!("{text}"));
    assert_eq!(of("<+0530>-5:30"), Rule { standard: 19_800, saving: None });
    let july = 1_783_000_000; // 2026-07-02
    let january = july - 180 * DAY;
    for (text, winter, summer) in [
        ("CET-1CEST,M3.5.0,M10.5.0/3", 1, 2),
        ("EST5EDT,M3.2.0,M11.1.0", -5, -4),
        ("NZST-12NZDT,M9.5.0,M4.1.0/3", 13, 12),
        ("IST-1GMT0,M10.5.0,M3.5.0/1", 0, 1),
        ("X3Y,J60/0,J300/0", -3, -2),
        ("X3Y,59/0,300/0", -3, -2),
    ] {
        let rule = of(text);
        assert_eq!((rule.offset(january), rule.offset(july)), (winter * HOUR, summer * HOUR), "{text}");
    }
    for text in
        ["", "CET", "CET-1CEST", "CET-1CEST,M3.5.0", "CET-1CEST,M3.5,M10.5.0", "CET-1CEST,M3.5.0,M10.5.0,"]
    {
        assert_eq!(Rule::read(text), None, "{text}");
    }
}

#[test]
fn what_is_no_zone_is_refused_by_name() {
    for (name, part) in [
        ("Europe/Atlantis", "no time zone Europe/Atlantis is known here"),
        ("../zoneinfo/Europe/Berlin", "is no time zone: write one as Europe/Berlin"),
        ("/etc/passwd", "is no time zone"),
        ("", "is no time zone"),
        ("zone1970+tab", "no time zone zone1970+tab is known here"),
    ] {
        let why = name.parse::<Zone>().unwrap_err();
        assert!(why.contains(part), "{name}: {why}");
    }
    let bytes = std::fs::read("/usr/share/zoneinfo/Europe/Berlin").unwrap();
    for cut in 0..bytes.len() {
        assert_eq!(Zone::read("cut", &bytes[..cut]), None, "{cut}");
    }
    assert_eq!(Zone::read("none", b"TZif"), None);
}
