//! Tests the words of a status.

use super::*;
use crate::admin::status::{CumulativeStatus, RoundedStatus};
use crate::journal::Held;
use crate::metrics::RoundedSeries;
use crate::otlp::Rounding;
use crate::quota::Used;

fn status(quarantined: &[&str]) -> Status {
    let shard = ShardStatus {
        quarantined: quarantined.iter().map(ToString::to_string).collect(),
        ..ShardStatus::default()
    };
    Status {
        version: "0".into(),
        pid: 1,
        uptime_seconds: 2,
        ready: true,
        listen: "127.0.0.1:4318".into(),
        data: "/data".into(),
        sink: "/data/metrics.db".into(),
        limits: LimitsStatus {
            series: Limit { used: 25_000, limit: 100_000 },
            memory_bytes: Limit { used: 1 << 20, limit: 1 << 30 },
            ..LimitsStatus::default()
        },
        shards: vec![shard],
        ..Status::default()
    }
}

fn section(status: &Status, title: &str) -> Section {
    let found = Shown::of(status).sections.into_iter().find(|section| section.title == title);
    found.unwrap_or_else(|| panic!("there is no {title}"))
}

/// The notes on what waits.
fn notes(status: &Status) -> Vec<String> {
    section(status, "What waits").notes
}

#[test]
fn why_posts_are_refused_is_said_with_what_to_do() {
    let mut told = status(&[]);
    let shown = Shown::of(&told);
    assert_eq!(shown.how, ["totxegun 0", "ready, up 2 s, process 1"]);
    assert_eq!(shown.alarm, None);
    told.ready = false;
    for (reason, more) in [
        (Reason::NoRoom, ": make room on the disk of /data"),
        (Reason::DiskSilent, ": look at the disk of /data"),
        (Reason::Recovering, ""),
    ] {
        told.unavailable = Some(reason.text().into());
        let shown = Shown::of(&told);
        assert_eq!(shown.how[1], "not ready, up 2 s, process 1");
        let why = format!("{}{more}", reason.text());
        assert_eq!(shown.alarm.unwrap(), ["posts get 503", why.as_str()]);
    }
}

#[test]
fn what_is_not_there_is_not_spoken_of() {
    let titles: Vec<_> = Shown::of(&status(&[])).sections.iter().map(|section| section.title).collect();
    assert_eq!(titles, ["What waits", "Limits"]);
    let limits = section(&status(&[]), "Limits");
    assert_eq!(limits.rows[0], ["series", "25,000", "100,000", "25 %", "--max-series"]);
    assert_eq!(limits.rows[1], ["memory of the book", "1.0 MiB", "1.0 GiB", "0 %", "--max-memory"]);
}

/// A sender is quarantined in each shard of a store.
#[test]
fn who_is_quarantined_in_several_shards_is_shown_once() {
    let told = |senders: &str| format!("quarantined: {senders}; `totxegun release NAME` once it is repaired");
    assert_eq!(notes(&status(&["-"])), [told("1 sender: - (who names none)")]);
    let mut both = status(&["A", "B"]);
    let held = Held { senders: 1, posts: 3, bytes: 2048 };
    both.shards[0].parked = held;
    both.shards.extend(status(&["A"]).shards);
    both.shards[1].parked = held;
    let shown = section(&both, "What waits");
    assert_eq!(shown.notes, [told("2 senders: A, B")]);
    assert_eq!(shown.rows[2], ["posts of quarantined senders", "6", "4.0 KiB", ""]);
}

#[test]
fn why_nothing_is_delivered_is_said() {
    let mut told = status(&[]);
    assert_eq!(notes(&told), Vec::<String>::new());
    told.shards[0].trouble = Some("503".into());
    assert_eq!(notes(&told), ["no request is sent: 503"]);
    told.shards[0].tries = 2;
    assert_eq!(notes(&told), ["the sink has not taken a request in 2 attempts: 503"]);
    told.shards[0].next_try_seconds = Some(3);
    assert_eq!(
        notes(&told),
        ["the sink has not taken a request in 2 attempts (the next in 3 s, or at `totxegun flush`): 503"]
    );
    told.shards[0].stuck = Some("1.seg, byte 9: was changed".into());
    assert_eq!(notes(&told), ["the delivery stops: 1.seg, byte 9: was changed"]);
    told.shards.extend(status(&[]).shards);
    told.shards[1] = ShardStatus { shard: 7, trouble: Some("503".into()), ..ShardStatus::default() };
    told.cluster = Some(ClusterStatus::default());
    assert_eq!(notes(&told), ["shard 0, and 1 more: the delivery stops: 1.seg, byte 9: was changed"]);
}

#[test]
fn requests_that_the_sink_refused_for_good_are_counted_with_what_to_do() {
    let dead = section(&Status { dead_letters: 1, ..status(&[]) }, "DeadLetters letters");
    assert!(
        dead.notes[0].starts_with("1 request that the sink refused for good: `totxegun dead-letters list`")
    );
    assert_eq!(Shown::of(&Status { dead_letters: 1, ..status(&[]) }).tiles[4].class, "bad");
}

#[test]
fn senders_are_shown_beside_their_shares() {
    let used = |sender: &str, max_series, max_points| Used {
        sender: sender.into(),
        series: 9,
        max_series,
        points: 3_000,
        max_points,
    };
    let quotas = vec![used("A", Some(10), Some(6_000)), used("-", None, Some(60_000))];
    let shown = section(&Status { quotas, ..status(&[]) }, "Quotas");
    assert_eq!(shown.rows[0], ["A", "9", "10", "3,000", "6,000", "90 %"]);
    assert_eq!(shown.rows[1], ["- (who names none)", "9", "", "3,000", "60,000", "5 %"]);
}

#[test]
fn what_is_left_out_of_totals_is_said() {
    let noted = |noted| {
        let cumulative = CumulativeStatus { series: 1_200, noted };
        section(&Status { cumulative, ..status(&[]) }, "Cumulative series").notes.remove(0)
    };
    assert_eq!(noted(0), "1,200 series come cumulative");
    assert!(noted(7).contains("what 7 had before their first point here is left out"), "{}", noted(7));
}

fn rounded(rule: &str, greatest: Vec<RoundedSeries>) -> RoundedStatus {
    let rounding = Rounding { values: 12_000, together: 3.00001 };
    RoundedStatus { rule: rule.into(), rounding, series: 2, greatest }
}

#[test]
fn the_series_that_were_rounded_by_most_are_shown() {
    let series = |metric: &str, attributes: &str, together| RoundedSeries {
        metric: metric.into(),
        attributes: attributes.into(),
        resource: "service.name=shop".into(),
        rounding: Rounding { values: 6, together },
    };
    let one = rounded("s=1000000:us", vec![series("wait", "", 2.5), series("wait", "route=/", 0.50001)]);
    let told = Status { rounded: vec![one, rounded("=1:", vec![series("", "", 0.25)])], ..status(&[]) };
    assert_eq!(section(&told, "Rounded values").rows[0], ["s=1000000:us", "12,000", "2", "3.001 us"]);
    let rows = section(&told, "Series that were rounded by most").rows;
    assert_eq!(rows[0], ["2.500 us", "6", "wait", "", "service.name=shop"]);
    assert_eq!(rows[1], ["0.501 us", "6", "wait", "route=/", "service.name=shop"]);
    assert_eq!(rows[2], ["0.250", "6", "", "", "service.name=shop"]);
}

#[test]
fn instances_databases_and_shards_are_shown() {
    let instance = |name: &str, shards, trouble: Option<&str>| InstanceStatus {
        name: name.into(),
        address: format!("{name}:4320"),
        version: "1.0".into(),
        heartbeat_seconds: Some(shards as u64),
        shards,
        trouble: trouble.map(String::from),
    };
    let database = |copies, unknown_outcome_seconds, why: Option<&str>| DatabaseStatus {
        database: "db/x".into(),
        copies,
        copies_asked: 2,
        why: why.map(String::from),
        unknown_outcome_seconds,
    };
    let shard = |shard, owner: Option<&str>, unknown: Option<&str>| ShardStatus {
        shard,
        owner: owner.map(String::from),
        term: Some(1_234),
        waiting: 5,
        unknown: unknown.map(String::from),
        ..ShardStatus::default()
    };
    let cluster = ClusterStatus {
        instance: "a".into(),
        instances: vec![instance("a", 1, None), instance("b", 75, Some("it is ending"))],
        database: database(Some(2), 0, None),
    };
    let mut told = Status {
        shards: vec![shard(0, Some("a"), None), shard(7, None, Some("no instance has it"))],
        cluster: Some(cluster),
        ..status(&[])
    };
    let instances = section(&told, "Instances");
    assert_eq!(instances.rows[0], ["a", "a:4320", "1.0", "1 s", "1", ""]);
    assert_eq!(instances.rows[1], ["b", "b:4320", "1.0", "1 min 15 s", "75", "it is ending"]);
    assert_eq!(section(&told, "Database of the store").rows[0], ["db/x", "2 of 2", "0 s", ""]);
    let of = |one: DatabaseStatus| super::database(&one).rows.remove(0);
    let few = "fewer than --store-copies: look at its standby";
    assert_eq!(of(database(Some(1), 12, None)), ["db/x", "1 of 2", "12 s", few]);
    let away = "it does not answer";
    assert_eq!(of(database(None, 0, Some(away))), ["db/x", "unknown of 2", "0 s", away]);
    let shards = section(&told, "Shards").rows;
    assert_eq!(shards[0], ["0", "a", "1,234", "0", "0", "5", "", ""]);
    let unknown = "nothing is known of it: no instance has it";
    assert_eq!(shards[1], ["7", "nobody", "1,234", "?", "?", "?", "", unknown]);
    // A shard that is recovering while posts of other shards are taken.
    told.shards[0].unavailable = Some("recovering".into());
    assert_eq!(section(&told, "Shards").rows[0][7], "posts get 503: recovering");
    told.unavailable = Some("recovering".into());
    assert_eq!(section(&told, "Shards").rows[0][7], "", "it is said once, of all");
}
