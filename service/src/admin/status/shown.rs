//! The status in words: what `totxegun status` prints and the overview page shows.

use super::posts::advice;
use super::{held, quarantined, ClusterStatus, DatabaseStatus, First, Limit};
use super::{InstanceStatus, LimitsStatus, ShardStatus, Status, Stock};
use crate::command::values::{bytes_shown, counted, grouped, seconds_shown, sender_shown, senders_shown};
use crate::otlp::Reason;

/// The whole text, in its order.
#[derive(Debug, Default)]
pub struct Shown {
    /// The program's name and version, and the state of the service.
    pub how: [String; 2],
    /// What senders get if nothing is taken, and why.
    pub alarm: Option<[String; 2]>,
    /// The addresses and the sink.
    pub places: Vec<[String; 2]>,
    pub tiles: Vec<Tile>,
    /// The sections that have something to say.
    pub sections: Vec<Section>,
}

/// One of the main numbers.
#[derive(Debug)]
pub struct Tile {
    pub what: &'static str,
    pub value: String,
    /// Its class on the page, which is its colour.
    pub class: &'static str,
}

/// A title with notes and a table; either may be empty. Columns whose heads end in `#` have numbers.
#[derive(Debug)]
pub struct Section {
    pub title: &'static str,
    pub notes: Vec<String>,
    pub heads: &'static [&'static str],
    pub rows: Vec<Vec<String>>,
    /// How many more rows there are.
    pub more: usize,
}

impl Section {
    fn new(title: &'static str, heads: &'static [&'static str], rows: Vec<Vec<String>>) -> Section {
        Section { title, notes: Vec::new(), heads, rows, more: 0 }
    }

    fn of<T>(
        title: &'static str,
        heads: &'static [&'static str],
        all: &First<T>,
        row: impl Fn(&T) -> Vec<String>,
    ) -> Section {
        Section { more: all.more, ..Section::new(title, heads, all.first.iter().map(row).collect()) }
    }

    fn noting(self, notes: impl IntoIterator<Item = String>) -> Section {
        Section { notes: notes.into_iter().collect(), ..self }
    }

    fn is_empty(&self) -> bool {
        self.rows.is_empty() && self.notes.is_empty()
    }
}

impl Shown {
    pub fn of(status: &Status) -> Shown {
        let mut sections = vec![waits(status)];
        if let Some(cluster) = &status.cluster {
            sections.extend([instances(cluster), database(&cluster.database), shards(status)]);
        }
        sections.extend([
            refused(status),
            rejected(status),
            senders(status),
            limits(&status.limits),
            quotas(status),
            cumulative(status),
            rounded(status),
            rounded_series(status),
            late(status),
            dead(status),
        ]);
        sections.retain(|section| !section.is_empty());
        Shown {
            how: how(status),
            alarm: alarm(status),
            places: places(status),
            tiles: tiles(status),
            sections,
        }
    }
}

fn how(status: &Status) -> [String; 2] {
    let how = if status.ready { "ready" } else { "not ready" };
    let up = seconds_shown(status.uptime_seconds);
    [format!("totxegun {}", status.version), format!("{how}, up {up}, process {}", status.pid)]
}

/// Why posts get 503.
fn alarm(status: &Status) -> Option<[String; 2]> {
    let why = status.unavailable.as_deref()?;
    let why = match why {
        why if why == Reason::NoRoom.text() => format!("{why}: make room on the disk of {}", status.data),
        why if why == Reason::DiskSilent.text() => format!("{why}: look at the disk of {}", status.data),
        why => why.to_string(),
    };
    Some(["posts get 503".to_string(), why])
}

fn places(status: &Status) -> Vec<[String; 2]> {
    [("senders post to", &status.listen), ("data", &status.data), ("sink", &status.sink)]
        .map(|(what, value)| [what.to_string(), value.clone()])
        .into()
}

fn tiles(status: &Status) -> Vec<Tile> {
    let last = status.rates.last().copied().unwrap_or_default();
    let class_if = |is_so: bool, class: &'static str| if is_so { class } else { "" };
    let tile = |what, class, value| Tile { what, value, class };
    vec![
        tile("posts a second", "posted", grouped(last.taken.round())),
        tile("refused a second", class_if(last.refused > 0.0, "refused"), grouped(last.refused.round())),
        tile("requests delivered a second", "delivered", grouped(last.delivered.round())),
        tile(
            "requests wait for the sink",
            class_if(status.trouble().is_some(), "bad"),
            grouped(status.waiting()),
        ),
        tile("dead letters", class_if(status.dead_letters > 0, "bad"), grouped(status.dead_letters)),
        tile("series", "", grouped(status.series())),
    ]
}

/// What waits for a flush or for the sink.
fn waits(status: &Status) -> Section {
    let shards = &status.shards;
    let row = |what: &str, count: u64, stock: Stock| {
        let age = stock.age_seconds.map_or_else(String::new, seconds_shown);
        vec![what.to_string(), grouped(count), bytes_shown(stock.bytes), age]
    };
    let posts = shards.iter().map(|shard| shard.posts).sum();
    let mut rows = vec![
        row("posts, for a flush", posts, Stock::of_all(shards, |shard| &shard.journal)),
        row("requests, for the sink", status.waiting(), Stock::of_all(shards, |shard| &shard.outbox)),
    ];
    let held = held(shards);
    if held.posts > 0 {
        let stock = Stock { bytes: held.bytes, age_seconds: None };
        rows.push(row("posts of quarantined senders", held.posts, stock));
    }
    let names: Vec<String> = quarantined(shards).into_iter().map(String::from).collect();
    let quarantined =
        format!("quarantined: {}; `totxegun release NAME` once it is repaired", senders_shown(&names));
    let notes = of_deliveries(status).into_iter().chain((!names.is_empty()).then_some(quarantined));
    Section::new("What waits", &["what", "how many#", "on disk#", "oldest#"], rows).noting(notes)
}

/// Why the sink does not take what waits. If several shards have trouble, that of the first, and how many others have
/// some.
fn of_deliveries(status: &Status) -> Option<String> {
    let mut troubled = status.shards.iter().filter_map(|shard| Some((shard.shard, of_delivery(shard)?)));
    let (shard, trouble) = troubled.next()?;
    Some(match (&status.cluster, troubled.count()) {
        (None, _) => trouble,
        (Some(_), 0) => format!("shard {shard}: {trouble}"),
        (Some(_), more) => format!("shard {shard}, and {more} more: {trouble}"),
    })
}

fn of_delivery(shard: &ShardStatus) -> Option<String> {
    if let Some(why) = &shard.stuck {
        return Some(format!("the delivery stops: {why}"));
    }
    let why = shard.trouble.as_ref()?;
    let next = shard.next_try_seconds.map(seconds_shown);
    let next = next.map_or_else(String::new, |next| format!(" (the next in {next}, or at `totxegun flush`)"));
    Some(match shard.tries {
        0 => format!("no request is sent: {why}"),
        tries => format!("the sink has not taken a request in {}{next}: {why}", counted(tries, "attempt")),
    })
}

fn instances(cluster: &ClusterStatus) -> Section {
    let row = |one: &InstanceStatus| {
        vec![
            one.name.clone(),
            one.address.clone(),
            one.version.clone(),
            one.heartbeat_seconds.map_or_else(|| "none".into(), seconds_shown),
            grouped(one.shards),
            one.trouble.clone().unwrap_or_default(),
        ]
    };
    let rows = cluster.instances.iter().map(row).collect();
    let heads = &["name", "address", "version", "since its last beat#", "shards#", "what is wrong"];
    let of_which =
        "what waits, shards, quotas and dead letters are of all instances; posts, senders and limits of";
    Section::new("Instances", heads, rows).noting([format!("{of_which} {}", cluster.instance)])
}

fn database(one: &DatabaseStatus) -> Section {
    let copies = one.copies.map_or_else(|| "unknown".into(), |copies| copies.to_string());
    let is_few = one.copies.is_some_and(|copies| copies < one.copies_asked);
    let few = is_few.then(|| "fewer than --store-copies: look at its standby".to_string());
    let row = vec![
        one.database.clone(),
        format!("{copies} of {}", one.copies_asked),
        seconds_shown(one.unknown_outcome_seconds),
        one.why.clone().or(few).unwrap_or_default(),
    ];
    Section::new(
        "Database of the store",
        &["database", "copies#", "in doubt for#", "what is wrong"],
        vec![row],
    )
}

fn shards(status: &Status) -> Section {
    let row = |shard: &ShardStatus| {
        let oldest = shard.journal.age_seconds.max(shard.outbox.age_seconds);
        let unknown = shard.unknown.as_ref().map(|why| format!("nothing is known of it: {why}"));
        // If all posts get 503, the alarm has said why already.
        let refuses = shard.unavailable.as_ref().filter(|_| status.unavailable.is_none());
        let wrong = unknown.or(refuses.map(|why| format!("posts get 503: {why}"))).or(of_delivery(shard));
        let count = |count: u64| shard.unknown.as_ref().map_or_else(|| grouped(count), |_| "?".into());
        vec![
            shard.shard.to_string(),
            shard.owner.clone().unwrap_or_else(|| "nobody".into()),
            shard.term.map_or_else(String::new, grouped),
            count(shard.series as u64),
            count(shard.posts),
            count(shard.waiting),
            oldest.map_or_else(String::new, seconds_shown),
            wrong.unwrap_or_default(),
        ]
    };
    let heads =
        &["shard#", "instance", "term#", "series#", "posts#", "requests#", "oldest#", "what is wrong"];
    Section::new("Shards", heads, status.shards.iter().map(row).collect())
}

fn refused(status: &Status) -> Section {
    let heads = &["sender", "status", "posts#", "last#", "last answer", "what to do"];
    Section::of("Refused posts", heads, &status.refused, |of| {
        vec![
            sender_shown(&of.sender),
            of.reason.status().to_string(),
            grouped(of.posts),
            seconds_shown(of.last_seconds),
            of.answer.clone(),
            advice(&of.sender, of.reason, of.owner.as_deref()),
        ]
    })
}

fn rejected(status: &Status) -> Section {
    let heads = &["sender", "reason", "points#", "one metric", "what to do"];
    Section::of("Points not taken", heads, &status.rejected, |of| {
        let advice = advice(&of.sender, of.reason, of.owner.as_deref());
        let reason = of.reason.label().to_string();
        let metric = of.metric.clone().unwrap_or_default();
        vec![sender_shown(&of.sender), reason, grouped(of.points), metric, advice]
    })
}

fn senders(status: &Status) -> Section {
    let heads = &["sender", "last post#", "posts taken#", "refused#"];
    Section::of("Senders, by their last post", heads, &status.senders, |of| {
        vec![sender_shown(&of.sender), seconds_shown(of.last_seconds), grouped(of.taken), grouped(of.refused)]
    })
}

fn limits(limits: &LimitsStatus) -> Section {
    let row = |what: &str, of: Limit, shown: fn(u64) -> String, option: &str| {
        let part = format!("{:.0} %", 100.0 * of.used as f64 / of.limit.max(1) as f64);
        vec![what.to_string(), shown(of.used), shown(of.limit), part, option.to_string()]
    };
    let rows = vec![
        row("series", limits.series, grouped, "--max-series"),
        row("memory of the book", limits.memory_bytes, bytes_shown, "--max-memory"),
        row("memory of posts under way", limits.request_bytes, bytes_shown, "--max-bytes"),
    ];
    let free = limits.disk_free_bytes.map(|free| format!("free on the disk: {}", bytes_shown(free)));
    Section::new("Limits", &["what", "now#", "at most#", "used#", "option"], rows).noting(free)
}

fn quotas(status: &Status) -> Section {
    let most = |most: Option<u64>| most.map_or_else(String::new, grouped);
    let rows = status.quotas.iter().map(|of| {
        vec![
            sender_shown(&of.sender),
            grouped(of.series),
            most(of.max_series),
            grouped(of.points),
            most(of.max_points),
            format!("{:.0} %", 100.0 * of.part()),
        ]
    });
    let heads = &["nearest to its quota", "series#", "at most#", "points at once#", "at most#", "used#"];
    Section::new("Quotas", heads, rows.collect())
}

fn cumulative(status: &Status) -> Section {
    let of = &status.cumulative;
    let (series, noted) = (grouped(of.series), grouped(of.noted));
    let note = match of.noted {
        0 => format!("{series} series come cumulative"),
        _ => format!(
            "{series} series come cumulative; what {noted} had before their first point here is left out (--initial-value)"
        ),
    };
    Section::new("Cumulative series", &[], Vec::new()).noting((of.series > 0).then_some(note))
}

fn rounded(status: &Status) -> Section {
    let rows = status.rounded.iter().map(|of| {
        let together = of.in_its_unit(of.rounding.together);
        vec![of.rule.clone(), grouped(of.rounding.values), grouped(of.series), together]
    });
    Section::new("Rounded values", &["rule", "values#", "series#", "together by at most#"], rows.collect())
}

fn rounded_series(status: &Status) -> Section {
    let all = status.rounded.iter().flat_map(|of| of.greatest.iter().map(move |one| (of, one)));
    let rows = all.map(|(of, one)| {
        vec![
            of.in_its_unit(one.rounding.together),
            grouped(one.rounding.values),
            one.metric.clone(),
            one.attributes.clone(),
            one.resource.clone(),
        ]
    });
    let heads = &["rounded by at most#", "values#", "metric", "attributes", "resource"];
    Section::new("Series that were rounded by most", heads, rows.collect())
}

fn late(status: &Status) -> Section {
    let of = &status.late;
    let lost = match of.not_kept {
        0 => String::new(),
        lost => format!(
            "; {} are not kept, since the disk had no room, or they were too many at once",
            counted(lost, "point")
        ),
    };
    let note = format!(
        "{} that their series refused since the start are kept, with earlier ones in {}{lost}: `totxegun late` shows them, \
         `totxegun adjust --late KEY` books one",
        counted(of.kept, "point"),
        bytes_shown(of.bytes)
    );
    let has_some = of.bytes + of.kept + of.not_kept > 0;
    Section::new("Late data", &[], Vec::new()).noting(has_some.then_some(note))
}

fn dead(status: &Status) -> Section {
    let requests = counted(status.dead_letters, "request");
    let note = format!(
        "{requests} that the sink refused for good: `totxegun dead-letters list` has the reasons. Repair the sink, then `totxegun dead-letters \
         resend --all`; or `totxegun dead-letters drop KEY`, and its points are lost"
    );
    Section::new("DeadLetters letters", &[], Vec::new()).noting((status.dead_letters > 0).then_some(note))
}

#[cfg(test)]
mod tests;
