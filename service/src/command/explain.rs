//! `totxegun explain`: says how a captured request is answered, and of each of its points what becomes of it and why.
//!
//! It calls the functions of `otlp` that the service calls, so what it says holds there too, except for what only the
//! running service knows (`UNKNOWN`).

use super::reading_options::ReadingOptions;
use super::table::Table;
use super::values::counted;
use super::{json, Ended, Form};
use crate::ingest::refusal::Refusal;
use crate::otlp::{self, Attributed, Clock, Encoding, Explained, Outcome, Profile, Reading, Refused};
use crate::otlp::{Rounding, SenderNames};
use crate::post_reports::of_twice;
use anyhow::{anyhow, Context};
use clap::Args;
use serde::Serialize;
use std::collections::BTreeMap;
use std::io::Read;
use std::path::{Path, PathBuf};

/// The longest body that the service takes, packed and unpacked.
const MOST: u64 = 4 << 20;
/// One byte more than the longest gRPC message has. What is longer is refused, so it is not read on.
const MOST_READ: u64 = MOST + 6;

/// What the body alone can't tell.
const UNKNOWN: &str = "unless the running service refuses it for what it alone knows: whose each series is and where it ends, who is \
                       quarantined, quotas and limits\n";

#[derive(Args)]
pub struct Options {
    /// The body of a request in JSON or protobuf, plain or gzip, or a gRPC message; `-` is standard input
    #[arg(value_name = "FILE")]
    file: PathBuf,
    /// The sender: the name of its certificate or token, else of its header x-sender
    #[arg(long, value_name = "NAME", value_parser = super::ask::sender)]
    sender: Option<String>,
    #[command(flatten)]
    form: Form,
    /// The service's file of settings; only those of reading count here
    #[arg(long, env = super::config::VARIABLE, value_name = "FILE")]
    config: Option<PathBuf>,
    #[command(flatten)]
    reading: ReadingOptions,
}

/// What was found.
#[derive(Debug, Serialize)]
struct Explanation {
    encoding: &'static str,
    packed: bool,
    /// The sender, unless a header or a token names another.
    sender: String,
    /// The attribute that is set to the name which the sender proves, and how many resources get it.
    sender_attribute: Option<String>,
    proved: usize,
    /// How many resources get their sender's name as their instance.
    named: usize,
    /// The length of the unpacked body.
    bytes: usize,
    /// The status and text of the HTTP answer, if the running service refuses nothing for what only it knows.
    status: u16,
    answer: Option<String>,
    taken: usize,
    rejected: usize,
    /// The indexes of points that begin before an earlier point of their series ends.
    late: Vec<usize>,
    rounded: BTreeMap<String, Rounding>,
    points: Vec<Explained>,
}

impl Options {
    pub fn run(self) -> Result<Vec<u8>, Ended> {
        let clock = self.reading.clock();
        let reading = self.reading.reading().map_err(Ended::Line)?;
        let body = read(&self.file).with_context(|| format!("{} can't be read", self.file.display()))?;
        let found = found(body, self.sender, &reading, &clock)?;
        match self.form.json {
            true => Ok(json(&found)?),
            false => Ok(text(&found).into()),
        }
    }
}

fn read(file: &Path) -> std::io::Result<Vec<u8>> {
    let mut body = Vec::new();
    match file.to_str() {
        Some("-") => std::io::stdin().lock().take(MOST_READ).read_to_end(&mut body)?,
        _ => std::fs::File::open(file)?.take(MOST_READ).read_to_end(&mut body)?,
    };
    Ok(body)
}

fn found(
    body: Vec<u8>,
    sender: Option<String>,
    reading: &Reading,
    clock: &Clock,
) -> anyhow::Result<Explanation> {
    let (framed, body) = unframed(body);
    let (packed, body) = unpacked(not_too_long(body)?)?;
    let (_, body) = unpacked(not_too_long(body)?)?; // as in the service: Python's gRPC packs some messages twice
    let body = not_too_long(body)?;
    let bytes = body.len();
    let encoding = if framed { Encoding::Protobuf } else { Encoding::of(&body) };
    let sender = sender.unwrap_or_else(|| otlp::NO_NAME.into());
    let sender = otlp::sender(sender, encoding, &body, reading).map_err(refused)?;
    // A header or a token may name the sender. Here any name will do.
    let name = if sender == otlp::NO_NAME { "SENDER" } else { &sender };
    let names = SenderNames { name, proved: Some(name) };
    let attributed = otlp::with_sender_attributes(names, encoding, body.into(), reading).map_err(refused)?;
    let Attributed { body, proved, instances: named } = attributed;
    let prepared = otlp::prepare(encoding, body, reading).map_err(refused)?;
    let (body, profile, window) = (&prepared.body, reading.profile, clock.window());
    let points = otlp::explained(body, profile, window).context("refused with 400: wrong shape")?;
    let rejected = points.iter().filter(|point| point.foreign.is_some()).count();
    let (outcome, late) = otlp::answered(body, profile, window).context("refused with 400: wrong shape")?;
    let outcome = with_twice(outcome, body, profile).with(&prepared.rounded);
    Ok(Explanation {
        encoding: match encoding {
            Encoding::Json => "JSON",
            Encoding::Protobuf => "protobuf",
        },
        packed,
        sender,
        sender_attribute: reading.sender_attribute.clone(),
        proved,
        named,
        bytes,
        status: outcome.status(),
        answer: outcome.message(),
        taken: points.len() - rejected - late.len(),
        rejected,
        late,
        rounded: prepared.rounded.by_rule.into_iter().collect(),
        points,
    })
}

/// Adds to a refused point's message that the body itself has its series twice over one time, if so.
fn with_twice(mut outcome: Outcome, body: &[u8], profile: Profile) -> Outcome {
    if let Outcome::Taken { parts, .. } = &mut outcome {
        for (_, rejection) in parts {
            let at = rejection.point.and_then(|point| Some((point.place, point.frontier?)));
            let more = at.and_then(|at| of_twice(body, profile, at));
            rejection.message += &more.unwrap_or_default();
        }
    }
    outcome
}

fn refused(refused: Refused) -> anyhow::Error {
    anyhow!("refused with 400: {refused}")
}

fn not_too_long(body: Vec<u8>) -> anyhow::Result<Vec<u8>> {
    match body.len() as u64 > MOST {
        true => Err(anyhow!("refused with 413: {}", Refusal::TooLong)),
        false => Ok(body),
    }
}

/// Takes a gRPC message out of its frame. It begins with a flag for packing and its length; JSON and protobuf never
/// begin so.
fn unframed(body: Vec<u8>) -> (bool, Vec<u8>) {
    let length = |bytes: &[u8]| bytes.try_into().map(u32::from_be_bytes).map(|length| length as usize);
    match body.get(1..5).map(length) {
        Some(Ok(length)) if body[0] < 2 && body.len() == 5 + length => (true, body[5..].to_vec()),
        _ => (false, body),
    }
}

fn unpacked(body: Vec<u8>) -> anyhow::Result<(bool, Vec<u8>)> {
    if !body.starts_with(&[0x1f, 0x8b]) {
        return Ok((false, body));
    }
    let mut plain = Vec::new();
    flate2::read::MultiGzDecoder::new(&body[..])
        .take(MOST + 1)
        .read_to_end(&mut plain)
        .context("refused with 400: bad compression: the body is not valid gzip")?;
    Ok((true, plain))
}

fn text(found: &Explanation) -> String {
    let packing = if found.packed { ", gzip" } else { "" };
    let mut text = format!(
        "{}{packing}, {} bytes: {} taken, {} rejected\n",
        found.encoding,
        found.bytes,
        counted(found.taken as u64, "point"),
        found.rejected
    );
    if found.sender != otlp::NO_NAME {
        text.push_str(&format!("of the sender {}, where no header names another\n", found.sender));
    }
    if let Some(attribute) = &found.sender_attribute {
        let resources = counted(found.proved as u64, "resource");
        text.push_str(&format!("{resources}: {attribute} is the name that the sender proves\n"));
    }
    if found.named > 0 {
        let resources = counted(found.named as u64, "resource");
        text.push_str(&format!("{resources} without a service.instance.id: the sender's name is given\n"));
    }
    text.push_str(&format!("answered {}", found.status));
    match &found.answer {
        Some(answer) => text.push_str(&format!(": {answer}\n")),
        None => text.push('\n'),
    }
    text.push_str(UNKNOWN);
    for (rule, rounded) in &found.rounded {
        text.push_str(&format!(
            "values rounded by {rule}: {}, by {:.3} together\n",
            rounded.values, rounded.together
        ));
    }
    if found.points.is_empty() {
        return text;
    }
    let mut table = Table::new(&["", "kind", "metric", "attributes", "why"]);
    for (place, point) in found.points.iter().enumerate() {
        let said = match point.foreign {
            Some(_) => "rejected",
            None if found.late.contains(&place) => "refused",
            None => "taken",
        };
        let why = point.foreign.as_deref().unwrap_or("");
        table.row(&[said, point.kind, &point.metric, &point.attributes, why]);
    }
    format!("{text}{table}")
}

#[cfg(test)]
mod tests {
    use super::*;
    use std::io::Write;
    use std::time::Duration;

    const BODY: &str = r#"{"resourceMetrics":[{"scopeMetrics":[{"metrics":[{"name":"a","sum":{"aggregationTemporality":1,"dataPoints":[{"startTimeUnixNano":"1","timeUnixNano":"2","asInt":"5","attributes":[{"key":"route","value":{"stringValue":"/"}}]}]}},{"name":"b","gauge":{"dataPoints":[{"asDouble":0.5}]}}]}]}]}"#;

    /// Without options.
    fn plain(body: impl Into<Vec<u8>>) -> anyhow::Result<Explanation> {
        found(body.into(), None, &Reading::default(), &Clock::default())
    }

    #[test]
    fn each_point_is_told_of() {
        let found = plain(BODY).unwrap();
        let text = text(&found);
        assert!(text.starts_with("JSON, ") && text.contains("1 point taken, 1 rejected"), "{text}");
        let lines: Vec<&str> = text.lines().collect();
        assert_eq!(
            lines[1],
            "answered 200: points outside the profile: 1 gauge: see docs/OPERATING.md, \"Senders\""
        );
        assert!(lines[2].starts_with("unless the running service refuses it"), "{text}");
        assert!(lines[4].starts_with("taken     sum    a       route=/"), "{text}");
        assert!(lines[5].contains("gauges are not added up"), "{text}");
    }

    /// One of six points begins before another of its series ends, so it is left out.
    #[test]
    fn a_point_that_its_body_has_before_is_no_point_taken() {
        let point = |(series, value): &(u32, u32)| {
            format!(
                r#"{{"startTimeUnixNano":"1","timeUnixNano":"9","asInt":"{value}","attributes":[{{"key":"n","value":{{"intValue":"{series}"}}}}]}}"#
            )
        };
        let of = |points: &[(u32, u32)]| {
            let points = points.iter().map(point).collect::<Vec<_>>().join(",");
            let sum = format!(r#"{{"aggregationTemporality":1,"dataPoints":[{points}]}}"#);
            format!(
                r#"{{"resourceMetrics":[{{"scopeMetrics":[{{"metrics":[{{"name":"a","sum":{sum}}}]}}]}}]}}"#
            )
        };
        let explained = |fourth| plain(of(&[(0, 5), (1, 5), (2, 5), (3, 5), fourth, (5, 5)])).unwrap();
        let found = explained((1, 6));
        let told = text(&found);
        assert_eq!((found.status, found.taken, found.rejected), (200, 5, 0));
        assert!(told.contains("5 points taken, 0 rejected\nanswered 200: 1 point is refused: duplicate or late: point 4, frontier 9: the post has `a`"), "{told}");
        assert!(told.contains("twice over one time") && told.matches("\nrefused ").count() == 1, "{told}");
        // The fourth point equals an earlier one, so it is a duplicate; or it is of another series.
        for fourth in [(1, 5), (4, 5)] {
            let found = explained(fourth);
            assert_eq!(
                (found.status, found.taken, text(&found).contains("\nanswered 200\n")),
                (200, 6, true)
            );
        }
    }

    #[test]
    fn a_point_that_is_off_by_its_clock_is_told_of() {
        let ahead = BODY.replace("timeUnixNano\":\"2\"", &format!("timeUnixNano\":\"{}\"", u64::MAX));
        let clock = Clock { max_ahead: Some(Duration::from_secs(600)), max_age: None };
        let told = text(&found(ahead.into(), None, &Reading::default(), &clock).unwrap());
        assert!(told.contains("0 points taken, 2 rejected") && told.contains("d ahead"), "{told}");
        let old = text(&found(BODY.into(), None, &Reading::default(), &clock).unwrap());
        assert!(old.contains("1 point taken"), "{old}");
    }

    #[test]
    fn a_sender_is_found() {
        let reading = Reading { sender_from: Some("id".to_string()), ..Reading::default() };
        let body =
            r#"{"resourceMetrics":[{"resource":{"attributes":[{"key":"id","value":{"stringValue":"a"}}]}}]}"#;
        let named = text(&found(body.into(), None, &reading, &Clock::default()).unwrap());
        assert!(named.contains("of the sender a,"), "{named}");
        let error = found(body.replace(r#""a""#, r#""""#).into(), None, &reading, &Clock::default())
            .unwrap_err()
            .to_string();
        assert!(error.contains("refused with 400: no sender"), "{error}");
    }

    #[test]
    fn a_resource_that_gets_the_senders_name_is_told_of() {
        let reading = Reading { instance_from_sender: true, ..Reading::default() };
        let told = text(&found(BODY.into(), None, &reading, &Clock::default()).unwrap());
        assert!(told.contains("1 resource without a service.instance.id: "), "{told}");
    }

    #[test]
    fn the_name_that_a_sender_proves_is_told_of() {
        let reading = Reading { sender_attribute: Some("posted.by".into()), ..Reading::default() };
        for sender in [None, Some("shop-1".to_string())] {
            let found = found(BODY.into(), sender, &reading, &Clock::default()).unwrap();
            let told = text(&found);
            assert!(told.contains("1 resource: posted.by is the name that the sender proves"), "{told}");
        }
    }

    #[test]
    fn forms_are_recognised() {
        let gzip = |plain: &[u8]| {
            let mut packer = flate2::write::GzEncoder::new(Vec::new(), flate2::Compression::default());
            packer.write_all(plain).unwrap();
            packer.finish().unwrap()
        };
        let once = gzip(BODY.as_bytes());
        // A body that is packed twice is taken too.
        for body in [gzip(&once), once] {
            let packed = plain(body).unwrap();
            assert!(packed.packed && packed.encoding == "JSON" && packed.taken == 1);
        }
        // A protobuf body may begin like JSON: a line feed and a brace are its first field and that field's length.
        let scope = [&b"\x12\x77\x12\x75\x0a\x73"[..], &[b'n'; 115]].concat();
        let body = [&b"\x0a{\x12\x79"[..], &scope].concat();
        let bare = plain(body.clone()).unwrap();
        assert_eq!((bare.encoding, bare.taken), ("protobuf", 0));
        let message = [&[0, 0, 0, 0, body.len() as u8][..], &body].concat();
        assert_eq!(plain(message).unwrap().bytes, body.len());
        assert_eq!(plain("").unwrap().encoding, "protobuf");
        let mut long = b"\x1f\x8b".to_vec();
        long.resize(MOST as usize + 1, 0);
        let error = plain(long).unwrap_err().to_string();
        assert_eq!(
            error, "refused with 413: body too long: over 4194304 bytes, compressed or not: post fewer points at a time",
            "also where it is packed"
        );
        for (body, why) in
            [("{", "refused with 400: not JSON"), ("\x1f\u{8b}", "400"), ("x", "400: not protobuf")]
        {
            let error = format!("{:#}", plain(body).unwrap_err());
            assert!(error.contains(why), "{error}");
        }
    }
}
