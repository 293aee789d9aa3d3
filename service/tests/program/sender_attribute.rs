//! Tests `--sender-attribute`: whoever a body says has posted it, its series belong to the sender who has proved its
//! name.

use crate::support::{field, fixed, Place, Service, PROGRAM};
use std::io::Write;
use std::process::{Command, Stdio};

const BY: &str = "posted.by";
const METHOD: &str = "opentelemetry.proto.collector.metrics.v1.MetricsService/Export";

/// The encoding of a body, and the temporality of its points.
#[derive(Clone, Copy, Debug, PartialEq)]
enum Form {
    Json,
    CumulativeJson,
    Protobuf,
    CumulativeProtobuf,
    Grpc,
}

const FORMS: [Form; 5] =
    [Form::Json, Form::CumulativeJson, Form::Protobuf, Form::CumulativeProtobuf, Form::Grpc];

impl Form {
    fn is_cumulative(self) -> bool {
        matches!(self, Form::CumulativeJson | Form::CumulativeProtobuf)
    }

    /// A body with a point of the series with this form's name. Its resource says that its sender is `claimed`.
    fn body(self, claimed: &str, end: u64, value: u64) -> Vec<u8> {
        let name = format!("{self:?}");
        // A cumulative run keeps its start.
        let (start, temporality) = if self.is_cumulative() { (10, 2) } else { (end - 10, 1) };
        match self {
            Form::Json | Form::CumulativeJson => format!(
                r#"{{"resourceMetrics":[{{"resource":{{"attributes":[{{"key":"{BY}","value":{{"stringValue":"{claimed}"}}}}]}},"scopeMetrics":[{{"metrics":[{{"name":"{name}","sum":{{"aggregationTemporality":{temporality},"isMonotonic":true,"dataPoints":[{{"asInt":"{value}","startTimeUnixNano":"{start}","timeUnixNano":"{end}"}}]}}}}]}}]}}]}}"#
            )
            .into(),
            _ => {
                let point = [fixed(2, start), fixed(3, end), fixed(6, value)].concat();
                let sum = [&field(1, &point)[..], &[0x10, temporality, 0x18, 1]].concat();
                let metric = [field(1, name.as_bytes()), field(7, &sum)].concat();
                let attribute = [field(1, BY.as_bytes()), field(2, &field(1, claimed.as_bytes()))].concat();
                let resource = field(1, &field(1, &attribute));
                field(1, &[resource, field(2, &field(2, &metric))].concat())
            }
        }
    }
}

struct Senders {
    place: Place,
    grpc: String,
    tokens: String,
}

impl Senders {
    /// Three senders, one of which may also post under another name.
    fn new() -> Senders {
        let place = Place::new();
        let path = place.folder.path().join("tokens");
        let names = ["shop-1", "shop-2", "collector/pos-*"];
        let lines = names.map(|name| {
            let made = Command::new(PROGRAM).args(["token", name]).output().unwrap();
            let token = String::from_utf8(made.stderr).unwrap();
            let token = token.split_whitespace().last().unwrap().to_string();
            (String::from_utf8(made.stdout).unwrap(), token)
        });
        std::fs::write(&path, lines.clone().map(|(line, _)| line).concat()).unwrap();
        for (name, (_, token)) in names.iter().zip(lines) {
            std::fs::write(place.folder.path().join(name.split('/').next().unwrap()), token).unwrap();
        }
        let listener = std::net::TcpListener::bind("127.0.0.1:0").unwrap();
        let grpc = listener.local_addr().unwrap().to_string();
        Senders { tokens: path.display().to_string(), grpc, place }
    }

    fn serve(&self, more: &[&str]) -> Service {
        let sink = self.place.sink();
        let words = [
            "--sink",
            &sink,
            "--tokens",
            &self.tokens,
            "--initial-value",
            "keep",
            "--listen-grpc",
            &self.grpc,
        ];
        self.place.serve_with(&[&words, more].concat())
    }

    /// Posts with this sender's token. Returns the status; for gRPC, 200 if the call succeeded.
    fn post(&self, service: &Service, sender: &str, more: &[&str], form: Form, body: &[u8]) -> String {
        let token = std::fs::read_to_string(self.place.folder.path().join(sender)).unwrap();
        let kind = match form {
            Form::Json | Form::CumulativeJson => "json",
            Form::Protobuf | Form::CumulativeProtobuf => "x-protobuf",
            Form::Grpc => "grpc",
        };
        let mut curl = Command::new("curl");
        curl.args(["-sS", "-i", "-H", &format!("Authorization: Bearer {token}"), "--data-binary", "@-"]);
        curl.args(["-H", &format!("Content-Type: application/{kind}")]).args(more);
        match form {
            Form::Grpc => {
                curl.args(["--http2-prior-knowledge", "-H", "te: trailers"]);
                curl.arg(format!("http://{}/{METHOD}", self.grpc))
            }
            _ => curl.arg(format!("http://{}/v1/metrics", service.listen)),
        };
        let mut curl = curl.stdin(Stdio::piped()).stdout(Stdio::piped()).spawn().unwrap();
        let length = (body.len() as u32).to_be_bytes();
        let framed = [&[0][..], &length, body].concat();
        curl.stdin.take().unwrap().write_all(if form == Form::Grpc { &framed } else { body }).unwrap();
        let answer = curl.wait_with_output().unwrap().stdout;
        let answer = String::from_utf8_lossy(&answer).to_lowercase();
        let status = answer.split_whitespace().nth(1).unwrap_or_default().to_string();
        match form {
            Form::Grpc if !answer.contains("grpc-status: 0") => answer,
            _ => status,
        }
    }

    /// What each sender has counted, over all forms, by the sender that the series name.
    fn counted(&self) -> Vec<(String, i64)> {
        let output = Command::new(PROGRAM).args(["totals", "--json", "--sink", &self.place.sink()]).output();
        let rows = String::from_utf8(output.unwrap().stdout).unwrap();
        let row = |row: &str| {
            let row: serde_json::Value = serde_json::from_str(row).unwrap();
            let by = row["resource"][BY].as_str().unwrap_or("nobody").to_string();
            (by, row["total"].as_str().unwrap().parse::<i64>().unwrap())
        };
        let mut counted = std::collections::BTreeMap::new();
        for (by, total) in rows.lines().map(row) {
            *counted.entry(by).or_default() += total;
        }
        counted.into_iter().collect()
    }
}

/// Without the option the thief has the series, and its owner is refused.
#[test]
fn another_s_series_can_t_be_taken() {
    let senders = Senders::new();
    let first = senders.serve(&[]);
    for form in FORMS {
        assert_eq!(
            senders.post(&first, "shop-2", &[], form, &form.body("shop-1", 100, 1)),
            "200",
            "{form:?}"
        );
        let refused = senders.post(&first, "shop-1", &[], form, &form.body("shop-1", 200, 2));
        assert!(refused != "200", "{form:?}: {refused}");
    }
    first.drain();
    assert_eq!(senders.counted(), [("shop-1".to_string(), FORMS.len() as i64)]);
    drop(first);

    let senders = Senders::new();
    let mut service = senders.serve(&["--sender-attribute", BY]);
    for (number, end) in (1..).zip([100, 200, 300]) {
        for form in FORMS {
            // The value of a cumulative sum so far.
            let value = |each: u64| if form.is_cumulative() { number * each } else { each };
            for (sender, each) in [("shop-2", 10), ("shop-1", 1)] {
                let body = form.body("shop-1", end, value(each));
                assert_eq!(
                    senders.post(&service, sender, &[], form, &body),
                    "200",
                    "{sender} {form:?} {end}"
                );
            }
            let body = form.body("shop-1", end, value(100));
            let header = ["-H", "x-sender: pos-7"];
            assert_eq!(senders.post(&service, "collector", &header, form, &body), "200", "{form:?} {end}");
        }
        service.kill();
        service = senders.serve(&["--sender-attribute", BY]);
    }
    service.drain();
    let forms = FORMS.len() as i64;
    let wanted = [("collector", 300), ("shop-1", 3), ("shop-2", 30)];
    let wanted = wanted.map(|(by, each)| (by.to_string(), forms * each));
    assert_eq!(senders.counted(), wanted);
    service.has_no_fault();
    assert_eq!(service.end(), Some(0));
}

/// Without tokens or certificates nobody has proved anything.
#[test]
fn it_is_refused_where_nobody_proves_who_it_is() {
    let place = Place::new();
    let sink = place.sink();
    let refused = |more: &[&str]| {
        let mut service = place.begin(&[&["--sink", &sink, "--sender-attribute", BY], more].concat());
        assert_eq!(service.status_of_end(), Some(2));
        place.log()
    };
    let log = refused(&[]);
    assert!(log.contains("here none does: give --tokens or --client-ca"), "{log}");
    refused(&["--behind-proxy"]);
}
