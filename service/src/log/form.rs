//! Formats a line of the log: for people, or as a JSON object; under systemd with its priority.

use super::shown::all_shown;
use super::time::now;
use super::Log;
use serde_json::Value;
use std::fmt::Debug;
use std::sync::Arc;
use tracing::field::{Field, Visit};
use tracing::{Event, Level, Subscriber};
use tracing_subscriber::layer::{Context, Layer};

/// The environment variable by which journald names the device and the inode that it reads as standard error.
const JOURNAL: &str = "JOURNAL_STREAM";

/// The name that `tracing` gives to a line's text.
const TEXT: &str = "message";

/// The form of a log line.
#[derive(Clone, Copy, Debug, Default, PartialEq, Eq)]
pub struct Form {
    /// One JSON object a line, with `ts`, `level`, `msg` and the line's fields.
    pub is_json: bool,
    /// Each line begins with its priority, for journald.
    pub has_priority: bool,
}

impl Form {
    /// The form for this process.
    pub fn new(is_json: bool) -> Form {
        let named = std::env::var(JOURNAL).unwrap_or_default();
        Form { is_json, has_priority: is_standard_error(&named) }
    }

    /// Formats an event.
    fn event(self, level: Level, said: &Said) -> String {
        match self.is_json {
            true => self.object(level, &said.text, &said.fields),
            false => {
                self.lines(level, &format!("{} {level:>5} {}{}", now(), all_shown(&said.text), said.shown()))
            }
        }
    }

    /// Formats a message of the process itself, which may have several lines, for example of a panic.
    pub fn note(self, level: Level, text: &str) -> String {
        match self.is_json {
            true => self.object(level, text, &[]),
            false => self.lines(level, &format!("totxegun: {text}")),
        }
    }

    fn object(self, level: Level, text: &str, fields: &[(&str, Value)]) -> String {
        let own = [("ts", now()), ("level", level.to_string()), ("msg", all_shown(text))];
        let own = own.map(|(name, value)| (name, Value::from(value)));
        let members = own.iter().chain(fields);
        let members = members.map(|(name, value)| format!("{}:{value}", Value::from(*name)));
        let object = members.collect::<Vec<String>>().join(",");
        self.lines(level, &format!("{{{object}}}"))
    }

    fn lines(self, level: Level, text: &str) -> String {
        let priority = match self.has_priority {
            true => format!("<{}>", priority(level)),
            false => String::new(),
        };
        text.lines().map(|line| format!("{priority}{line}\n")).collect()
    }
}

/// The priority as in syslog: 3 is an error, 4 a warning, 5 a notice.
fn priority(level: Level) -> u8 {
    match level {
        Level::ERROR => 3,
        Level::WARN => 4,
        Level::INFO => 5,
        Level::DEBUG => 6,
        Level::TRACE => 7,
    }
}

/// Whether the variable names this process' standard error. A child process inherits the variable, but its standard
/// error may differ.
fn is_standard_error(named: &str) -> bool {
    use std::os::fd::AsRawFd;
    let found = nix::sys::stat::fstat(std::io::stderr().as_raw_fd());
    found.is_ok_and(|found| format!("{}:{}", found.st_dev, found.st_ino) == named)
}

/// Writes the events of `tracing` to the log.
pub struct Events(pub Arc<Log>);

impl<S: Subscriber> Layer<S> for Events {
    fn on_event(&self, event: &Event<'_>, _: Context<'_, S>) {
        let mut said = Said::default();
        event.record(&mut said);
        let line = self.0.form.event(*event.metadata().level(), &said);
        self.0.put(line.as_bytes());
    }
}

/// The text and the fields of an event.
#[derive(Default)]
struct Said {
    text: String,
    fields: Vec<(&'static str, Value)>,
}

impl Said {
    fn put(&mut self, field: &Field, value: impl Into<Value>) {
        match (field.name(), value.into()) {
            (TEXT, Value::String(text)) => self.text = text,
            (name, Value::String(text)) => self.fields.push((name, all_shown(&text).into())),
            (name, value) => self.fields.push((name, value)),
        }
    }

    /// The fields, as people read them after the text.
    fn shown(&self) -> String {
        self.fields.iter().map(|(name, value)| format!(" {name}={value}")).collect()
    }
}

impl Visit for Said {
    fn record_debug(&mut self, field: &Field, value: &dyn Debug) {
        self.put(field, format!("{value:?}"));
    }

    fn record_str(&mut self, field: &Field, value: &str) {
        self.put(field, value);
    }

    fn record_u64(&mut self, field: &Field, value: u64) {
        self.put(field, value);
    }

    fn record_i64(&mut self, field: &Field, value: i64) {
        self.put(field, value);
    }

    fn record_bool(&mut self, field: &Field, value: bool) {
        self.put(field, value);
    }
}

#[cfg(test)]
mod tests {
    use super::*;
    use crate::work::locked;
    use prometheus::IntCounter;
    use tracing_subscriber::prelude::*;

    /// The formatted line of one warning.
    fn written(is_json: bool, has_priority: bool) -> String {
        let form = Form { is_json, has_priority };
        let log = Arc::new(Log::new(IntCounter::new("lost", "lost").unwrap(), form));
        let registry = tracing_subscriber::registry().with(Events(log.clone()));
        tracing::subscriber::with_default(registry, || {
            let (sender, reason) = ("a", "x\u{1b}[2J \"y\"");
            tracing::warn!(sender, reason, points = 7, "points are\n<3>not taken");
            tracing::error!(target: "h2::codec", stream = 5, "lost");
        });
        let text = String::from_utf8(locked(&log.state).waiting.text.clone()).unwrap();
        text
    }

    #[test]
    fn people_read_one_line() {
        let text = written(false, false);
        let lines: Vec<&str> = text.lines().collect();
        assert_eq!(lines.len(), 2, "{text}");
        let fields = r#" sender="a" reason="x [2J \"y\"" points=7"#;
        assert!(lines[0].ends_with(&format!("Z  WARN points are <3>not taken{fields}")), "{text}");
        assert!(lines[1].ends_with("Z ERROR lost stream=5"), "{text}");
    }

    #[test]
    fn a_line_of_json_is_an_object_with_its_fields() {
        let text = written(true, false);
        let read = |line: &str| serde_json::from_str::<Value>(line).unwrap();
        let [warning, error] = text.lines().map(read).collect::<Vec<Value>>().try_into().unwrap();
        assert!(text.starts_with("{\"ts\":\"20"), "{text}");
        assert_eq!(warning["level"], "WARN");
        assert_eq!(warning["msg"], "points are <3>not taken");
        assert_eq!(warning["sender"], "a");
        assert_eq!(warning["reason"], "x [2J \"y\"");
        assert_eq!(warning["points"], 7);
        assert_eq!((&error["level"], &error["stream"]), (&"ERROR".into(), &5.into()));
    }

    #[test]
    fn journald_gets_priorities() {
        for is_json in [false, true] {
            let text = written(is_json, true);
            let begins: Vec<&str> = text.lines().map(|line| &line[..3]).collect();
            assert_eq!(begins, ["<4>", "<3>"], "{text}");
        }
        let form = Form { is_json: false, has_priority: true };
        assert_eq!(form.note(Level::ERROR, "a\nb"), "<3>totxegun: a\n<3>b\n");
        assert_eq!(priority(Level::INFO), 5);
    }

    #[test]
    fn another_standard_error_is_no_journal() {
        use std::os::unix::fs::MetadataExt;
        let own = std::fs::metadata("/proc/self/fd/2").unwrap();
        assert!(is_standard_error(&format!("{}:{}", own.dev(), own.ino())));
        for other in ["", "1:2", "x"] {
            assert!(!is_standard_error(other));
        }
    }
}
