//! Remembers which sink gets the folder's requests, so that a start with another sink is noticed.

use super::{locked, Fault, Folder};
use serde::{Deserialize, Serialize};
use std::fmt::{Display, Formatter};

/// How many digits of an id are shown.
const SHOWN: usize = 8;

/// A sink, as a folder remembers it.
#[derive(Clone, Debug, PartialEq, Eq, Serialize, Deserialize)]
pub struct KnownSink {
    /// `sqlite`, `postgres` or `otlp`.
    pub kind: String,
    /// Without a password, on one line.
    pub address: String,
    /// The id in the sink's schema; none until the sink was first reached.
    pub id: Option<String>,
}

impl KnownSink {
    pub fn new(kind: &str, address: &str) -> KnownSink {
        let on_one_line = |char: char| match char.is_control() {
            true => char.escape_default().to_string(),
            false => char.to_string(),
        };
        KnownSink { kind: kind.into(), address: address.chars().map(on_one_line).collect(), id: None }
    }

    pub fn with_id(&self, id: Option<&str>) -> KnownSink {
        KnownSink { id: id.map(String::from), ..self.clone() }
    }

    pub fn is_at(&self, other: &KnownSink) -> bool {
        self.kind == other.kind && self.address == other.address
    }

    /// Whether this remembered sink is the one that was reached. Its id decides, whatever the address is now; until an
    /// id is known, the address does.
    pub fn is(&self, met: &KnownSink) -> bool {
        match &self.id {
            Some(_) => self.kind == met.kind && self.id == met.id,
            None => self.is_at(met),
        }
    }

    /// The text that a store keeps.
    pub(crate) fn text(&self) -> serde_json::Result<String> {
        serde_json::to_string(self)
    }

    /// Parses such a text; none if it is empty.
    pub(crate) fn of_text(text: &str) -> serde_json::Result<Option<KnownSink>> {
        match text {
            "" => Ok(None),
            text => serde_json::from_str(text).map(Some),
        }
    }
}

impl Display for KnownSink {
    fn fmt(&self, formatter: &mut Formatter<'_>) -> std::fmt::Result {
        write!(formatter, "{} {}", self.kind, self.address)?;
        match &self.id {
            Some(id) => write!(formatter, " (id {})", id.get(..SHOWN).unwrap_or(id)),
            None => Ok(()),
        }
    }
}

impl Folder {
    /// The sink that an earlier start has reached; none in a new folder.
    pub fn sink(&self) -> Option<KnownSink> {
        locked(&self.version).sink.clone()
    }

    /// On success this is durable; on failure it is not done.
    pub fn set_sink(&self, sink: KnownSink) -> Result<(), Fault> {
        self.change(|version| version.sink = Some(sink))
    }
}
