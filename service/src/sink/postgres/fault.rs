//! Faults of the server, and what to do about them.

use super::schema::KNOWN;
use super::Server;
use crate::postgres::{shown, NotConnected};
use crate::sink::sql::NotTaken;
use anyhow::anyhow;
use tokio_postgres::Error;

#[derive(Debug)]
pub(super) enum Fault {
    Version {
        found: i32,
    },
    Foreign,
    Encoding(String),
    /// The text says all.
    Another(String),
    /// The fault may pass.
    Server(String),
    /// The fault may pass: there is no connection.
    Away(String),
}

impl Fault {
    pub(super) fn told(what: impl Into<String>) -> Fault {
        Fault::Server(what.into())
    }

    /// Whether the fault stays until somebody names another database or starts another version.
    pub(super) fn is_lasting(&self) -> bool {
        !matches!(self, Fault::Server(_) | Fault::Away(_))
    }

    /// The error, with the server's address.
    pub(super) fn at(self, server: &Server) -> anyhow::Error {
        match self {
            Fault::Version { found } => anyhow!("the schema totxegun of {server} was written by another version of totxegun (schema {found}; this one knows {KNOWN}): use that version, or another database"),
            Fault::Foreign => anyhow!("the schema totxegun of {server} is of another program: name another database"),
            Fault::Encoding(encoding) => anyhow!("the database of {server} is in {encoding}, which can't hold each text: make one with `encoding utf8`"),
            Fault::Another(what) => anyhow!(what),
            Fault::Server(what) | Fault::Away(what) => anyhow!("{server}: {what}"),
        }
    }
}

impl From<Error> for Fault {
    fn from(error: Error) -> Fault {
        Fault::Server(shown(&error))
    }
}

impl From<NotConnected> for Fault {
    /// A server that denies access is not asked every two seconds: it may count that as an attack.
    fn from(error: NotConnected) -> Fault {
        match error.is_denied() {
            true => Fault::Server(error.to_string()),
            false => Fault::Away(error.to_string()),
        }
    }
}

impl From<anyhow::Error> for Fault {
    fn from(odd: anyhow::Error) -> Fault {
        Fault::Server(odd.to_string())
    }
}

impl From<Fault> for NotTaken<Fault> {
    fn from(fault: Fault) -> NotTaken<Fault> {
        NotTaken::Fault(fault)
    }
}

impl From<Error> for NotTaken<Fault> {
    /// Content that no PostgreSQL takes (a data exception) is refused for good. A program's limit may be exceeded by
    /// the content, but also by every request, if the server has no transaction numbers left. All else may pass.
    fn from(error: Error) -> NotTaken<Fault> {
        let code = error.code().map_or("", |code| code.code());
        match code.get(..2) {
            Some("22") => NotTaken::Refused(format!("no PostgreSQL takes it: {}", shown(&error))),
            Some("54") => NotTaken::Failed(error.into()),
            _ => NotTaken::Fault(error.into()),
        }
    }
}
