//! Shows an error of the server with what to do about it.

use crate::log;
use tokio_postgres::error::DbError;
use tokio_postgres::Error;

/// The most characters of a server's message, which may quote what a sender wrote.
const LONGEST: usize = 1000;

/// An error with what to do about it.
pub(crate) fn shown(error: &Error) -> String {
    let Some(said) = error.as_db_error() else {
        return error.to_string();
    };
    let detail = said.detail().map_or(String::new(), |detail| format!(" ({detail})"));
    let text = log::shown(&format!("{}{detail}", said.message()), LONGEST);
    let text = format!("{text} [{}]", said.code().code());
    match what_to_do(said) {
        Some(what) => format!("{what}: {text}"),
        None => text,
    }
}

/// What to do about an error, by its SQLSTATE.
fn what_to_do(said: &DbError) -> Option<&'static str> {
    Some(match said.code().code() {
        "28P01" => "the password is wrong (correct it in the address or in PGPASSWORD)",
        "28000" => "the server rejects this user (look at pg_hba.conf)",
        "3D000" => "the database is missing (create it)",
        "42501" => "the role lacks a privilege (grant it)",
        "25006" => "the server or the role is read-only (name one that can write)",
        "53100" => "the server's disk is full (make room)",
        "54000" => "a limit of the server or of the request is reached (look at the server's log)",
        "53300" => "the server has no connection left (raise max_connections)",
        "57P01" | "57P02" | "57P03" => "the server is starting or shutting down",
        "57014" | "55P03" => "the server took too long",
        "40P01" | "40001" => "it conflicted with another writer",
        _ => return None,
    })
}
