//! The options by which all commands find the running service, and its orders flush, quarantine and release.

use super::values::{counted, operator, orders_at, SOCKET};
use super::{client, line, Form};
use crate::shard::is_sender;
use anyhow::{bail, Context, Result};
use clap::Args;
use hyper::Method;
use std::path::{Path, PathBuf};

/// How to reach the running service.
#[derive(Args, Clone, Debug)]
pub struct Address {
    /// The running service's folder, which has the socket that takes orders
    #[arg(long, env = "TOTXEGUN_DATA", value_name = "DIR", default_value = "/var/lib/totxegun")]
    data: PathBuf,
    /// Another address of the service: unix:PATH, or HOST:PORT, which takes orders only with --token. Of the service's variable TOTXEGUN_ADMIN, only a socket is used here
    #[arg(long, value_name = "ADDRESS", value_parser = operator)]
    admin: Option<String>,
    /// A file with an operator's token, for HOST:PORT
    #[arg(long, value_name = "FILE")]
    token: Option<PathBuf>,
}

impl Address {
    /// `HOST:PORT`, or `unix:PATH`.
    pub fn place(&self) -> String {
        if let Some(given) = &self.admin {
            return given.clone();
        }
        let of_service = std::env::var("TOTXEGUN_ADMIN").unwrap_or_default();
        format!("{SOCKET}{}", orders_at(of_service.split(','), &self.data).display())
    }

    pub fn token(&self) -> Result<Option<String>> {
        self.token.as_deref().map(read_token).transpose()
    }
}

/// Reads the token. An error does not show what the file has.
fn read_token(path: &Path) -> Result<String> {
    let shown = path.display();
    let text = std::fs::read_to_string(path).with_context(|| format!("--token {shown} can't be read"))?;
    let token = text.trim();
    match !token.is_empty() && token.bytes().all(|byte| byte.is_ascii_graphic()) {
        true => Ok(token.to_string()),
        false => bail!(
            "--token {shown} has to have a token and nothing else: leave the one line that `totxegun token NAME` has shown \
             behind `which nothing shows again`"
        ),
    }
}

#[derive(Args)]
pub struct Shown {
    #[command(flatten)]
    pub at: Address,
    #[command(flatten)]
    pub form: Form,
}

#[derive(Args)]
pub struct OfSender {
    /// The sender's name, as in its header x-sender; `-` means those that give no name
    #[arg(value_name = "NAME", value_parser = sender)]
    pub sender: String,
    #[command(flatten)]
    pub at: Address,
}

pub fn sender(text: &str) -> Result<String, String> {
    if is_sender(text) {
        return Ok(text.to_string());
    }
    Err("a sender's name is 1 to 64 characters of A-Z a-z 0-9 . _ -".to_string())
}

/// Gives an order, and returns what to print.
pub fn order(at: &Address, path: &str) -> Result<Vec<u8>> {
    match &client::ask(at, Method::POST, path)?[..] {
        b"{}" => Ok(line("done")),
        body => told(at, body),
    }
}

/// Gives an order that changes what is counted.
pub fn change(at: &Address, path: &str) -> Result<Vec<u8>> {
    told(at, &client::ask(at, Method::POST, path)?)
}

/// What the service says that it has done. Who answers without it has done nothing.
pub fn told(at: &Address, body: &[u8]) -> Result<Vec<u8>> {
    let read: serde_json::Value = serde_json::from_slice(body).unwrap_or_default();
    let message = read["message"].as_str().with_context(|| client::another(&at.place()))?;
    Ok(line(format_args!("done: {message}")))
}

/// Gives the order to flush, and returns what to print.
pub fn flush(at: &Address) -> Result<Vec<u8>> {
    let body = client::ask(at, Method::POST, "/flush")?;
    let read: serde_json::Value = serde_json::from_slice(&body).unwrap_or_default();
    let requests = read["requests"].as_u64();
    Ok(match requests.with_context(|| client::another(&at.place()))? {
        0 => line(format_args!("done: there was nothing to put into the outbox{}", waits(at))),
        requests => line(format_args!("done: {} went into the outbox", counted(requests, "request"))),
    })
}

/// Says what waits for the sink. Otherwise an operator whose flush added nothing could think it lost.
fn waits(at: &Address) -> String {
    match client::status(at).map_or(0, |status| status.waiting()) {
        0 => String::new(),
        waiting => {
            format!(", where {} for the sink: `totxegun status` shows how it goes on", waiting_shown(waiting))
        }
    }
}

/// `1 request waits` or `2 requests wait`.
pub fn waiting_shown(waiting: u64) -> String {
    let verb = if waiting == 1 { "waits" } else { "wait" };
    format!("{} {verb}", counted(waiting, "request"))
}

#[cfg(test)]
mod tests {
    use super::*;

    /// Any server may answer 200.
    #[test]
    fn an_answer_without_a_message_is_another_s() {
        let at = Address { data: PathBuf::new(), admin: Some("h:1".into()), token: None };
        let said = told(&at, b"{\"message\":\"1 series is forgotten\"}").unwrap();
        assert_eq!(said, b"done: 1 series is forgotten\n");
        for body in [&b"{}"[..], b"", b"<html>", b"{\"message\":7}", b"[]"] {
            let why = told(&at, body).unwrap_err().to_string();
            assert!(why.contains("what listens at h:1 is no admin address of totxegun"), "{why}");
        }
    }
}
