//! The command line of `totxegun`, and the status with which the program ends.
//!
//! 0: done. 1: refused, or not possible. 2: a faulty command line. 70: a fault of the disk or of a file. 71: out of
//! memory.

mod adjust;
mod amend;
mod ask;
mod book_options;
mod check;
mod client;
mod config;
mod explain;
mod export;
mod late;
mod letters;
mod periods;
mod print;
mod reading_options;
mod receiver_options;
mod retention_options;
mod sender_options;
mod senders;
mod series;
mod serve;
mod status;
mod store;
mod store_options;
mod table;
mod time_zone;
mod token;
mod totals;
pub(crate) mod values;
mod version;

use crate::service::Ended;
use crate::sink::periods::Period;
use anyhow::Context;
use clap::error::{ContextKind, ContextValue};
use clap::{Args, FromArgMatches, Parser, Subcommand};
use serde::Serialize;
use std::fmt::Display;
use std::io::{ErrorKind, Write};
use std::process::ExitCode;

const REFUSED: u8 = 1;
const FAULTY: u8 = 2;
const DISK: u8 = 70;
const MEMORY: u8 = crate::book::NONE_LEFT as u8;

/// Takes counters and histograms by OTLP, adds them up, keeps them on disk, and delivers the totals to a sink.
#[derive(Parser)]
#[command(name = "totxegun", version, max_term_width = 100)]
struct Line {
    #[command(subcommand)]
    command: Command,
}

#[derive(Subcommand)]
enum Command {
    /// Takes posts and delivers their totals, until SIGTERM or SIGINT
    Serve(Box<serve::Options>),
    /// Checks settings, and shows where each comes from
    #[command(subcommand)]
    Config(config::Command),
    /// Shows the status of the running service
    Status(ask::Shown),
    /// Shows what a SQLite or PostgreSQL sink has: a line for each series
    Totals(totals::Options),
    /// Puts all that was taken into the outbox now
    Flush(ask::Address),
    /// Holds a sender's points back, and refuses its posts
    Quarantine(ask::OfSender),
    /// Releases a quarantined sender
    Release(ask::OfSender),
    /// Gives a sender another name
    #[command(subcommand)]
    Senders(senders::Command),
    /// Shows requests that the sink refused for good, sends them again, throws them away
    #[command(subcommand)]
    DeadLetters(letters::Command),
    /// Shows points that their series refused, so that they are not counted: `totxegun adjust --late KEY` books one
    Late(late::Options),
    /// Closes a month, a day or an hour: points for it that come later count in the hour in which they come
    Close(periods::Close),
    /// Reopens a closed period: points that came late meanwhile stay where they were counted
    Reopen {
        /// The period, as it was closed
        period: Period,
        #[command(flatten)]
        zone: time_zone::TimeZone,
        #[command(flatten)]
        at: ask::Address,
    },
    /// Adds to what a series counted in an hour, by hand; or books late data
    Adjust(adjust::Options),
    /// Moves the end of a series back, for example one that a wrong clock put ahead, so that its points are taken again
    Rewind {
        #[command(flatten)]
        of: amend::OfSeries,
        /// The new end, in UTC: 2026-11-05T13:30:15. Points after it are taken again
        #[arg(long, value_name = "TIME", value_parser = amend::time)]
        to: String,
        #[command(flatten)]
        at: ask::Address,
    },
    /// Forgets the sender and the end of a series, so that another sender may have it
    Forget {
        #[command(flatten)]
        of: amend::OfSeries,
        #[command(flatten)]
        at: ask::Address,
    },
    /// Prints what each series counted in a month or a day; the number of rows and their SHA-256 go to standard error
    Export(export::Options),
    /// Says what a start would find in a folder, and changes nothing
    Check(check::Options),
    /// Says of each point of a captured request whether it is taken, and why not
    Explain(explain::Options),
    /// Makes a store that several machines share, and looks after it
    #[command(subcommand)]
    Store(store::Command),
    /// Makes a token for a sender or an operator: prints its line for the file of --tokens or --admin-tokens, and the token itself, once, on standard error
    Token(token::Options),
    /// Prints the version, and whether the book was proved
    Version,
    /// Prints what a package is made with
    #[command(hide = true)]
    Print {
        #[arg(value_enum)]
        what: print::What,
    },
}

/// Runs this process' command line.
pub fn run() -> ExitCode {
    crate::log::end_by_panics();
    // A faulty command line ends here, with status 2.
    let line = match config::parse(std::env::args_os().collect()) {
        Ok(parsed) => Line::from_arg_matches(&parsed.matches).unwrap_or_else(|error| error.exit()),
        Err(config::Faulty::Line(error)) => error.exit(),
        Err(config::Faulty::File(why)) => {
            crate::complain(format_args!("{why}"));
            return ExitCode::from(FAULTY);
        }
    };
    match line.command.run().and_then(|answer| Ok(show(&answer)?)) {
        Ok(()) => ExitCode::SUCCESS,
        Err(failure) => {
            crate::complain(format_args!("{failure}"));
            ExitCode::from(match failure {
                Ended::Other(_) => REFUSED,
                Ended::Line(_) => FAULTY,
                Ended::Disk(_) | Ended::Changed(_) => DISK,
                Ended::NoMemory(_) => MEMORY,
            })
        }
    }
}

/// Hides values in errors: the address of a sink or a store, and a header, may have a password.
fn without_secrets(mut error: clap::Error) -> clap::Error {
    let is_secret = match error.get(ContextKind::InvalidArg) {
        Some(ContextValue::String(option)) => {
            ["--sink", "--store", "<ADDRESS>"].iter().any(|name| option.starts_with(name))
        }
        _ => false,
    };
    if is_secret {
        error.insert(ContextKind::InvalidValue, ContextValue::String("..".into()));
    }
    error
}

impl Command {
    /// Returns what to print at the end.
    fn run(self) -> Result<Vec<u8>, Ended> {
        match self {
            Command::Serve(options) => options.run().map(|()| Vec::new()),
            Command::Config(command) => command.run(),
            Command::Status(shown) => Ok(client::shown(&shown, "/status", |status| status::text(&status))?),
            Command::Totals(options) => Ok(totals::run(&options)?),
            Command::Flush(at) => Ok(ask::flush(&at)?),
            Command::Quarantine(of) => Ok(ask::order(&of.at, &format!("/quarantine/{}", of.sender))?),
            Command::Release(of) => Ok(ask::order(&of.at, &format!("/release/{}", of.sender))?),
            Command::Senders(command) => Ok(command.run()?),
            Command::DeadLetters(command) => Ok(command.run()?),
            Command::Late(options) => Ok(options.run()?),
            Command::Close(options) => Ok(options.run()?),
            Command::Reopen { period, zone, at } => Ok(periods::open(&period, &zone, &at)?),
            Command::Adjust(options) => Ok(options.run()?),
            Command::Rewind { of, to, at } => Ok(ask::change(&at, &of.path(&format!("/rewind/{to}")))?),
            Command::Forget { of, at } => Ok(ask::change(&at, &of.path("/forget"))?),
            Command::Export(options) => Ok(options.run().map(|()| Vec::new())?),
            Command::Check(options) => options.run(),
            Command::Explain(options) => options.run(),
            Command::Store(command) => Ok(command.run()?),
            Command::Token(options) => Ok(token::run(&options)?),
            Command::Version => Ok(line(version::Versions)),
            Command::Print { what } => Ok(print::run(what)?),
        }
    }
}

/// Prints. A reader that stops early, such as `head`, is no fault.
fn show(answer: &[u8]) -> anyhow::Result<()> {
    let mut out = std::io::stdout();
    match out.write_all(answer).and_then(|()| out.flush()) {
        Err(error) if error.kind() == ErrorKind::BrokenPipe => Ok(()),
        done => done.context("standard output can't be written"),
    }
}

fn line(text: impl Display) -> Vec<u8> {
    format!("{text}\n").into()
}

/// Adds a line break to a body.
fn with_end(mut body: Vec<u8>) -> Vec<u8> {
    body.push(b'\n');
    body
}

fn json(answer: &impl Serialize) -> anyhow::Result<Vec<u8>> {
    let text = serde_json::to_vec(answer).context("the answer can't be written")?;
    Ok(with_end(text))
}

/// The form of the output.
#[derive(Args, Clone, Copy, Debug)]
struct Form {
    /// Prints JSON
    #[arg(long)]
    json: bool,
}

#[cfg(test)]
mod tests {
    use super::*;
    use clap::CommandFactory;

    #[test]
    fn the_command_line_is_sound() {
        Line::command().debug_assert();
    }

    #[test]
    fn each_option_stands_under_its_own_heading() {
        let line = Line::command();
        let heading = |command: &str, option: &str| {
            let command = line.find_subcommand(command).unwrap();
            let found = command.get_arguments().find(|it| it.get_long() == Some(option));
            found.unwrap().get_help_heading().map(str::to_string)
        };
        for (command, option, wanted) in [
            ("serve", "flush-interval", None),
            ("serve", "log-rejected", None),
            ("serve", "threads", None),
            ("serve", "sink-gzip", Some("Options of an OTLP sink")),
            ("serve", "tokens", Some("Options of TLS and of who a sender is")),
            ("serve", "integer-unit", Some("Options of reading")),
            ("serve", "max-series", Some("Options of the book")),
            ("explain", "json", None),
            ("explain", "integer-unit", Some("Options of reading")),
        ] {
            assert_eq!(heading(command, option).as_deref(), wanted, "{command} --{option}");
        }
    }

    #[test]
    fn faulty_lines_are_refused_by_name() {
        for (words, part) in [
            ("serve --data d --shards 1", "--shards"),
            ("serve --data d --max-series 0", "--max-series"),
            ("serve --data d --max-series 1000001", "--max-series"),
            ("serve --data d --flush-interval 0s", "--flush-interval"),
            ("serve --data d --flush-interval ten", "--flush-interval"),
            ("serve --data d --durability never", "--durability"),
            ("serve --data d --max-memory 1X", "--max-memory"),
            ("serve --data d --max-memory 63MiB", "64MiB"),
            ("serve --data d --max-bytes 256", "1MiB"),
            ("serve --data d --sink nats://h", "--sink"),
            ("serve --data d --sink https://127.0.0.1/", "certificate"),
            ("serve --data d --sink-header content-type:x", "`content-type`"),
            ("serve --data d --sink-header \u{fc}:x", "is not a header's name"),
            ("serve --data d --sink-header x:\u{1}", "`x`"),
            ("serve --data d --tls-cert c", "--tls-key"),
            ("serve --data d --tls-key k", "--tls-cert"),
            ("serve --data d --client-ca c", "--tls-cert"),
            ("serve --data d --sender-series 0", "--sender-series"),
            ("serve --data d --sender-points 0", "--sender-points"),
            ("token a/b/c", "after the /"),
            ("token -", "a sender's name"),
            ("store init", "<ADDRESS>"),
            ("serve --data d --store postgres://u@h/d --instance a", "--peer"),
            ("serve --data d --instance a", "--store"),
            ("serve --data d --store postgres://u@h/d --instance a --peer h:1 --peer-cert c", "--peer-key"),
            ("serve --data d --store postgres://u@h/d --peer h:1 --instance a/b", "--instance"),
            ("store init mysql://h/d", "a store is postgres://"),
            ("store init postgres://u@h/d --shards 0", "--shards"),
            ("serve --data d --listen nowhere", "--listen"),
            ("serve --data d --listen 127.0.0.1:65536", "--listen"),
            ("serve --data d --listen-grpc :4317", "--listen-grpc"),
            ("serve --data d --admin 127.0.0.1", "--admin"),
            ("status --admin 127.0.0.1:", "--admin"),
            ("status --admin unix:", "unix:PATH"),
            ("serve --data d --admin unix:", "unix:PATH"),
            ("serve --data d --drop-attribute=", "--drop-attribute"),
            ("serve --data d --drop-attribute a,,b", "--drop-attribute"),
            ("serve --data d --sender-attribute=", "--sender-attribute"),
            ("serve --data d --sender-attribute a\"b", "--sender-attribute"),
            ("explain - --sender a/b", "--sender"),
            ("serve --data d --integer-unit s=h", "--integer-unit"),
            ("serve --data d --integer-unit s=0:us", "--integer-unit"),
            ("serve --data d --exponential 2,1", "--exponential"),
            ("serve --datum d", "--datum"),
            ("quarantine", "<NAME>"),
            ("quarantine a/b", "<NAME>"),
            ("senders rename a", "<NEW>"),
            ("senders rename a/b c", "<OLD>"),
            ("close 2026-13", "2026-13"),
            ("close 2026-11 --time-zone Berlin", "no time zone Berlin is known here"),
            ("export --month 2026-11 --csv --time-zone ../x", "--time-zone"),
            ("close 2026-11 --flush --force", "--force"),
            ("reopen november", "no period"),
            ("adjust 7 2026-11-05T13 1.5 --reason x", "'1.5'"),
            ("adjust 7 2026-11-05T13 -2.5 --reason x", "write a whole number, in the unit"),
            ("adjust 7 2026-11-05T13 -1", "--reason"),
            ("adjust a{b 2026-11-05T13 -1 --reason x", "names no series"),
            ("adjust 7 2026-11-05T13 --reason x", "<VALUE>"),
            ("adjust --late 00ff 7", "--late"),
            ("adjust", "<SERIES>"),
            ("rewind a --to yesterday", "--to"),
            ("rewind a", "--to"),
            ("rewind {} --to 2026-11-05", "names no series"),
            ("forget a{b", "names no series"),
            ("export --month 2026-11-05 --csv", "no month"),
            ("export --day 2026-11 --csv", "no day"),
            ("export --csv", "--month"),
            ("export --month 2026-11", "--csv"),
            ("dead-letters burn", "burn"),
            ("dead-letters resend", "<KEY>"),
            ("dead-letters resend 0-a-1 --all", "--all"),
            ("serve --data d --log-json=x", "--log-json"),
            ("serve --data d --expect-rejected gauge,gouge", "up_down_counter"),
        ] {
            let error =
                Line::try_parse_from([&["totxegun"], &words.split(' ').collect::<Vec<_>>()[..]].concat());
            let text = error.err().unwrap_or_else(|| panic!("{words} was taken")).to_string();
            assert!(text.contains(part), "{words}: {text}");
        }
    }

    #[test]
    fn what_is_wrong_with_an_address_is_said_without_its_password() {
        for words in ["store init postgres://u:secret@h", "serve --data d --sink postgres://u:secret@h"] {
            let line = [&["totxegun"], &words.split(' ').collect::<Vec<_>>()[..]].concat();
            let error = Line::try_parse_from(line).err().map(without_secrets);
            let text = error.map_or_else(|| panic!("{words} was taken"), |error| error.to_string());
            assert!(text.contains("no database") && !text.contains("secret"), "{words}: {text}");
        }
    }
}
