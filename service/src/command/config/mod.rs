//! The settings of `serve`: the command line wins over the environment, and the environment over the file of
//! `--config`. Also `totxegun config`, which checks settings and shows where each comes from.
//!
//! `parse` reads every command line of the program, so each command with `--config` has the file's settings.

mod environment;
mod file;
mod reload;
mod secret;
#[cfg(test)]
mod tests;

use secret::without_password;

pub use environment::unknown_setting;
pub use file::{is_setting, key};
pub use reload::reload;

use super::{line, serve, Ended, Line};
use anyhow::anyhow;
use clap::error::{ContextKind, ContextValue};
use clap::parser::ValueSource;
use clap::{ArgMatches, CommandFactory, FromArgMatches, Subcommand};
use std::collections::{BTreeMap, BTreeSet};
use std::ffi::{OsStr, OsString};
use std::fmt::Write;
use std::path::PathBuf;

/// The variable that names the file.
pub const VARIABLE: &str = "TOTXEGUN_CONFIG";

/// A parsed command line, with what the file of settings added to it.
pub struct Parsed {
    pub matches: ArgMatches,
    /// The file, if one was named, and the options that it sets.
    file: Option<(PathBuf, BTreeSet<String>)>,
}

/// Why a command line can't be used.
pub enum Faulty {
    Line(clap::Error),
    File(String),
}

/// Parses a command line, and reads the file of settings if it names one.
pub fn parse(mut words: Vec<OsString>) -> Result<Parsed, Faulty> {
    let command = Line::command();
    let file = match file_of(&words, &command) {
        None => None,
        Some((path, of_file)) => {
            let of_file = of_file.map_err(Faulty::File)?;
            let given: BTreeSet<String> = of_file.keys().cloned().collect();
            words.extend(of_file.into_values().flatten());
            Some((path, given))
        }
    };
    match command.try_get_matches_from(words) {
        Ok(matches) => Ok(Parsed { matches, file }),
        Err(error) => Err(match file.and_then(|(path, given)| in_file(&error, &path, &given)) {
            Some(why) => Faulty::File(why),
            None => Faulty::Line(super::without_secrets(error)),
        }),
    }
}

/// Reads the file that the words or the environment name, and keeps the options that neither sets. Errors in the words
/// are left to the parsing that follows, which has the file's words too.
fn file_of(words: &[OsString], command: &clap::Command) -> Option<(PathBuf, Result<file::Words, String>)> {
    let without_file = command.clone().ignore_errors(true).try_get_matches_from(words).ok()?;
    let (name, matches) = without_file.subcommand()?;
    let own = |option: &str| {
        let mut own = command.find_subcommand(name)?.get_arguments();
        own.find(|own| own.get_long() == Some(option)).map(|own| own.get_id().as_str())
    };
    let path = matches.get_one::<PathBuf>(own(file::OPTION)?)?;
    let is_free = |id| matches!(matches.value_source(id), None | Some(ValueSource::DefaultValue));
    let read = file::read(path, command.find_subcommand("serve")?).map(|mut found| {
        found.retain(|option, _| own(option).is_some_and(is_free));
        found
    });
    Some((path.clone(), read))
}

/// The error about a value of the file, with its key. None if the error is about something else.
fn in_file(error: &clap::Error, path: &std::path::Path, given: &BTreeSet<String>) -> Option<String> {
    let Some(ContextValue::String(shown)) = error.get(ContextKind::InvalidArg) else {
        return None;
    };
    let option = shown.trim_start_matches('-').split(' ').next().filter(|option| given.contains(*option))?;
    let Some(ContextValue::String(_)) = error.get(ContextKind::InvalidValue) else {
        return None;
    };
    let why = std::error::Error::source(error).map_or_else(
        || error.to_string().lines().next().unwrap_or_default().trim_start_matches("error: ").to_string(),
        ToString::to_string,
    );
    Some(format!("{}: `{}`: {why}", path.display(), key(option)))
}

/// The known name that is nearest to `name`.
pub(super) fn nearest<'k>(name: &str, known: impl Iterator<Item = &'k String>) -> &'k str {
    known.min_by_key(|it| strsim::levenshtein(it, name)).map_or("", String::as_str)
}

#[derive(Subcommand)]
pub enum Command {
    /// Checks whether a service starts with these options, and says what is wrong; listens at none of its addresses
    Check(Words),
    /// Shows each setting, and whether the command line, the environment or the file gives it; hides secrets
    Show(Words),
}

#[derive(clap::Args)]
pub struct Words {
    /// Options of `serve`, such as --config FILE
    #[arg(value_name = "OPTION", trailing_var_arg = true, allow_hyphen_values = true)]
    words: Vec<OsString>,
}

impl Command {
    pub fn run(self) -> Result<Vec<u8>, Ended> {
        match self {
            Command::Check(words) => {
                read(words.of_serve())?.0.check()?;
                Ok(line("a service starts with these settings, if it may listen at its addresses"))
            }
            Command::Show(words) => Ok(shown(&read(words.of_serve())?.1)?.into()),
        }
    }
}

impl Words {
    fn of_serve(self) -> Vec<OsString> {
        ["totxegun", "serve"].map(OsString::from).into_iter().chain(self.words).collect()
    }
}

/// Parses the words as a command line of `serve`.
fn read(words: Vec<OsString>) -> Result<(serve::Options, Parsed), Ended> {
    let parsed = parse(words).map_err(|why| match why {
        Faulty::Line(error) => {
            Ended::Line(anyhow!("{}", error.to_string().trim_start_matches("error: ").trim_end()))
        }
        Faulty::File(why) => Ended::Line(anyhow!(why)),
    })?;
    let (_, of_serve) = parsed.matches.subcommand().ok_or_else(|| anyhow!("there is no command"))?;
    let options = serve::Options::from_arg_matches(of_serve).map_err(|why| anyhow!("{why}"))?;
    Ok((options, parsed))
}

/// The values of each setting, by option.
pub type Values = BTreeMap<String, Vec<OsString>>;

fn values(parsed: &Parsed) -> Values {
    let command = Line::command();
    let Some((serve, (_, matches))) = command.find_subcommand("serve").zip(parsed.matches.subcommand())
    else {
        return Values::new();
    };
    file::settings(serve).map(|(option, arg)| (option.to_string(), raw(matches, arg))).collect()
}

fn raw(matches: &ArgMatches, arg: &clap::Arg) -> Vec<OsString> {
    let id = arg.get_id().as_str();
    if !arg.get_action().takes_values() {
        return vec![if matches.get_flag(id) { "true" } else { "false" }.into()];
    }
    matches.get_raw(id).map(|all| all.map(OsStr::to_os_string).collect()).unwrap_or_default()
}

/// Each setting as a line of a file of settings, with where it comes from.
fn shown(parsed: &Parsed) -> anyhow::Result<String> {
    let command = Line::command();
    let (Some(serve), Some((_, matches))) = (command.find_subcommand("serve"), parsed.matches.subcommand())
    else {
        return Ok(String::new());
    };
    let (mut top, mut sink) = (String::new(), String::from("[sink]\n"));
    for (option, arg) in file::settings(serve) {
        let key = key(option);
        let (to, key) = match key.strip_prefix("sink.") {
            Some(key) => (&mut sink, key),
            None => (&mut top, &*key),
        };
        match matches.value_source(arg.get_id().as_str()) {
            None => writeln!(to, "# {key} is not set")?,
            Some(source) => {
                let value = as_toml(arg, &raw(matches, arg));
                writeln!(to, "{key} = {value} # {}", source_shown(source, option, arg, parsed.file.as_ref()))?
            }
        }
    }
    Ok(top + &sink)
}

fn source_shown(
    source: ValueSource,
    option: &str,
    arg: &clap::Arg,
    file: Option<&(PathBuf, BTreeSet<String>)>,
) -> String {
    let variable = || arg.get_env().unwrap_or_default().to_string_lossy().into_owned();
    match (source, file) {
        (ValueSource::CommandLine, Some((path, given))) if given.contains(option) => {
            path.display().to_string()
        }
        (ValueSource::CommandLine, _) => "command line".into(),
        (ValueSource::EnvVariable, _) => format!("environment, {}", variable()),
        _ => "default".into(),
    }
}

/// The value as the file would have it. Passwords are hidden.
fn as_toml(arg: &clap::Arg, values: &[OsString]) -> String {
    let one = |value: &OsString| {
        let text = value.to_string_lossy();
        match (text.parse::<i64>(), arg.get_action().takes_values()) {
            (_, false) => text.into_owned(),
            (Ok(number), _) if number.to_string() == text => number.to_string(),
            _ if arg.is_hide_env_values_set() => toml::Value::from(without_password(&text)).to_string(),
            _ => toml::Value::from(text.into_owned()).to_string(),
        }
    };
    match (arg.get_action(), values) {
        (clap::ArgAction::Append, values) => {
            format!("[{}]", values.iter().map(one).collect::<Vec<_>>().join(", "))
        }
        (_, [value, ..]) => one(value),
        (_, []) => "\"\"".into(),
    }
}
