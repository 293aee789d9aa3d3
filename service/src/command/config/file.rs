//! The file of settings: its keys are the options of `serve` that have a variable, and its table `sink` has those of
//! the sink.
//!
//! The file's settings are appended to the command line, except for those that the command line or the environment has.
//! So a value is parsed in one way, wherever it comes from.

use super::nearest;
use super::secret::{has_password, is_of_otlp};
use clap::{Arg, ArgAction, Command};
use std::collections::BTreeMap;
use std::ffi::OsString;
use std::path::Path;
use toml::value::{Table, Value};

/// The option that names the file.
pub const OPTION: &str = "config";
const TABLE: &str = "sink";
/// An option that the file can't have: it is a secret, and everybody may read the file.
const HEADER: &str = "sink-header";

/// The words for the command line that the file gives, by option.
pub type Words = BTreeMap<String, Vec<OsString>>;

/// The key of an option in the file.
pub fn key(option: &str) -> String {
    match option.strip_prefix(TABLE) {
        Some("") => format!("{TABLE}.address"),
        Some(rest) if rest.starts_with('-') => format!("{TABLE}.{}", &rest[1..]),
        _ => option.into(),
    }
}

/// It has an address, and no file of headers.
const STORE: &str = "store";

/// The options that the file may set, in their order.
pub fn settings(serve: &Command) -> impl Iterator<Item = (&str, &Arg)> {
    let named = serve.get_arguments().filter(|option| option.get_env().is_some());
    let named = named.filter_map(|option| Some((option.get_long()?, option)));
    named.filter(|(name, _)| is_setting(name))
}

/// Whether an option that has a variable may be in the file.
pub fn is_setting(option: &str) -> bool {
    ![OPTION, HEADER].contains(&option)
}

/// Reads the file. An error begins with the file's name.
pub fn read(path: &Path, serve: &Command) -> Result<Words, String> {
    let shown = path.display();
    let text =
        std::fs::read_to_string(path).map_err(|why| format!("--config {shown} can't be read: {why}"))?;
    words(&text, serve).map_err(|why| format!("{shown}: {why}"))
}

fn words(text: &str, serve: &Command) -> Result<Words, String> {
    // Parsed into a `Value`, so that a repeated key is an error.
    let read: Value = toml::from_str(text).map_err(|why| format!("it is no TOML: {why}"))?;
    let Value::Table(mut table) = read else {
        return Err("it is no table of settings".into());
    };
    let sink = match table.remove(TABLE) {
        None => Table::new(),
        Some(Value::Table(sink)) => sink,
        Some(_) => {
            return Err(format!(
                "`{TABLE}` is a table: write [{TABLE}] on a line, and address = \"..\" below it"
            ))
        }
    };
    let sink = sink.into_iter().map(|(name, value)| (format!("{TABLE}.{name}"), value));
    let known: BTreeMap<String, (&str, &Arg)> = settings(serve).map(|it| (key(it.0), it)).collect();
    let mut words = Words::new();
    for (name, value) in table.into_iter().chain(sink) {
        let (option, arg) = known.get(&name).ok_or_else(|| unknown(&name, known.keys()))?;
        words.insert(option.to_string(), said(&name, option, arg, &value)?);
    }
    Ok(words)
}

fn unknown<'k>(name: &str, known: impl Iterator<Item = &'k String>) -> String {
    if name == key(HEADER) {
        return format!(
            "everybody may read this file, so a header has a file of its own: name it by {name}-file"
        );
    }
    format!("there is no setting `{name}`: take it out, or write `{}` if that is meant", nearest(name, known))
}

/// A setting as words of the command line.
fn said(name: &str, option: &str, arg: &Arg, value: &Value) -> Result<Vec<OsString>, String> {
    let is_list = matches!(arg.get_action(), ArgAction::Append);
    match value {
        Value::Boolean(is_set) if !arg.get_action().takes_values() => {
            Ok(is_set.then(|| format!("--{option}").into()).into_iter().collect())
        }
        _ if !arg.get_action().takes_values() => Err(format!("`{name}` is true or false")),
        Value::Array(items) if is_list => items.iter().map(|item| one(name, option, arg, item)).collect(),
        Value::Array(_) => Err(format!("`{name}` has one value, and no list")),
        one_value => Ok(vec![one(name, option, arg, one_value)?]),
    }
}

fn one(name: &str, option: &str, arg: &Arg, value: &Value) -> Result<OsString, String> {
    let text = match value {
        Value::String(text) => text.clone(),
        Value::Integer(number) => number.to_string(),
        _ => return Err(format!("`{name}` has texts in quotes, or whole numbers")),
    };
    if arg.is_hide_env_values_set() && has_password(&text) {
        let why = match is_of_otlp(&text) {
            true if option == STORE => {
                "a query, in which a key may be: write postgres://USER@HOST:PORT/DB".into()
            }
            true => format!(
                "a query, in which a key may be: send it as a header, by {}",
                key(&format!("{option}-header-file"))
            ),
            false => "a password: write it into a file, and ?passfile=FILE here".into(),
        };
        return Err(format!("everybody may read this file, and `{name}` has {why}"));
    }
    match arg.get_value_delimiter() {
        Some(between) if text.contains(between) => {
            Err(format!("`{name}` is a list: write each in quotes of its own, [\"a\", \"b\"]"))
        }
        _ => Ok(format!("--{option}={text}").into()),
    }
}

#[cfg(test)]
mod tests {
    use super::super::super::Line;
    use super::*;
    use clap::CommandFactory;

    fn found(text: &str) -> Result<Vec<String>, String> {
        let line = Line::command();
        let words = words(text, line.find_subcommand("serve").unwrap())?;
        Ok(words.into_values().flatten().map(|word| word.into_string().unwrap()).collect())
    }

    #[test]
    fn keys_are_the_options_names() {
        let text = "threads = 2\nbehind-proxy = true\nlog-json = false\ndrop-attribute = [\"a\", \"b\"]\nflush-interval = \"5s\"\n\
                    [sink]\naddress = \"http://h:1\"\ngzip = true\nheader-file = \"f\"\n";
        let wanted = [
            "--behind-proxy",
            "--drop-attribute=a",
            "--drop-attribute=b",
            "--flush-interval=5s",
            "--sink=http://h:1",
            "--sink-gzip",
            "--sink-header-file=f",
            "--threads=2",
        ];
        assert_eq!(found(text).unwrap(), wanted);
    }

    #[test]
    fn what_is_wrong_is_said_with_the_key() {
        for (text, part) in [
            ("flush-evry = \"5s\"", "write `flush-interval`"),
            ("sink = \"a\"", "[sink] on a line"),
            ("[sink]\nadress = \"a\"", "write `sink.address`"),
            ("[sink]\nheader = \"Authorization: Bearer x\"", "name it by sink.header-file"),
            ("config = \"f\"", "no setting `config`"),
            ("new-sink = true", "no setting `new-sink`"),
            ("log-json = \"yes\"", "`log-json` is true or false"),
            ("threads = [1]", "`threads` has one value"),
            ("threads = 1.5", "whole numbers"),
            ("drop-attribute = \"a,b\"", "each in quotes of its own"),
            ("store = \"postgres://u:secret@h/d\"", "?passfile=FILE"),
            ("[sink]\naddress = \"https://h:4318/v1/metrics?key=secret\"", "by sink.header-file"),
            ("forward-unsupported = \"HTTP://h:4318?key=secret\"", "by forward-unsupported-header-file"),
            ("store = \"http://h:4318?key=secret\"", "in which a key may be: write postgres://"),
            ("threads = ", "no TOML"),
            ("threads = 1\nthreads = 2", "no TOML"),
        ] {
            let why = found(text).expect_err(text);
            assert!(why.contains(part) && !why.contains("secret"), "{text}: {why}");
        }
    }
}
