//! `totxegun print`: prints what is derived from the definition of the command line. A package uses it for the
//! completions of bash, zsh and fish, the manual page and the file of settings.

use super::config::{is_setting, key};
use super::Line;
use anyhow::Result;
use clap::{Arg, ArgAction, Command, CommandFactory, ValueEnum};
use clap_complete::{generate, Shell};
use serde::Serialize;

const NAME: &str = "totxegun";

#[derive(Clone, Copy, ValueEnum)]
pub enum What {
    /// The completion for bash
    Completion,
    /// The completion for zsh
    Zsh,
    /// The completion for fish
    Fish,
    /// Each command with its options, as JSON
    Options,
}

pub fn run(what: What) -> Result<Vec<u8>> {
    let mut line = visible(&Line::command());
    let mut text = Vec::new();
    match what {
        What::Completion => generate(Shell::Bash, &mut line, NAME, &mut text),
        What::Zsh => generate(Shell::Zsh, &mut line, NAME, &mut text),
        What::Fish => generate(Shell::Fish, &mut line, NAME, &mut text),
        What::Options => {
            line.build();
            serde_json::to_writer_pretty(&mut text, &Described::of(&line))?;
            text.push(b'\n');
        }
    }
    Ok(text)
}

/// The command without its hidden parts.
fn visible(command: &Command) -> Command {
    let shown = command.get_subcommands().filter(|it| !it.is_hide_set());
    let mut copy = Command::new(command.get_name().to_string())
        .about(command.get_about().cloned().unwrap_or_default())
        .args(command.get_arguments().filter(|it| !it.is_hide_set()).cloned());
    for below in shown {
        copy = copy.subcommand(visible(below));
    }
    copy
}

/// A command, for its page.
#[derive(Serialize)]
struct Described {
    name: String,
    about: String,
    options: Vec<Word>,
    commands: Vec<Described>,
}

/// An option or a positional argument.
#[derive(Serialize)]
struct Word {
    /// The name without dashes. None for a positional argument.
    long: Option<String>,
    /// The name of its value. None if it takes no value.
    value: Option<String>,
    /// Its values, if only a few are possible.
    one_of: Vec<String>,
    default: Option<String>,
    variable: Option<String>,
    /// Its key in a file of settings. None if a file can't have it.
    key: Option<String>,
    /// Whether it may be given again.
    list: bool,
    heading: Option<String>,
    required: bool,
    help: String,
}

impl Described {
    fn of(command: &Command) -> Described {
        let is_own = |it: &&Arg| !["help", "version"].contains(&it.get_id().as_str());
        let below = command.get_subcommands().filter(|it| it.get_name() != "help");
        Described {
            name: command.get_name().to_string(),
            about: command.get_about().map(ToString::to_string).unwrap_or_default(),
            options: command.get_arguments().filter(is_own).map(Word::of).collect(),
            commands: below.map(Described::of).collect(),
        }
    }
}

impl Word {
    fn of(arg: &Arg) -> Word {
        let has_value = arg.get_action().takes_values();
        let values = arg.get_possible_values();
        let defaults = arg.get_default_values().iter();
        let default = defaults.map(|it| it.to_string_lossy().into_owned()).collect::<Vec<_>>();
        let of_file = arg.get_long().filter(|name| is_setting(name));
        Word {
            long: arg.get_long().map(str::to_string),
            value: has_value
                .then(|| arg.get_value_names().and_then(|names| names.first()).map(ToString::to_string))
                .flatten(),
            one_of: values.iter().filter(|_| has_value).map(|it| it.get_name().to_string()).collect(),
            default: (!default.is_empty() && has_value).then(|| default.join(",")),
            key: of_file.filter(|_| arg.get_env().is_some()).map(key),
            list: matches!(arg.get_action(), ArgAction::Append),
            variable: arg.get_env().map(|it| it.to_string_lossy().into_owned()),
            heading: arg.get_help_heading().map(str::to_string),
            required: arg.is_required_set(),
            help: arg.get_help().map(ToString::to_string).unwrap_or_default(),
        }
    }
}

#[cfg(test)]
mod tests {
    use super::*;

    #[test]
    fn each_shell_is_told_of_each_command_and_option() {
        for (what, begins) in [
            (What::Completion, "_totxegun() {"),
            (What::Zsh, "#compdef totxegun"),
            (What::Fish, "complete -c totxegun"),
        ] {
            let text = String::from_utf8(run(what).unwrap()).unwrap();
            assert!(text.starts_with(begins), "{}", &text[..80]);
            for word in ["serve", "quarantine", "resend", "flush-interval", "log-json"] {
                assert!(text.contains(word), "{begins}: {word}");
            }
            assert!(!text.contains("Prints what a package is made with"));
        }
    }
}
