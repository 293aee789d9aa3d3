//! `totxegun senders rename`: a sender has another name from now on.

use super::ask;
use anyhow::{bail, Result};
use clap::{Args, Subcommand};

#[derive(Subcommand)]
pub enum Command {
    /// Gives all series of a sender to its new name, here and in the sink, so that it can go on under that name
    Rename(Rename),
}

#[derive(Args)]
pub struct Rename {
    /// The name that has the series now; `-` is who named none
    #[arg(value_name = "OLD", value_parser = ask::sender)]
    old: String,
    /// The name under which the sender posts from now on
    #[arg(value_name = "NEW", value_parser = ask::sender)]
    new: String,
    #[command(flatten)]
    at: ask::Address,
}

impl Command {
    pub fn run(&self) -> Result<Vec<u8>> {
        let Command::Rename(Rename { old, new, at }) = self;
        if old == new {
            bail!("{old} is the old name and the new one: give another NEW");
        }
        ask::order(at, &format!("/senders/{old}/rename/{new}"))
    }
}
