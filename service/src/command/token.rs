//! `totxegun token`: makes a token for a sender or an operator.

use super::line;
use crate::identity;
use anyhow::{Context, Result};
use clap::Args;
use std::fs::File;
use std::io::{self, Read, Write};

/// How many random bytes a token has: nobody guesses them, so their digest needs no salt.
const BYTES: usize = 32;

#[derive(Args)]
pub struct Options {
    /// Whose token it is; a sender NAME/PATTERN may post as others too: collector/shop-*
    #[arg(value_name = "NAME", value_parser = owner)]
    owner: String,
}

/// Accepts what the file of `--tokens` may have before a digest.
fn owner(text: &str) -> Result<String, String> {
    match identity::Tokens::read(identity::line(text, "").as_bytes()) {
        Ok(_) => Ok(text.to_string()),
        Err(why) => Err(why.trim_start_matches("line 1: ").to_string()),
    }
}

/// Returns the line for the file. The token itself goes to standard error, so that `>> FILE` shows it once.
pub fn run(options: &Options) -> Result<Vec<u8>> {
    let mut bytes = [0; BYTES];
    let drawn = File::open("/dev/urandom").and_then(|mut random| random.read_exact(&mut bytes));
    drawn.context("no token can be drawn: /dev/urandom can't be read")?;
    let token = base64::encode_config(bytes, base64::URL_SAFE_NO_PAD);
    let owner = &options.owner;
    writeln!(io::stderr(), "the token of {owner}, which nothing shows again:\n{token}")
        .context("the token can't be shown: standard error can't be written")?;
    Ok(line(identity::line(owner, &token)))
}
