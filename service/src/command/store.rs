//! `totxegun store`: makes a store that several machines share, moves a folder into it, and says whether the store
//! counts.

use super::{line, values::counted};
use crate::store::moving::from_folder;
use crate::store::postgres::{address, Copies, PostgresStore, Server, MOST_SHARDS};
use anyhow::Result;
use clap::{value_parser, Args, Subcommand};
use std::path::PathBuf;

#[derive(Subcommand)]
pub enum Command {
    /// Makes the tables of a store, once
    Init {
        /// The database: postgres://USER@HOST:PORT/DB, or postgres://USER@HOST1,HOST2/DB for servers that stand in for each other
        #[arg(value_name = "ADDRESS", value_parser = address)]
        database: Server,
        /// How many shards the store has for its series: four for each machine. It can't be changed later
        #[arg(long, value_name = "N", default_value_t = 12, value_parser = value_parser!(u16).range(1..=i64::from(MOST_SHARDS)))]
        shards: u16,
    },
    /// Moves what a folder has into a store that nobody has used yet, which counts from then on. All services must have ended; if it is killed, the same command goes on
    Move(Move),
    /// Says that a store was restored from a backup, or has lost rows for good: it goes on with what it has. All instances must have ended
    Restored(Restored),
    /// Says whether a store counts, or which folder is on its way into it
    Check(Place),
}

#[derive(Args)]
pub struct Restored {
    #[command(flatten)]
    store: Place,
    /// Shards that begin with nothing: what they have is deleted. For rows that are lost
    #[arg(long, value_name = "SHARDS", value_delimiter = ',')]
    anew: Vec<u16>,
}

#[derive(Args)]
pub struct Place {
    /// The store
    #[arg(value_name = "ADDRESS", value_parser = address)]
    database: Server,
}

#[derive(Args)]
pub struct Move {
    #[command(flatten)]
    store: Place,
    /// The folder whose content goes into the store
    #[arg(long, value_name = "DIR")]
    from: PathBuf,
    /// As `serve` has it
    #[arg(long, env = "TOTXEGUN_STORE_COPIES", value_name = "N", default_value_t = 2, value_parser = value_parser!(u8).range(1..=2))]
    store_copies: u8,
}

impl Command {
    pub fn run(&self) -> Result<Vec<u8>> {
        Ok(line(match self {
            Command::Init { database, shards } => {
                let shards = PostgresStore::make(database, *shards)?.shards;
                format!("a store of {shards} shards in {database}")
            }
            Command::Move(of) => of.run()?,
            Command::Restored(of) => of.run()?,
            Command::Check(Place { database }) => {
                let standing = PostgresStore::look_into(database, Copies::One)?.standing()?;
                match standing.refusal() {
                    None if standing.folder.is_empty() => format!("the store in {database} counts"),
                    None => {
                        format!(
                            "the store in {database} counts: it has all of the folder {}",
                            standing.folder
                        )
                    }
                    Some(why) => format!("no service starts on the store in {database}: {why}"),
                }
            }
        }))
    }
}

/// The value of `--store-copies`.
pub fn copies(number: u8) -> Copies {
    match number {
        1 => Copies::One,
        _ => Copies::Two,
    }
}

impl Restored {
    fn run(&self) -> Result<String> {
        let database = &self.store.database;
        let anew = PostgresStore::look_into(database, Copies::One)?.restored(&self.anew)?;
        let numbers: Vec<String> = anew.iter().map(u16::to_string).collect();
        let anew = match &numbers[..] {
            [] => String::new(),
            [one] => format!("; shard {one} begins with nothing"),
            several => format!("; the shards {} begin with nothing", several.join(", ")),
        };
        Ok(format!("the store in {database} goes on with what it has{anew}. Start the instances: their log says what the sink has beyond it"))
    }
}

impl Move {
    fn run(&self) -> Result<String> {
        let (from, to) = (self.from.display(), &self.store.database);
        Ok(match from_folder(&self.from, to, copies(self.store_copies))? {
            None => format!("all of {from} was in {to} before, and {to} counts"),
            Some(moved) => format!(
                "{to} has all of {from}, and counts in its place: {} series, {} for the sink, {} not flushed, {} refused for good",
                moved.series,
                counted(moved.requests, "request"),
                counted(moved.posts, "post"),
                counted(moved.letters, "request"),
            ),
        })
    }
}
