//! `totxegun close` and `reopen`: periods of the sink, for which bills are made.

use super::time_zone::{self, TimeZone};
use super::{ask, ask::Address, client};
use crate::admin::{FLUSHED, FORCE};
use crate::log::seconds;
use crate::sink::periods::{hour_shown, Period};
use anyhow::{bail, Result};
use clap::Args;
use hyper::Method;
use std::time::{Duration, Instant};

/// How long requests that wait may take to reach the sink.
const DELIVERED: Duration = Duration::from_secs(60);
const LOOK: Duration = Duration::from_millis(200);
/// As a rule all is there by then.
const SOON: Duration = Duration::from_secs(1);

#[derive(Args)]
pub struct Close {
    /// A month 2026-11, a day 2026-11-05 or an hour 2026-11-05T13, in UTC, that has ended
    period: Period,
    #[command(flatten)]
    zone: TimeZone,
    /// Flushes first, and waits until the sink has all that was posted so far
    #[arg(long, conflicts_with = "force")]
    flush: bool,
    /// Closes it even if something waits that may belong to it and would come late
    #[arg(long)]
    force: bool,
    #[command(flatten)]
    at: Address,
}

impl Close {
    pub fn run(self) -> Result<Vec<u8>> {
        let period = self.zone.of(&self.period)?;
        has_ended(&period)?;
        if self.flush {
            deliver(&self.at)?;
        }
        let how = match (self.flush, self.force) {
            (true, _) => Some(FLUSHED),
            (false, true) => Some(FORCE),
            (false, false) => None,
        };
        ask::change(&self.at, &time_zone::path("close", &period, how))
    }
}

pub fn open(period: &Period, zone: &TimeZone, at: &Address) -> Result<Vec<u8>> {
    ask::change(at, &time_zone::path("reopen", &zone.of(period)?, None))
}

/// Said before it is waited for a flush. The sink looks at its own clock again.
fn has_ended(period: &Period) -> Result<()> {
    let now = (seconds() / 3600).cast_signed();
    if period.to > now {
        bail!(
            "{period} ends at {} UTC, and it is {}: what has not ended can't be closed",
            hour_shown(period.to),
            hour_shown(now)
        );
    }
    Ok(())
}

/// Flushes, and waits until nothing of it waits. What it waits for is said before it has waited for long.
fn deliver(at: &Address) -> Result<()> {
    client::ask(at, Method::POST, "/flush")?;
    let (begun, mut is_told) = (Instant::now(), false);
    loop {
        let status = client::status(at)?;
        let waiting = status.waiting();
        let unknown = status.unknown();
        if waiting > 0 && !is_told && begun.elapsed() > SOON {
            is_told = true;
            crate::complain(format_args!(
                "{} for {}; the close waits for that for up to {} s: {}",
                ask::waiting_shown(waiting),
                status.sink,
                DELIVERED.as_secs(),
                status.trouble().unwrap_or("they are being delivered")
            ));
        }
        if waiting == 0 && unknown.is_none() {
            return Ok(());
        }
        if begun.elapsed() > DELIVERED {
            if let Some((shard, why)) = unknown {
                bail!(
                    "nothing was closed: after {} s nothing is known of shard {shard} ({why}), which may have requests for {}",
                    DELIVERED.as_secs(),
                    status.sink
                );
            }
            bail!(
                "nothing was closed: after {} s {} for {} still: {}",
                DELIVERED.as_secs(),
                ask::waiting_shown(waiting),
                status.sink,
                status.trouble().unwrap_or("`totxegun status` shows how it goes on")
            );
        }
        std::thread::sleep(LOOK);
    }
}
