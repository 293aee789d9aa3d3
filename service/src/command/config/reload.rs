//! SIGHUP: reads the settings again, uses those that may change, and names the others in the log.

use super::{key, read, values, Values};
use crate::metrics::Metrics;
use crate::service::{Ended, Live};
use crate::work::locked;
use std::sync::Mutex;
use tracing_subscriber::{filter::Targets, reload::Handle, Registry};

/// The options that SIGHUP may change. Files of certificates and tokens are read again without it.
const LIVE: [&str; 5] = ["log-level", "log-rejected", "expect-rejected", "sender-series", "sender-points"];

/// Makes what SIGHUP calls. It reads the settings again, and returns those that the service changes itself. If no
/// service would start with the new settings, nothing changes.
pub fn reload(
    level: Handle<Targets, Registry>,
    metrics: &Metrics,
) -> Result<Box<dyn Fn() -> Option<Live> + Send + Sync>, Ended> {
    let started = values(&read(std::env::args_os().collect())?.1);
    let (used, stale) = (Mutex::new(started.clone()), metrics.stale_files.with_label_values(&["--config"]));
    Ok(Box::new(move || match usable() {
        Ok((new, new_level, found)) => {
            let mut used = locked(&used);
            let (live, fixed) = (changed(&used, &found, true), changed(&started, &found, false));
            *used = found;
            tell(&live, &fixed);
            stale.set(i64::from(!fixed.is_empty()));
            // It fails only if the log has ended.
            let _ = level.reload(new_level);
            Some(new)
        }
        Err(why) => {
            stale.set(1);
            let reason = why.to_string();
            tracing::warn!(reason, "SIGHUP: the settings can't be used, and stay as they were");
            None
        }
    }))
}

/// The settings that this process' command line gives now, if a service starts with them: those that may change, the
/// log level, and all values.
fn usable() -> Result<(Live, Targets, Values), Ended> {
    let (options, parsed) = read(std::env::args_os().collect())?;
    let (live, level) = (options.live(), options.level());
    options.check()?;
    Ok((live, level, values(&parsed)))
}

/// The settings that differ, by their keys in the file: those that may change (`is_live`), or the others.
fn changed(before: &Values, now: &Values, is_live: bool) -> Vec<String> {
    let differ = now.iter().filter(|(option, values)| before.get(*option) != Some(values));
    let those = differ.filter(|(option, _)| LIVE.contains(&option.as_str()) == is_live);
    those.map(|(option, _)| key(option)).collect()
}

fn tell(live: &[String], fixed: &[String]) {
    if live.is_empty() && fixed.is_empty() {
        return tracing::info!("SIGHUP: no setting has changed");
    }
    if !live.is_empty() {
        let settings = live.join(", ");
        tracing::info!(settings, "SIGHUP: settings changed, and count from now on");
    }
    if !fixed.is_empty() {
        let settings = fixed.join(", ");
        tracing::warn!(
            settings,
            "SIGHUP: settings changed that need a restart: if totxegun config check finds no fault, systemctl restart \
             totxegun"
        );
    }
}

#[cfg(test)]
mod tests {
    use super::*;
    use crate::command::Line;
    use clap::CommandFactory;

    #[test]
    fn what_changed_is_named_as_the_file_does() {
        let values = |pairs: &[(&str, &str)]| -> Values {
            pairs.iter().map(|(option, value)| (option.to_string(), vec![value.into()])).collect()
        };
        let before = values(&[("log-level", "info"), ("sink", "sqlite:a"), ("threads", "4")]);
        let now = values(&[("log-level", "debug"), ("sink", "sqlite:b"), ("threads", "4")]);
        assert_eq!(changed(&before, &now, true), ["log-level"]);
        assert_eq!(changed(&before, &now, false), ["sink.address"]);
    }

    #[test]
    fn what_may_change_is_an_option() {
        let line = Line::command();
        let serve = line.find_subcommand("serve").unwrap();
        for option in LIVE {
            assert!(serve.get_arguments().any(|it| it.get_long() == Some(option)), "{option}");
        }
    }
}
