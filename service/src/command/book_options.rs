//! Options of the book: how many series fit, and how much memory it may have.

use super::values::size_from;
use crate::book;
use clap::{value_parser, Args};
use std::path::Path;

/// With less, there is hardly room to read a request of 4 MiB.
const LEAST_MEMORY: u64 = 64 << 20;

#[derive(Args)]
#[command(next_help_heading = "Options of the book")]
pub struct BookOptions {
    /// How many series certainly fit
    #[arg(long, env = "TOTXEGUN_MAX_SERIES", value_name = "N", default_value_t = 100_000, value_parser = value_parser!(u64).range(1..=book::MOST_SERIES as u64))]
    pub max_series: u64,
    /// The most memory that the book may have: posts get 503 before it is used up [default: half of what this process may have]
    #[arg(long, env = "TOTXEGUN_MAX_MEMORY", value_name = "BYTES", value_parser = size_from(LEAST_MEMORY, "with less than 64MiB there is no room for a long request"))]
    max_memory: Option<u64>,
}

impl BookOptions {
    pub fn memory(&self) -> u64 {
        let most = self.max_memory.unwrap_or_else(|| (machine_memory() / 2).max(LEAST_MEMORY));
        tracing::info!(memory_limit_bytes = most, "the book has so much memory at most");
        most
    }
}

/// The memory of the machine, or of this process' control group if that is less.
fn machine_memory() -> u64 {
    let total = nix::sys::sysinfo::sysinfo().map_or(LEAST_MEMORY, |machine| machine.ram_total());
    let groups = std::fs::read_to_string("/proc/self/cgroup").unwrap_or_default();
    let group = groups.lines().find_map(|line| line.strip_prefix("0::/"));
    let most = group.and_then(|group| memory_of(Path::new("/sys/fs/cgroup"), group));
    total.min(most.unwrap_or(u64::MAX))
}

/// The least limit of a control group and those that it is in, such as a slice of systemd or a pod of Kubernetes. None
/// if none has a limit.
fn memory_of(groups: &Path, group: &str) -> Option<u64> {
    let most_of = |group: &Path| {
        let most = std::fs::read_to_string(groups.join(group).join("memory.max")).ok()?;
        most.trim().parse::<u64>().ok() // `max` if it has no limit
    };
    Path::new(group).ancestors().filter_map(most_of).min()
}

#[cfg(test)]
mod tests {
    use super::*;

    /// Otherwise the kernel would kill the service, which believes that it has more.
    #[test]
    fn the_least_bound_of_all_groups_around_counts() {
        let folder = tempfile::tempdir().unwrap();
        let put = |group: &str, most: &str| {
            let group = folder.path().join(group);
            std::fs::create_dir_all(&group).unwrap();
            std::fs::write(group.join("memory.max"), most).unwrap();
        };
        let found = |group| memory_of(folder.path(), group);
        put("a.slice/b.slice/c.service", "max\n");
        put("a.slice", "max\n");
        assert_eq!([found("a.slice/b.slice/c.service"), found("d"), found("")], [None; 3]);
        put("a.slice/b.slice", "3000\n");
        put("a.slice", "4000\n");
        put("d", "1\n");
        assert_eq!(found("a.slice/b.slice/c.service"), Some(3000));
        put("a.slice", "2000\n");
        put("a.slice/b.slice/c.service", "5000\n");
        assert_eq!(found("a.slice/b.slice/c.service"), Some(2000));
        put("", "1000\n"); // as a container sees its own group
        assert_eq!([found("a.slice/b.slice/c.service"), found("")], [Some(1000); 2]);
    }
}
