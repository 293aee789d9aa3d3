//! Writes the page: families of series, each under its own name, with their samples.

use super::labels::{self, Labels};
use super::names;
use crate::sink::sql::totals::{Histogram, Kind, SeriesTotal};
use std::collections::{BTreeMap, BTreeSet, HashSet};
use std::fmt::Display;
use std::io::{self, Write};

const TARGET: &str = "target_info";

/// All series of one kind whose names become the same.
type Families<'a> = BTreeMap<(Kind, String), Vec<&'a SeriesTotal>>;

fn text(kind: Kind) -> &'static str {
    match kind {
        Kind::Monotonic => "counter",
        Kind::Histogram => "histogram",
        Kind::Sum => "gauge",
    }
}

/// All names that a family uses, for itself and for its samples.
fn all_names(name: &str, kind: Kind) -> Vec<String> {
    let mut names = vec![name.to_string()];
    if kind == Kind::Histogram {
        names.extend(["bucket", "count", "sum"].map(|last| format!("{name}_{last}")));
    }
    names
}

/// Which time stands at each sample.
#[derive(Clone, Copy, Debug, PartialEq, Eq)]
pub enum Times {
    /// None, so Prometheus uses that of the scrape.
    None,
    /// The end of the series' last interval.
    OfIntervals,
}

impl Times {
    /// The text after a value: a time in milliseconds since 1970.
    fn of(self, series: &SeriesTotal) -> String {
        match self {
            Times::None => String::new(),
            Times::OfIntervals => format!(" {}", series.end_ns / 1_000_000),
        }
    }
}

/// Writes totals in Prometheus' text format, one line at a time.
pub fn write(totals: &[SeriesTotal], times: Times, to: &mut impl Write) -> io::Result<()> {
    let mut families = Families::new();
    for series in totals {
        let name = names::metric(&series.name, &series.unit, series.kind);
        families.entry((series.kind, name)).or_default().push(series);
    }
    let mut used = HashSet::from([TARGET.to_string()]);
    for ((kind, name), series) in &families {
        let name = free(name, *kind, &mut used);
        family(to, &name, *kind, series, times)?;
    }
    targets(to, totals)
}

/// The name, or one with the kind if another family has the name.
fn free(name: &str, kind: Kind, used: &mut HashSet<String>) -> String {
    let mut name = name.to_string();
    while all_names(&name, kind).iter().any(|name| used.contains(name)) {
        name = format!("{name}_{}", text(kind));
    }
    used.extend(all_names(&name, kind));
    name
}

fn family(
    to: &mut impl Write,
    name: &str,
    kind: Kind,
    series: &[&SeriesTotal],
    times: Times,
) -> io::Result<()> {
    let sources: BTreeSet<(&str, &str)> =
        series.iter().map(|one| (one.name.as_str(), one.unit.as_str())).collect();
    head(to, name, kind, &sources)?;
    for one in series {
        let labels = labels::of_series(one);
        match &one.histogram {
            Some(histogram) => buckets(to, name, &labels, (one, histogram), &times.of(one))?,
            None => line(to, name, &labels::written(&labels, None), one.total, &times.of(one))?,
        }
    }
    Ok(())
}

fn head(to: &mut impl Write, name: &str, kind: Kind, sources: &BTreeSet<(&str, &str)>) -> io::Result<()> {
    let told: Vec<String> = sources
        .iter()
        .map(|(name, unit)| match *unit {
            "" => name.to_string(),
            unit => format!("{name} in {unit}"),
        })
        .collect();
    let help = told.join(", ").replace('\\', "\\\\").replace('\n', "\\n").replace('\0', "\u{fffd}");
    let kind = text(kind);
    writeln!(to, "# HELP {name} OpenTelemetry: {help}\n# TYPE {name} {kind}")
}

/// Prometheus' buckets are cumulative: each has all values up to its bound.
fn buckets(
    to: &mut impl Write,
    name: &str,
    labels: &Labels,
    (series, histogram): (&SeriesTotal, &Histogram),
    time: &str,
) -> io::Result<()> {
    let bucket = format!("{name}_bucket");
    let mut below = 0;
    for (bound, count) in histogram.bounds.iter().zip(&histogram.buckets) {
        below += count.0;
        line(to, &bucket, &labels::written(labels, Some(&bound.to_string())), below, time)?;
    }
    line(to, &bucket, &labels::written(labels, Some("+Inf")), histogram.count, time)?;
    let labels = labels::written(labels, None);
    // If some points have no sum, the sum of the others would give a wrong mean.
    if histogram.points_without_sum == 0 {
        line(to, &format!("{name}_sum"), &labels, series.total, time)?;
    }
    line(to, &format!("{name}_count"), &labels, histogram.count, time)
}

fn targets(to: &mut impl Write, totals: &[SeriesTotal]) -> io::Result<()> {
    let targets: BTreeSet<String> = totals
        .iter()
        .filter_map(|series| labels::of_resource(&series.resource))
        .map(|labels| labels::written(&labels, None))
        .collect();
    if targets.is_empty() {
        return Ok(());
    }
    writeln!(to, "# HELP {TARGET} Attributes of the resources\n# TYPE {TARGET} gauge")?;
    targets.iter().try_for_each(|labels| line(to, TARGET, labels, 1, ""))
}

fn line(to: &mut impl Write, name: &str, labels: &str, value: impl Display, time: &str) -> io::Result<()> {
    writeln!(to, "{name}{labels} {value}{time}")
}
