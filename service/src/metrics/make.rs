//! Defines groups of metrics: a struct of metrics is a table with the field, kind, name, labels and help of each. A
//! name ends with its unit, a counter's with `_total`.

use prometheus::core::{Atomic, Collector, GenericCounter, GenericCounterVec, GenericGauge, GenericGaugeVec};
use prometheus::{Histogram, HistogramOpts, HistogramVec, Opts, Registry, Result};

const SECONDS: [f64; 12] = [0.0001, 0.0003, 0.001, 0.003, 0.01, 0.03, 0.1, 0.3, 1.0, 3.0, 10.0, 30.0];
/// From a post of one point to the longest body.
const BYTES: [f64; 9] =
    [256.0, 1024.0, 4096.0, 16_384.0, 65_536.0, 262_144.0, 1_048_576.0, 4_194_304.0, 16_777_216.0];

/// Label values after `of` exist from the start, so that a rate over them is right. Other fields of the struct come
/// after `with`.
macro_rules! metrics {
    (
        $(#[$about:meta])*
        pub struct $group:ident($registry:ident) {
            $($see:vis $field:ident: $kind:ty =
                $name:literal $([$($label:literal),*])? $(of [$($known:literal),*])?, $help:literal;)*
        }
        $(with { $($also_see:vis $also:ident: $type:ty = $value:expr;)* })?
    ) => {
        $(#[$about])*
        pub struct $group {
            $($see $field: $kind,)*
            $($($also_see $also: $type,)*)?
        }

        impl $group {
            pub fn of($registry: &prometheus::Registry) -> prometheus::Result<$group> {
                use $crate::metrics::make::made;
                $(let $field: $kind =
                    made($registry, $name, &[$($($label),*)?], &[$($($known),*)?], $help)?;)*
                $($(let $also = $value;)*)?
                Ok($group { $($field,)* $($($also,)*)? })
            }
        }
    };
}

pub(super) use metrics;

/// Makes a metric and registers it.
pub(super) fn made<K: Kind>(
    registry: &Registry,
    name: &str,
    labels: &[&str],
    known: &[&str],
    help: &str,
) -> Result<K> {
    let made = K::new(Opts::new(format!("totxegun_{name}"), help), labels, known)?;
    registry.register(Box::new(made.clone()))?;
    Ok(made)
}

/// A kind of metric, with or without labels.
pub(super) trait Kind: Collector + Clone + 'static {
    fn new(options: Opts, labels: &[&str], known: &[&str]) -> Result<Self>;
}

impl<A: Atomic + 'static> Kind for GenericCounter<A> {
    fn new(options: Opts, _: &[&str], _: &[&str]) -> Result<Self> {
        GenericCounter::with_opts(options)
    }
}

impl<A: Atomic + 'static> Kind for GenericCounterVec<A> {
    fn new(options: Opts, labels: &[&str], known: &[&str]) -> Result<Self> {
        let made = GenericCounterVec::new(options, labels)?;
        for value in known {
            made.with_label_values(&[value]);
        }
        Ok(made)
    }
}

impl<A: Atomic + 'static> Kind for GenericGauge<A> {
    fn new(options: Opts, _: &[&str], _: &[&str]) -> Result<Self> {
        GenericGauge::with_opts(options)
    }
}

impl<A: Atomic + 'static> Kind for GenericGaugeVec<A> {
    fn new(options: Opts, labels: &[&str], _: &[&str]) -> Result<Self> {
        GenericGaugeVec::new(options, labels)
    }
}

impl Kind for Histogram {
    fn new(options: Opts, _: &[&str], _: &[&str]) -> Result<Self> {
        Histogram::with_opts(with_buckets(options))
    }
}

impl Kind for HistogramVec {
    fn new(options: Opts, labels: &[&str], _: &[&str]) -> Result<Self> {
        HistogramVec::new(with_buckets(options), labels)
    }
}

/// Buckets by the unit at the end of the name.
fn with_buckets(options: Opts) -> HistogramOpts {
    let buckets = match options.name.ends_with("_bytes") {
        true => BYTES.to_vec(),
        false => SECONDS.to_vec(),
    };
    HistogramOpts { common_opts: options, buckets }
}
