//! The metric of our certificate's expiry, read when the page of metrics is made.

use super::{Contexts, Place};
use crate::metrics::Metrics;
use crate::reloaded::Reloaded;
use prometheus::core::{Collector, Desc};
use prometheus::proto::MetricFamily;
use prometheus::IntGauge;
use std::sync::Arc;

/// The metric and the contexts that it is read from.
struct Expiry {
    not_after: IntGauge,
    contexts: Arc<Reloaded<Contexts>>,
}

/// Registers the metric. Without TLS there is none, so no alert of it fires.
pub fn register(of: Place, metrics: &Metrics, contexts: Arc<Reloaded<Contexts>>) -> prometheus::Result<()> {
    let (name, whose) = match of {
        Place::Senders => ("totxegun_certificate_not_after_timestamp_seconds", "the senders' addresses"),
        Place::Peers => ("totxegun_peer_certificate_not_after_timestamp_seconds", "--peer"),
    };
    let help = format!("When the certificate of {whose} expires, in seconds since 1970");
    let not_after = IntGauge::new(name, help)?;
    metrics.registry.register(Box::new(Expiry { not_after, contexts }))
}

impl Collector for Expiry {
    fn desc(&self) -> Vec<&Desc> {
        self.not_after.desc()
    }

    fn collect(&self) -> Vec<MetricFamily> {
        self.not_after.set(self.contexts.now().ends);
        self.not_after.collect()
    }
}
