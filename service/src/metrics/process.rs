//! The `process_` metrics that every exporter has: processor time, memory, open files, threads.

use crate::log::seconds;
use prometheus::core::{Collector, Desc};
use prometheus::process_collector::ProcessCollector;
use prometheus::proto::{Gauge, MetricFamily};

const STARTED: &str = "process_start_time_seconds";

/// The library's metrics, except for the start time: for that the library reads `/proc/stat`, which the systemd unit
/// hides (`ProcSubset=pid`), and would report 0.
pub struct Process {
    library: ProcessCollector,
    started: u64,
}

impl Process {
    pub fn new() -> Process {
        Process { library: ProcessCollector::for_self(), started: seconds() }
    }
}

impl Collector for Process {
    fn desc(&self) -> Vec<&Desc> {
        self.library.desc()
    }

    fn collect(&self) -> Vec<MetricFamily> {
        let mut families = self.library.collect();
        for started in families.iter_mut().filter(|family| family.get_name() == STARTED) {
            let mut gauge = Gauge::default();
            gauge.set_value(self.started as f64);
            started.mut_metric().iter_mut().for_each(|metric| metric.set_gauge(gauge.clone()));
        }
        families
    }
}
