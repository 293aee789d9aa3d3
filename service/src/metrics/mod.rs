//! The metrics of the service, and the page that Prometheus scrapes. All parts of the service count here, and `admin`
//! serves the page. No label takes an unbounded number of values from senders.

mod cluster;
mod make;
mod process;
mod rounding;

pub use cluster::ClusterMetrics;
pub use rounding::{RoundedSeries, SeriesOfRule, SHOWN as SHOWN_OF_RULE};

use crate::otlp::{Causes, Encoding, Outcome, Reason, Rounded, Rounding};
use crate::quota::Used;
use crate::work::locked;
use ahash::AHashMap;
use make::metrics;
use process::Process;
use prometheus::core::Collector;
use prometheus::{
    CounterVec, Encoder, Gauge, GaugeVec, Histogram, HistogramVec, IntCounter, IntCounterVec, IntGauge,
    IntGaugeVec, Registry, TextEncoder,
};
use rounding::RoundingBySeries;
use std::sync::Mutex;
use std::time::Instant;

/// How many senders have a label of their own; further ones share `other`.
const SENDERS: usize = 64;
const OTHER: &str = "other";

metrics! {
    /// The metrics of the process. Counters begin at 0 with it.
    pub struct Metrics(registry) {
        requests: IntCounterVec = "requests_total" ["code", "reason"],
            "Requests of senders, by the status of the answer and the reason of a refusal";
        request_duration: HistogramVec = "request_duration_seconds" ["encoding", "code"],
            "Time from the head of a request until its answer is ready, by encoding and status";
        pub request_size: Histogram = "request_size_bytes", "Length of the bodies of requests, uncompressed";
        pub refused_parts: IntCounterVec = "refused_parts_total" ["reason"],
            "Parts for other shards that were refused, of requests that were accepted, by reason";
        // Both have the label `sender`, with at most `SENDERS` values and `other`.
        accepted_points: IntCounterVec = "accepted_points_total" ["sender"], "Points that were accepted";
        rejected_points: IntCounterVec = "rejected_points_total" ["sender", "reason"],
            "Rejected points of accepted requests, without those that --expect-rejected names";
        duplicate_points: IntCounterVec = "duplicate_points_total" ["sender"],
            "Duplicate points: they are left out, and answered as the first time";
        pub late_points: IntCounterVec = "late_points_total" ["outcome"] of ["kept", "not_kept"],
            "Points that their series refused, by whether they are kept as late data (`totxegun late`)";
        expected_rejected_points: IntCounterVec = "expected_rejected_points_total" ["reason"],
            "Rejected points that --expect-rejected names";
        pub unsupported_points: IntCounterVec = "unsupported_points_total" ["outcome"] of ["taken", "refused", "lost", "dropped"],
            "Points outside the profile that --forward-unsupported sends on, by outcome";
        pub rounded_values: IntCounterVec = "rounded_values_total" ["rule"],
            "Values of posts that were taken that `--integer-unit` has rounded, by its rule";
        pub rounding: CounterVec = "rounding_units_total" ["rule"],
            "Total rounding of these values over all series, in the finer unit";
        // The maximum of `by_series`, set when the page is made.
        greatest_rounding: GaugeVec = "greatest_rounding_units" ["rule"],
            "Largest total rounding of one series, in the finer unit: no series' total is further off";
        // `quota` is `series` or `points`. Set when the page is made.
        sender_quota: GaugeVec = "sender_quota_ratio" ["sender", "quota"],
            "What a sender has used of its quota: of its series, or of a minute's points; of the ten that are nearest to it";
        pub checkpoints: IntCounterVec = "checkpoints_total" ["outcome"] of ["done", "failed"],
            "Checkpoints, by outcome";
        pub rounds_closed: IntCounter = "rounds_closed_total", "Rounds of a book that were closed";
        pub forwarded_requests: IntCounter = "forwarded_requests_total", "Requests put into the outbox";
        // A request that is `denied` is retried, too.
        pub deliveries: IntCounterVec = "deliveries_total" ["outcome"] of ["taken", "partial", "again", "denied", "refused"],
            "Attempts to deliver a request, by outcome";
        pub sink_ahead: IntGaugeVec = "sink_ahead_requests" ["shard"],
            "Requests that the sink had but the store lacked when a shard was opened here: the store was restored to an \
             earlier state";
        pub noted_runs: IntCounter = "noted_runs_total",
            "Cumulative series that count from their first point here: what they had before is left out";
        pub forgotten_series: IntCounter = "forgotten_series_total", "Series that expired (--series-ttl)";
        pub log_lines_lost: IntCounter = "log_lines_lost_total",
            "Log lines that were dropped, since they could not be written, or not in time";
        pub handshakes: IntCounterVec = "handshakes_total" ["outcome"] of ["done", "failed", "late"],
            "TLS handshakes of senders, by outcome";
        pub stale_files: IntGaugeVec = "stale_files" ["option"],
            "1 while the changed file of an option is not in use, because it is not valid or a setting needs a restart";
        // These should never occur.
        pub faults: IntCounterVec = "faults_total" ["kind"] of ["owner", "replay", "points_rejected_by_sink"],
            "Points that the sink rejected, and bugs of the program";
        pub checkpoint_pause_seconds: Histogram = "checkpoint_pause_seconds", "How long a checkpoint paused posts";
        pub last_recovery: Gauge = "last_recovery_duration_seconds",
            "How long the last start of a shard took to replay the journal, plus what seeding the book took longer than \
             opening the files";
        build_info: IntGaugeVec = "build_info" ["version", "book"],
            "1, with the version of the program and the revision of the book in it";
    }
    with {
        pub levels: Levels = Levels::of(registry)?;
        pub registry: Registry = registry.clone();
        by_series: RoundingBySeries = RoundingBySeries::new();
        // Most answers are 200, so their counters are not looked up.
        taken_requests: IntCounter = requests.with_label_values(&["200", ""]);
        taken_json: Histogram = request_duration.with_label_values(&["json", "200"]);
        taken_protobuf: Histogram = request_duration.with_label_values(&["protobuf", "200"]);
        // The senders with a label, each with the counter of its accepted points.
        senders: Mutex<AHashMap<String, IntCounter>> = Mutex::default();
    }
}

metrics! {
    /// Gauges of values that are kept elsewhere; set only when somebody asks.
    pub struct Levels(registry) {
        pub ready: IntGauge = "ready", "1 while posts are accepted, 0 while they get 503";
        pub post_bytes_in_flight: IntGauge = "post_bytes_in_flight", "Memory that posts hold until they are answered";
        pub journal_bytes: IntGauge = "journal_bytes", "Bytes of the journal's segments";
        pub journal_age_seconds: IntGauge = "journal_age_seconds", "Age of the oldest post that may not be flushed yet";
        pub outbox_requests: IntGauge = "outbox_requests", "Requests that the sink does not have yet";
        pub outbox_bytes: IntGauge = "outbox_bytes", "Bytes on disk of requests that the sink does not have yet";
        pub outbox_age_seconds: IntGauge = "outbox_age_seconds", "Age of the oldest request that the sink does not have yet";
        pub late_bytes: IntGauge = "late_bytes", "Bytes on disk of late data";
        pub dead_letters: IntGauge = "dead_letters", "Requests that the sink refused for good, kept aside";
        pub quarantined_senders: IntGauge = "quarantined_senders",
            "Quarantined senders: their points are kept back, and their posts refused; of several instances only the one \
             that owns the first shard counts them";
        pub parked_posts: IntGauge = "parked_posts", "Posts of quarantined senders that are kept back";
        pub parked_bytes: IntGauge = "parked_bytes", "Bytes on disk of these posts";
        pub delivery_stuck: IntGauge = "delivery_stuck",
            "1 while a waiting request can't be delivered because its file was changed";
        pub disk_call_seconds: Gauge = "disk_call_seconds",
            "Age of the oldest unfinished disk call; 0 if there is none";
        pub disk_free_bytes: IntGauge = "disk_free_bytes", "Free bytes on the file system of the folder";
        pub series: IntGauge = "series", "Known series";
        pub cumulative_series: IntGauge = "cumulative_series", "Series with cumulative points";
        pub series_limit: IntGauge = "series_limit", "Number of series for which there is room in any case";
        pub book_memory_bytes: IntGauge = "memory_bytes", "Memory that the book uses";
        pub memory_limit_bytes: IntGauge = "memory_limit_bytes", "Memory that the book may use";
    }
}

impl Metrics {
    pub fn new() -> prometheus::Result<Metrics> {
        let metrics = Metrics::of(&Registry::new())?;
        metrics.registry.register(Box::new(Process::new()))?;
        let book = option_env!("BOOK_REVISION").unwrap_or("unknown");
        metrics.build_info.with_label_values(&[env!("CARGO_PKG_VERSION"), book]).set(1);
        Ok(metrics)
    }

    /// Sets the limit of series.
    pub fn limit_series(&self, limit: u64) {
        self.by_series.has_room_for(limit as usize);
    }

    /// Counts an answer to a sender; its request began at `began`.
    pub fn answered(&self, outcome: &Outcome, encoding: Encoding, began: Instant) {
        let took = began.elapsed().as_secs_f64();
        if let Some(reason) = outcome.reason() {
            let code = reason.status().to_string();
            self.requests.with_label_values(&[&code, reason.label()]).inc();
            return self.request_duration.with_label_values(&[encoding.label(), &code]).observe(took);
        }
        self.taken_requests.inc();
        match encoding {
            Encoding::Json => self.taken_json.observe(took),
            Encoding::Protobuf => self.taken_protobuf.observe(took),
        }
    }

    /// Counts points that were taken.
    pub fn accepted(&self, sender: &str, points: u64) {
        if points > 0 {
            self.count_sender(sender, |accepted| accepted.inc_by(points));
        }
    }

    /// Counts duplicates.
    pub fn duplicates(&self, sender: &str, points: u64) {
        self.duplicate_points.with_label_values(&[self.label(sender)]).inc_by(points);
    }

    /// Counts rejected points of a request that was taken.
    pub fn rejected(&self, sender: &str, causes: &Causes, expected: &[Reason]) {
        for (reason, points) in causes.iter() {
            let name = reason.label();
            if expected.contains(&reason) {
                self.expected_rejected_points.with_label_values(&[name]).inc_by(points);
            } else {
                self.rejected_points.with_label_values(&[self.label(sender), name]).inc_by(points);
            }
        }
    }

    /// How many points were rejected since the start, by sender and reason.
    pub fn all_rejected(&self) -> Vec<(String, Reason, u64)> {
        let families = self.rejected_points.collect();
        let rows = families.iter().flat_map(|family| family.get_metric());
        rows.filter_map(|row| {
            let labels = || row.get_label().iter();
            let value = |name| labels().find(|label| label.get_name() == name).map(|label| label.get_value());
            let reason = Reason::labelled(value("reason")?)?;
            Some((value("sender")?.to_string(), reason, row.get_counter().get_value() as u64))
        })
        .collect()
    }

    /// Requests since the start: those that were taken, and the others.
    pub fn requests_answered(&self) -> (u64, u64) {
        let families = self.requests.collect();
        let rows = families.iter().flat_map(|family| family.get_metric());
        let all: f64 = rows.map(|row| row.get_counter().get_value()).sum();
        let taken = self.taken_requests.get();
        (taken, (all as u64).saturating_sub(taken))
    }

    /// Counts what was rounded of a post that was taken.
    pub fn rounded(&self, rounded: &Rounded) {
        for (rule, rounding) in &rounded.by_rule {
            self.rounded_values.with_label_values(&[rule]).inc_by(rounding.values);
            self.rounding.with_label_values(&[rule]).inc_by(rounding.together);
        }
        self.by_series.add(rounded);
    }

    /// What was rounded since the start, by rule.
    pub fn all_rounded(&self) -> Vec<(String, Rounding)> {
        let families = self.rounded_values.collect();
        let rows = families.iter().flat_map(|family| family.get_metric());
        rows.flat_map(|row| row.get_label())
            .map(|label| {
                let rule = label.get_value().to_string();
                let rounding = Rounding {
                    values: self.rounded_values.with_label_values(&[&rule]).get(),
                    together: self.rounding.with_label_values(&[&rule]).get(),
                };
                (rule, rounding)
            })
            .collect()
    }

    /// The series that a rule has rounded since the start.
    pub fn rounded_series(&self, rule: &str) -> SeriesOfRule {
        self.by_series.of_rule(rule)
    }

    fn label<'s>(&self, sender: &'s str) -> &'s str {
        if self.count_sender(sender, |_| ()) {
            sender
        } else {
            OTHER
        }
    }

    /// Counts points of a sender; returns whether it has a label of its own. Names can be made up, so only so many get
    /// one.
    fn count_sender(&self, sender: &str, count: impl FnOnce(&IntCounter)) -> bool {
        let mut senders = locked(&self.senders);
        if let Some(accepted) = senders.get(sender) {
            count(accepted);
            return true;
        }
        let is_new = senders.len() < SENDERS;
        let accepted = self.accepted_points.with_label_values(&[if is_new { sender } else { OTHER }]);
        count(&accepted);
        if is_new {
            senders.insert(sender.to_string(), accepted);
        }
        is_new
    }

    /// Shows the quotas of these senders alone.
    pub fn quotas(&self, nearest: &[Used]) {
        self.sender_quota.reset();
        for used in nearest {
            let both = [
                ("series", used.max_series, used.part_of_series()),
                ("points", used.max_points, used.part_of_points()),
            ];
            for (quota, _, part) in both.into_iter().filter(|(_, most, _)| most.is_some()) {
                self.sender_quota.with_label_values(&[&used.sender, quota]).set(part);
            }
        }
    }

    /// The page in Prometheus' text format.
    pub fn page(&self) -> Vec<u8> {
        for (rule, units) in self.by_series.greatest() {
            self.greatest_rounding.with_label_values(&[&*rule]).set(units);
        }
        let mut page = Vec::new();
        if let Err(error) = TextEncoder::new().encode(&self.registry.gather(), &mut page) {
            let reason = error.to_string();
            tracing::warn!(reason, "the page of metrics is incomplete");
        }
        page
    }
}

#[cfg(test)]
mod tests {
    use super::*;
    use crate::otlp::Profile;

    fn page(metrics: &Metrics) -> String {
        String::from_utf8(metrics.page()).unwrap()
    }

    #[test]
    fn names_of_senders_are_bounded() {
        let metrics = Metrics::new().unwrap();
        let other = |points| Causes::of(b"", Profile::Deltas, points);
        for sender in 0..1000 {
            metrics.rejected(&format!("sender{sender}"), &other(2), &[]);
            metrics.accepted(&format!("sender{sender}"), 3);
        }
        metrics.rejected("sender0", &other(1), &[]);
        metrics.rejected("unseen", &other(0), &[]);
        metrics.rejected("unseen", &other(5), &[Reason::Other]);
        metrics.accepted("unseen", 0);
        let page = page(&metrics);
        let lines = |name: &str| -> Vec<&str> {
            page.lines().filter(|line| line.starts_with(&format!("totxegun_{name}_points_total{{"))).collect()
        };
        let rejected = lines("rejected");
        assert_eq!(rejected.len(), SENDERS + 1);
        assert!(rejected.contains(&"totxegun_rejected_points_total{reason=\"other\",sender=\"sender0\"} 3"));
        assert!(rejected.contains(&"totxegun_rejected_points_total{reason=\"other\",sender=\"other\"} 1872"));
        assert_eq!(
            lines("expected_rejected"),
            ["totxegun_expected_rejected_points_total{reason=\"other\"} 5"]
        );
        let accepted = lines("accepted");
        assert_eq!(accepted.len(), SENDERS + 1);
        assert!(accepted.contains(&"totxegun_accepted_points_total{sender=\"sender0\"} 3"));
        assert!(accepted.contains(&"totxegun_accepted_points_total{sender=\"other\"} 2808"));
    }

    #[test]
    fn what_is_rounded_is_counted_by_rule() {
        let metrics = Metrics::new().unwrap();
        assert_eq!(metrics.all_rounded(), []);
        let (rule, once) = ("s=1000:ms".to_string(), Rounding { values: 2, together: 0.75 });
        let rounded = Rounded { by_rule: [(rule.clone(), once)].into(), ..Rounded::default() };
        metrics.rounded(&rounded);
        metrics.rounded(&rounded);
        let twice = Rounding { values: 4, together: 1.5 };
        assert_eq!(metrics.all_rounded(), [(rule, twice)]);
        let page = page(&metrics);
        assert!(page.contains("totxegun_rounding_units_total{rule=\"s=1000:ms\"} 1.5"), "{page}");
    }

    #[test]
    fn the_page_names_what_there_is_from_the_start() {
        let metrics = Metrics::new().unwrap();
        let began = Instant::now();
        metrics.answered(&Outcome::taken(0), Encoding::Json, began);
        metrics.answered(&Outcome::taken(5), Encoding::Protobuf, began);
        metrics.answered(&Reason::OutOfOrder.into(), Encoding::Json, began);
        metrics.request_size.observe(300.0);
        let page = page(&metrics);
        for line in [
            "totxegun_requests_total{code=\"200\",reason=\"\"} 2",
            "totxegun_requests_total{code=\"400\",reason=\"duplicate_or_late\"} 1",
            "totxegun_request_duration_seconds_count{code=\"200\",encoding=\"json\"} 1",
            "totxegun_request_duration_seconds_count{code=\"200\",encoding=\"protobuf\"} 1",
            "totxegun_request_duration_seconds_bucket{code=\"400\",encoding=\"json\",le=\"+Inf\"} 1",
            "totxegun_request_size_bytes_bucket{le=\"256\"} 0",
            "totxegun_request_size_bytes_bucket{le=\"1024\"} 1",
            "totxegun_deliveries_total{outcome=\"taken\"} 0",
            "totxegun_deliveries_total{outcome=\"partial\"} 0",
            "totxegun_deliveries_total{outcome=\"denied\"} 0",
            "totxegun_checkpoints_total{outcome=\"failed\"} 0",
            "totxegun_dead_letters 0",
            "totxegun_quarantined_senders 0",
            "totxegun_parked_posts 0",
            "totxegun_parked_bytes 0",
            "totxegun_delivery_stuck 0",
            "totxegun_disk_call_seconds 0",
            "totxegun_ready 0",
            "totxegun_log_lines_lost_total 0",
        ] {
            assert!(page.lines().any(|found| found == line), "{line} in\n{page}");
        }
        let version = concat!("version=\"", env!("CARGO_PKG_VERSION"), "\"} 1");
        let is_of_build = |line: &&str| line.starts_with("totxegun_build_info{book=\"");
        assert!(page.lines().find(is_of_build).unwrap().ends_with(version), "{page}");
    }

    /// Also if `/proc/stat` is hidden, as by the systemd unit.
    #[test]
    fn the_page_has_the_process() {
        let page = page(&Metrics::new().unwrap());
        let value = |name: &str| -> f64 {
            let line = page.lines().find_map(|line| line.strip_prefix(name)?.strip_prefix(' '));
            line.unwrap_or_else(|| panic!("{name} in\n{page}")).parse().unwrap()
        };
        let since = crate::log::seconds() as f64 - value("process_start_time_seconds");
        assert!((0.0..600.0).contains(&since), "{since}");
        assert!(value("process_resident_memory_bytes") > 1e6 && value("process_open_fds") > 2.0);
        assert!(value("process_cpu_seconds_total") >= 0.0 && value("process_threads") >= 1.0);
    }
}
