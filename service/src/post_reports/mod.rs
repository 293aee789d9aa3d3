//! Reports posts that were not taken, or not completely: in their answers, in the log, and to operators.
//!
//! `Reported` wraps what takes the posts of a shard (`PostHandler`) and changes nothing but the text of the answers. Only a
//! post with points that were not taken has its body read once more, for the answer (`texts`). The reports of all
//! shards share `activity`, the senders that posted, and `logged`, what the log has. For the log one body at a time is
//! read on a blocking thread; bodies that come meanwhile are skipped, since their senders post again.

mod activity;
mod logged;
mod options;
mod texts;

pub use activity::{OfReason, OfSender, SenderActivity};
pub use options::ReportOptions;
pub(crate) use texts::{late, named, of_another, of_owner, of_twice, twice, whose, Interval, SERIES_SHOWN};

use crate::ingest::{PostHandler, ResponseObserver};
use crate::metrics::Metrics;
use crate::otlp::series::SeriesKey;
use crate::otlp::{point_at, Causes, Original, Outcome, Reason, RejectedPoint, Rejection, NO_NAME};
use crate::passthrough::Passthrough;
use crate::shard::{is_sender, Request, Shard, Source};
use crate::work::Readers;
use logged::Logged;
use options::Changing;
use std::sync::atomic::{AtomicBool, Ordering::Relaxed};
use std::sync::{Arc, Mutex};
use texts::{of_late, of_other_writer};

/// How many long bodies are read at a time.
const READERS: usize = 2;

/// Reports the posts of one shard, and hands them on.
pub struct Reported<T> {
    taker: Arc<T>,
    owner: Box<Owner>,
    reporter: Arc<Reporter>,
}

/// Reports the posts of all shards.
pub struct Reporter {
    options: Changing,
    metrics: Arc<Metrics>,
    activity: Arc<SenderActivity>,
    pass: Option<Arc<Passthrough>>,
    readers: Readers,
    is_reading: AtomicBool,
    logged: Mutex<Logged>,
}

/// Returns the owner of a series; known once the series was forwarded.
type Owner = dyn Fn(&SeriesKey) -> Option<String> + Send + Sync;

/// What may be logged about a post.
enum Report {
    Foreign,
    /// The index of the point among those of the profile.
    OtherWriter(u64),
}

impl<T: PostHandler> Reported<T> {
    pub fn new(
        taker: Arc<T>,
        owner: impl Fn(&SeriesKey) -> Option<String> + Send + Sync + 'static,
        reporter: Arc<Reporter>,
    ) -> Arc<Reported<T>> {
        Arc::new(Reported { taker, owner: Box::new(owner), reporter })
    }

    fn tell(&self, report: Report, sender: &str, source: Source) {
        let Some(body) = source.text() else { return };
        match report {
            Report::Foreign => self.reporter.tell_reasons(sender, &body),
            Report::OtherWriter(place) => {
                if let Some((_, series)) = point_at(&body, self.reporter.options.now().profile, place) {
                    self.reporter.tell_owner(sender, series, &*self.owner);
                }
            }
        }
    }
}

impl Reporter {
    /// `activity` is updated for each post. `passthrough` gets the points that are outside the profile.
    pub fn new(
        options: ReportOptions,
        metrics: Arc<Metrics>,
        activity: Arc<SenderActivity>,
        pass: Option<Arc<Passthrough>>,
    ) -> Arc<Reporter> {
        Arc::new(Reporter {
            options: Changing::new(options),
            metrics,
            activity,
            pass,
            readers: Readers::new(READERS),
            is_reading: AtomicBool::new(false),
            logged: Mutex::new(Logged::default()),
        })
    }

    /// Reports with these options from now on.
    pub fn set_options(&self, options: ReportOptions) {
        self.options.set(options);
    }

    fn report(&self, sender: &str, outcome: &Outcome) -> Option<Report> {
        match outcome {
            Outcome::Taken { rejected: 0, .. } => None,
            Outcome::Taken { rejected, off, parts, .. } => {
                let of_another = |(_, why): &&(u64, Rejection)| why.reason == Reason::OtherWriter;
                let other = parts.iter().find(of_another).and_then(|(_, why)| why.point);
                let refused: u64 = parts.iter().map(|(points, _)| points).sum();
                match other {
                    Some(point) => Some(Report::OtherWriter(point.place)),
                    None if *rejected == off.points() + refused => None,
                    None => self.may_tell_more(sender).then_some(Report::Foreign),
                }
            }
            Outcome::Refused(rejection) => match rejection.point {
                Some(point) if rejection.reason == Reason::OtherWriter => {
                    Some(Report::OtherWriter(point.place))
                }
                _ => None,
            },
        }
    }

    /// The answer with what the sender's owner needs to know. An answer without rejected points stays as it is.
    async fn in_words(
        &self,
        sender: &str,
        source: &Source,
        original: Option<Original>,
        outcome: Outcome,
    ) -> Outcome {
        match outcome {
            Outcome::Taken { rejected: 0, .. } => outcome,
            Outcome::Taken { rejected, off, causes: known, parts, .. } => {
                let refused: Causes = parts.iter().map(|(points, why)| (why.reason, *points)).collect();
                let foreign = rejected - off.points() - known.count() - refused.count();
                let causes = match foreign {
                    0 => Causes::default(),
                    _ => self.causes(source, original, foreign).await,
                };
                let causes = causes.and(&known);
                let all = causes.clone().and(&Causes::of_clocks(off));
                self.metrics.rejected(sender, &all.clone().and(&refused), &self.options.now().expected);
                self.tell_rejected(sender, source, &all, off).await;
                Outcome::taken_but(0, off, causes).without(parts)
            }
            Outcome::Refused(rejection) => match rejection.point {
                Some(point) => {
                    let more = self.more(source, point).await;
                    rejection.and(&more.unwrap_or_default()).into()
                }
                None => rejection.into(),
            },
        }
    }

    /// The text that is added to a refusal that names a point.
    async fn more(&self, source: &Source, point: RejectedPoint) -> Option<String> {
        let (profile, place) = (self.options.now().profile, point.place);
        let Some(frontier) = point.frontier else {
            return self.read(source, move |body| of_other_writer(body, profile, place)).await?;
        };
        let at = (place, frontier);
        let text =
            move |body: &[u8]| of_twice(body, profile, at).unwrap_or_else(|| of_late(body, profile, at));
        self.read(source, text).await
    }

    /// Why so many points were not taken, without those that are handed on.
    async fn causes(&self, source: &Source, original: Option<Original>, foreign: u64) -> Causes {
        let profile = self.options.now().profile;
        let (Some(pass), Some(original)) = (&self.pass, original) else {
            let find = move |body: &[u8]| Causes::of(body, profile, foreign);
            let causes = self.read(source, find).await;
            return causes.unwrap_or_else(|| find(b""));
        };
        let (length, source) = (source.length().max(original.body.len()), source.clone());
        let find = move || original.outside(foreign, profile, || source.text());
        let (outside, causes) = self.readers.read(length, find).await;
        if let Some(outside) = outside {
            pass.hand_on(outside);
        }
        causes
    }

    async fn read<R: Send + 'static>(
        &self,
        source: &Source,
        read: impl FnOnce(&[u8]) -> R + Send + 'static,
    ) -> Option<R> {
        let source = source.clone();
        let length = source.length();
        self.readers.read(length, move || source.text().map(|body| read(&body))).await
    }
}

impl<T: PostHandler> PostHandler for Reported<T> {
    fn shard(&self) -> Option<&Shard> {
        self.taker.shard()
    }

    fn wants_originals(&self) -> bool {
        self.reporter.pass.is_some()
    }

    async fn post(self: &Arc<Self>, sender: &str, request: Request, original: Option<Original>) -> Outcome {
        let reporter = &self.reporter;
        let source = request.source();
        let outcome = self.taker.post(sender, request, None).await;
        if let Outcome::Taken { rejected: 0, .. } = outcome {
            return outcome; // nearly all posts: there is nothing to report
        }
        reporter.note_refused_points(sender, &outcome);
        let report = reporter.report(sender, &outcome);
        let outcome = reporter.in_words(sender, &source, original, outcome).await;
        let report = report.filter(|_| outcome != Outcome::taken(0));
        if let Some(report) = report {
            if !reporter.is_reading.swap(true, Relaxed) {
                let (reported, sender) = (self.clone(), sender.to_string());
                tokio::task::spawn_blocking(move || {
                    reported.tell(report, &sender, source);
                    reported.reporter.is_reading.store(false, Relaxed);
                });
            }
        }
        outcome
    }
}

impl ResponseObserver for Reporter {
    fn answered(&self, sender: &str, outcome: &Outcome) {
        match is_sender(sender) || self.is_known_stranger(sender) {
            true => self.note(sender, outcome),
            false => self.note(NO_NAME, outcome),
        }
    }

    fn part_refused(&self, sender: &str, outcome: &Outcome) {
        if let Some(reason) = outcome.reason() {
            self.metrics.refused_parts.with_label_values(&[reason.label()]).inc();
        }
        self.note(sender, outcome);
    }
}

#[cfg(test)]
mod tests;
