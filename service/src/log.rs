//! The log: a thread writes the service's messages to standard error.
//!
//! The reader of the log may stop reading, and whoever writes then blocks: so no thread that serves may write. Lines
//! are queued for the log's thread up to a bound; lines that find no room or can't be written are counted, and a line
//! in their place says how many are missing. A panic is written in the same way, and ends the process. `form` formats
//! lines; `shown` makes foreign texts safe to show.

mod form;
mod once_an_hour;
mod rate_limit;
mod shown;
mod time;

pub use form::{Events, Form};
pub use once_an_hour::OnceAnHour;
pub use rate_limit::RateLimit;
pub use shown::{all_shown, cut, shown};
pub use time::{date, days, now, of_nanoseconds, seconds, since_1970, utc};

use crate::work::locked;
use prometheus::IntCounter;
use std::backtrace::{Backtrace, BacktraceStatus};
use std::fmt::Arguments;
use std::io::{self, Write};
use std::panic::PanicHookInfo;
use std::sync::{Arc, Condvar, Mutex, OnceLock, PoisonError};
use std::time::{Duration, Instant};
use tracing::Level;

/// The most bytes that are queued; as many at most are being written.
const MOST_WAITING: usize = 1 << 20;
/// How long the end of the process waits until its last lines are written.
const LAST_LINES: Duration = Duration::from_secs(1);

/// The log of a serving process. A command writes to standard error directly.
static LOG: OnceLock<Arc<Log>> = OnceLock::new();

/// The queue between the threads that log and the one that writes.
pub struct Log {
    state: Mutex<State>,
    changed: Condvar,
    /// Counts lines that were lost.
    lost: IntCounter,
    form: Form,
}

#[derive(Default)]
struct State {
    waiting: Lines,
    is_writing: bool,
}

/// Complete lines, and how many are missing after them.
#[derive(Default)]
struct Lines {
    text: Vec<u8>,
    missing: u64,
}

/// Starts the thread. From then on `complain` uses it too.
pub fn start(lost: IntCounter, form: Form) -> io::Result<Arc<Log>> {
    let log = Arc::new(Log::new(lost, form));
    let writing = log.clone();
    std::thread::Builder::new().name("log".into()).spawn(move || writing.write_to(io::stderr()))?;
    Ok(LOG.get_or_init(|| log).clone())
}

/// Writes to standard error why the program ends or waits, or what it could not do. Never fails, since the log may be
/// on the disk that has failed; the exit status counts in any case.
pub fn complain(what: Arguments) {
    let what = what.to_string();
    let Some(log) = LOG.get() else {
        let _ = io::stderr().write_all(Form::default().note(Level::ERROR, &what).as_bytes());
        return;
    };
    let line = log.form.note(Level::ERROR, &what);
    let until = Instant::now() + LAST_LINES;
    log.wait_until_written(until); // so that there is room
    log.put(line.as_bytes());
    log.wait_until_written(until);
}

/// Waits until the last lines are written, since the process ends; not for long, in case nobody reads them.
pub fn finish() {
    if let Some(log) = LOG.get() {
        log.wait_until_written(Instant::now() + LAST_LINES);
    }
}

/// Makes a panic of any thread end the process before anything unwinds, so that no other thread sees what it left half
/// changed. This works however the program is compiled: tests don't have the release profile's `panic = "abort"`.
pub fn end_by_panics() {
    std::panic::set_hook(Box::new(end_by_panic));
}

fn end_by_panic(panic: &PanicHookInfo) {
    let calls = Backtrace::capture();
    match calls.status() {
        BacktraceStatus::Captured => complain(format_args!("{panic}\n{calls}")),
        _ => complain(format_args!("{panic}")),
    }
    std::process::abort();
}

impl Log {
    fn new(lost: IntCounter, form: Form) -> Log {
        Log { state: Mutex::default(), changed: Condvar::new(), lost, form }
    }

    /// Queues a line. Never waits.
    fn put(&self, line: &[u8]) {
        let mut state = locked(&self.state);
        let waiting = &mut state.waiting;
        // After a missing line all further ones are missing too, so that one place says how many.
        if waiting.missing > 0 || waiting.text.len() + line.len() > MOST_WAITING {
            waiting.missing += 1;
            self.lost.inc();
        } else {
            waiting.text.extend_from_slice(line);
        }
        self.changed.notify_all();
    }

    fn write_to(&self, out: impl Write) {
        let mut output = Output { out, form: self.form, missing: 0 };
        loop {
            let lines = self.next();
            self.lost.inc_by(output.write(&lines));
        }
    }

    /// Waits for lines. Those that the previous call returned are written by now.
    fn next(&self) -> Lines {
        let mut state = locked(&self.state);
        state.is_writing = false;
        self.changed.notify_all();
        let woken = self.changed.wait_while(state, |state| state.waiting.is_empty());
        let mut state = woken.unwrap_or_else(PoisonError::into_inner);
        state.is_writing = true;
        std::mem::take(&mut state.waiting)
    }

    fn wait_until_written(&self, until: Instant) {
        let left = until.saturating_duration_since(Instant::now());
        let is_under_way = |state: &mut State| state.is_writing || !state.waiting.is_empty();
        // If nobody reads in time, the lines are lost.
        drop(self.changed.wait_timeout_while(locked(&self.state), left, is_under_way));
    }
}

impl Lines {
    fn is_empty(&self) -> bool {
        self.text.is_empty() && self.missing == 0
    }
}

/// The output of the log.
struct Output<W> {
    out: W,
    form: Form,
    /// How many lines are missing since the last one that was written.
    missing: u64,
}

impl<W: Write> Output<W> {
    /// Writes lines; returns how many could not be written.
    fn write(&mut self, lines: &Lines) -> u64 {
        let mut failed = 0;
        for line in lines.text.split_inclusive(|byte| *byte == b'\n') {
            if self.write_line(line).is_err() {
                failed += 1;
                self.missing += 1;
            }
        }
        self.missing += lines.missing;
        let _ = self.say_missing(); // otherwise it is said before the next line
        failed
    }

    fn write_line(&mut self, line: &[u8]) -> io::Result<()> {
        self.say_missing()?;
        self.out.write_all(line)
    }

    fn say_missing(&mut self) -> io::Result<()> {
        let missing = self.missing;
        if missing > 0 {
            let note = format!("{missing} log lines were dropped here");
            self.out.write_all(self.form.note(Level::WARN, &note).as_bytes())?;
            self.missing = 0;
        }
        Ok(())
    }
}

#[cfg(test)]
mod tests;
