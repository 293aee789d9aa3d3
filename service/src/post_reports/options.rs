//! The options of reports, which may change while the service runs.

use crate::otlp::{Profile, Reason};
use std::sync::{Arc, PoisonError, RwLock};

/// Which rejected points are reported.
#[derive(Clone, Debug, Default)]
pub struct ReportOptions {
    /// How many reasons of each sender are logged.
    pub log_rejected: usize,
    /// Reasons that are expected: they are counted separately and not logged.
    pub expected: Vec<Reason>,
    /// Which points are not foreign.
    pub profile: Profile,
}

/// The current options.
pub(super) struct Changing(RwLock<Arc<ReportOptions>>);

impl Changing {
    pub fn new(options: ReportOptions) -> Changing {
        Changing(RwLock::new(options.into()))
    }

    pub fn now(&self) -> Arc<ReportOptions> {
        self.0.read().unwrap_or_else(PoisonError::into_inner).clone() // any value of it is consistent
    }

    /// Replaces the options, except for the profile.
    pub fn set(&self, new: ReportOptions) {
        let mut options = self.0.write().unwrap_or_else(PoisonError::into_inner);
        *options = ReportOptions { profile: options.profile, ..new }.into();
    }
}
