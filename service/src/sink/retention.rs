//! How long a database keeps its rows.

use std::time::Duration;

/// Rows that ended longer ago are deleted in the background; `None` keeps them for ever. Totals of series and keys of
/// requests are always kept, so nothing that was deleted is counted again.
#[derive(Clone, Copy, Debug, Default, PartialEq, Eq)]
pub struct Retention {
    /// For intervals.
    pub intervals: Option<Duration>,
    /// For rows of `hour`.
    pub hours: Option<Duration>,
}
