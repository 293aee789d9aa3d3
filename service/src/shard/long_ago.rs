//! Points that ended long ago. Without `--max-age` they are taken, whatever their sender's clock says: the log warns of them.

use super::Shard;
use crate::book::Read;
use crate::log::utc;
use crate::storage::nanoseconds;
use crate::work::locked;

const SECOND: u64 = 1_000_000_000;
/// What ends so long before the service's clock is as a rule of a wrong one.
const LONG_AGO: u64 = 366 * 86_400 * SECOND;

impl Shard {
    /// Warns once an hour for each sender of which points are taken that ended long ago.
    pub(super) fn tell_long_ago(&self, read: &Read) {
        let Some((first, _)) =
            read.ends().filter(|(first, _)| nanoseconds().saturating_sub(*first) > LONG_AGO)
        else {
            return;
        };
        let sender = &read.post.sender;
        if locked(&self.long_ago).is_due(sender) {
            let ended = utc(first / SECOND);
            tracing::warn!(
                sender,
                ended,
                "a point of {sender} is taken that ended at {ended}, over a year before the service's clock: if that is a wrong \
                 clock, set --max-age, and such points are rejected"
            );
        }
    }
}
