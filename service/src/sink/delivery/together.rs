//! Delivers several requests in one transaction, if the sink can: after a flush of many hours, or an outage of hours,
//! thousands wait.

use super::{End, Run, Store};
use crate::sink::{Forwarded, Sink};

/// The most bytes of requests in one transaction, unless the first one alone is longer.
const BYTES: usize = 4 << 20;

/// How many requests to try in one transaction.
pub(super) struct Size {
    now: usize,
    most: usize,
}

impl Size {
    pub(super) fn of(sink: &dyn Sink) -> Size {
        let most = sink.most_together();
        Size { now: most, most }
    }

    /// After a failure fewer are tried, down to one: so a request that is at fault is found.
    fn tried(&mut self, count: usize, is_taken: bool) {
        self.now = match is_taken {
            true => self.now.saturating_mul(2),
            false => (count / 2).max(1),
        };
        self.now = self.now.min(self.most);
    }
}

impl<S: Store> Run<S> {
    /// Delivers the first request and those after it in one transaction, and acknowledges them. False if that failed:
    /// then the sink has none of them, or their keys tell which it has.
    pub(super) async fn together(&self, first: &Forwarded, size: &mut Size) -> Result<bool, End> {
        let room = BYTES.saturating_sub(first.body.len());
        let behind = match size.now {
            0 | 1 => Vec::new(),
            now => self.unless_stopped(self.files.behind_first(now - 1, room)).await?,
        };
        if behind.is_empty() {
            size.tried(1, true);
            return Ok(false);
        }
        let behind = behind.into_iter().map(|(number, body)| self.request(number, body));
        let all: Vec<Forwarded> = std::iter::once(first.clone()).chain(behind).collect();
        let is_taken = self.bring(&all).await?;
        size.tried(all.len(), is_taken);
        if is_taken {
            for request in all {
                self.files.let_go(request.key(), request.body).await?;
                self.ended("taken");
                self.files.acknowledge(request.number).await?;
            }
        }
        Ok(is_taken)
    }

    async fn bring(&self, all: &[Forwarded]) -> Result<bool, End> {
        let mut held = Vec::new();
        for request in all {
            held.push(self.unless_stopped(self.sink.keys().hold(&request.key())).await?);
        }
        if let Some(last) = all.last() {
            self.wait_until_sure(last.number).await?;
        }
        if self.tell_epochs().await?.is_err() {
            return Ok(false); // sent one by one, each reports why
        }
        let tenure = self.files.tenure();
        self.unless_stopped(self.sink.deliver_together(all, tenure.as_ref())).await
    }
}
