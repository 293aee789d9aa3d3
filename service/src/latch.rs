//! A latch is set once, and wakes all that wait for it. It tells a task to stop, or that its shard is fenced.

use std::future::Future;
use tokio::sync::watch;

/// Something that is set once.
pub trait Latch {
    /// Waits until it is set.
    fn wait_true(&mut self) -> impl Future<Output = ()> + Send;
}

impl Latch for watch::Receiver<bool> {
    /// Counts a dropped sender as set.
    async fn wait_true(&mut self) {
        while !*self.borrow_and_update() {
            if self.changed().await.is_err() {
                return;
            }
        }
    }
}
