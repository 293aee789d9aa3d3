//! Makes sure that a key is sent once at a time. The delivery and an operator may have the same request, if the service
//! was killed after it stored a dead letter and before the outbox noted that.

use crate::work::locked;
use std::collections::HashSet;
use std::sync::Mutex;
use tokio::sync::Notify;

/// The keys that are being sent to a sink.
#[derive(Default)]
pub struct Keys {
    held: Mutex<HashSet<String>>,
    freed: Notify,
}

/// A key that nobody else sends while this is held.
pub struct Held<'k> {
    keys: &'k Keys,
    key: String,
}

impl Keys {
    /// Waits until nobody else holds the key.
    pub async fn hold(&self, key: &str) -> Held<'_> {
        loop {
            let freed = self.freed.notified(); // registered before the look, so that no release is missed
            if locked(&self.held).insert(key.to_string()) {
                let key = key.to_string();
                return Held { keys: self, key };
            }
            freed.await;
        }
    }
}

impl Drop for Held<'_> {
    fn drop(&mut self) {
        locked(&self.keys.held).remove(&self.key);
        self.keys.freed.notify_waiters();
    }
}

#[cfg(test)]
mod tests {
    use super::*;
    use crate::work::within;
    use std::time::Duration;

    #[tokio::test]
    async fn a_key_has_one_holder() {
        let keys = Keys::default();
        let (one, other) = (keys.hold("a").await, keys.hold("b").await);
        let soon = Duration::from_millis(50);
        assert!(within(soon, keys.hold("a")).await.is_none());
        drop(other);
        assert!(within(soon, keys.hold("a")).await.is_none());
        let (next, ()) = tokio::join!(keys.hold("a"), async { drop(one) });
        assert!(within(soon, keys.hold("a")).await.is_none());
        drop(next);
        assert!(within(soon, keys.hold("a")).await.is_some());
    }
}
