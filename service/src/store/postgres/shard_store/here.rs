//! Blocks a thread on a future.

use std::future::Future;
use std::pin::pin;
use std::sync::Arc;
use std::task::{Context, Poll, Wake, Waker};
use std::thread::{self, Thread};
use tokio::task::unconstrained;

struct Sleeper(Thread);

impl Wake for Sleeper {
    fn wake(self: Arc<Self>) {
        self.0.unpark();
    }
}

/// Runs a future to its end on any thread. The future may use channels and locks; timers and connections work only if
/// the caller has entered their runtime.
pub fn on_this_thread<T>(work: impl Future<Output = T>) -> T {
    let waker = Waker::from(Arc::new(Sleeper(thread::current())));
    let mut context = Context::from_waker(&waker);
    // Without `unconstrained`, a task that has used up its budget would be polled forever without getting a new one.
    let mut work = pin!(unconstrained(work));
    loop {
        match work.as_mut().poll(&mut context) {
            Poll::Ready(done) => return done,
            Poll::Pending => thread::park(), // may return without a wake-up
        }
    }
}

#[cfg(test)]
mod tests {
    use super::*;
    use std::time::Duration;
    use tokio::sync::oneshot;

    #[test]
    fn it_waits_for_another_thread_and_hears_that_nobody_will_tell() {
        for is_told in [true, false] {
            let (tell, told) = oneshot::channel();
            let telling = thread::spawn(move || {
                thread::sleep(Duration::from_millis(20));
                let _ = is_told.then(|| tell.send(7));
            });
            assert_eq!(on_this_thread(told).ok(), is_told.then_some(7));
            telling.join().unwrap();
        }
    }

    /// As when a thread of the journal belongs to a runtime.
    #[test]
    fn it_waits_inside_a_runtime_too() {
        let runtime = tokio::runtime::Builder::new_multi_thread().build().unwrap();
        let (tell, told) = oneshot::channel();
        let waiting = runtime.spawn(async move { on_this_thread(told) });
        tell.send(1).unwrap();
        assert_eq!(on_this_thread(waiting).unwrap(), Ok(1));
    }
}
