//! Calls that may block, made by a serving thread itself.
//!
//! If another thread made them, each post would have to wake two threads, which takes more processor time than the post
//! itself. So a serving thread leaves its runtime, makes the call for all tasks that asked, and returns. While a call
//! takes long, `ingest/threads` has another thread run the runtime.

use std::cell::RefCell;
use std::sync::Arc;
use std::task::{Context, Poll, Waker};

/// A call that several tasks may ask for at once.
pub trait OwnCall: Send + Sync {
    /// Makes the call. It may block.
    fn make(&self) -> u64;

    /// Tells the tasks that wait what the call has reached. It doesn't block.
    fn tell(&self, reached: u64);
}

/// What the tasks of a serving thread have asked for.
#[derive(Default)]
struct Asked {
    calls: Vec<Arc<dyn OwnCall>>,
    waker: Option<Waker>,
}

thread_local! {
    /// None on a thread that serves nobody.
    static ASKED: RefCell<Option<Asked>> = const { RefCell::new(None) };
}

/// Asks this thread to make the call once all ready tasks have run. False if it is no serving thread: then the call is
/// not made.
pub fn ask<C: OwnCall + 'static>(call: &Arc<C>) -> bool {
    ASKED.with_borrow_mut(|asked| {
        let Some(Asked { calls, waker }) = asked else {
            return false;
        };
        if !calls.iter().any(|other| std::ptr::addr_eq(Arc::as_ptr(other), Arc::as_ptr(call))) {
            calls.push(call.clone());
        }
        if let Some(waker) = waker.take() {
            waker.wake();
        }
        true
    })
}

/// The calls of a serving thread, made one after the other.
#[derive(Default)]
pub struct OwnCalls {
    under_way: Vec<Arc<dyn OwnCall>>,
    reached: Vec<u64>,
}

impl OwnCalls {
    /// Makes this thread a serving one.
    pub fn of_this_thread() -> OwnCalls {
        ASKED.set(Some(Asked::default()));
        OwnCalls::default()
    }

    /// Reports what the last calls have reached. Ready when tasks have asked for others.
    pub fn poll_asked(&mut self, context: &mut Context) -> Poll<()> {
        for (call, reached) in self.under_way.drain(..).zip(self.reached.drain(..)) {
            call.tell(reached);
        }
        ASKED.with_borrow_mut(|asked| {
            let asked = asked.get_or_insert_default();
            if asked.calls.is_empty() {
                asked.waker = Some(context.waker().clone());
                return Poll::Pending;
            }
            std::mem::swap(&mut self.under_way, &mut asked.calls);
            Poll::Ready(())
        })
    }

    /// Makes the calls that were asked for.
    pub fn make(&mut self) {
        self.reached.extend(self.under_way.iter().map(|call| call.make()));
    }
}
