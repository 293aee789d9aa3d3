//! Processes items in parallel and puts the results in the order in which the items came.
//!
//! Each worker takes the next item that waits. One more thread collects the results in order and puts them, so no
//! worker waits for another's result, and few items are in flight at a time.

use super::{locked, threads};
use std::convert::Infallible;
use std::sync::mpsc::{channel, sync_channel, Receiver, Sender, SyncSender};
use std::sync::Mutex;
use std::thread;

/// How many items may wait or be in flight for each thread.
const FOR_A_THREAD: usize = 8;

/// The queue that `give` fills.
pub struct WorkQueue<T> {
    to_work: Sender<Waiting<T>>,
    to_put: SyncSender<Next<T>>,
}

/// An item that no worker has taken, and the channel for its result.
type Waiting<T> = (T, SyncSender<T>);

/// What is put next, in the order of the items.
enum Next<T> {
    /// The result of a worker; if the worker panics, there is none.
    One(Receiver<T>),
    /// Dropped when everything before it has been put; `wait_until_empty` waits for that.
    Mark(Sender<()>),
}

/// Has workers process the items that `give` queues, and `put` take them in order, until it fails. Returns after the
/// last item, with the first error of `put`, or else that of `give`.
pub fn in_order<T: Send, E: Send>(
    work: impl Fn(&mut T) + Sync,
    put: impl FnMut(T) -> Result<(), E> + Send,
    give: impl FnOnce(&WorkQueue<T>) -> Result<(), E>,
) -> Result<(), E> {
    let threads = threads();
    let (to_work, waiting) = channel();
    let (to_put, next) = sync_channel(FOR_A_THREAD * threads);
    let (waiting, mut ended) = (Mutex::new(waiting), Ok(()));
    let given = thread::scope(|scope| {
        for _ in 0..threads {
            scope.spawn(|| work_at(&waiting, &work));
        }
        scope.spawn(|| ended = put_all(next, put));
        give(&WorkQueue { to_work, to_put })
    });
    ended.and(given)
}

fn work_at<T>(waiting: &Mutex<Receiver<Waiting<T>>>, work: &impl Fn(&mut T)) {
    loop {
        let Ok((mut one, done)) = locked(waiting).recv() else {
            return;
        };
        work(&mut one);
        if done.send(one).is_err() {
            return; // nothing more is put
        }
    }
}

fn put_all<T, E>(next: Receiver<Next<T>>, mut put: impl FnMut(T) -> Result<(), E>) -> Result<(), E> {
    for next in next {
        match next {
            Next::One(done) => match done.recv() {
                Ok(one) => put(one)?,
                Err(_) => break,
            },
            Next::Mark(reached) => drop(reached),
        }
    }
    Ok(())
}

/// Makes something of each piece in parallel, and puts the results in the order of the pieces.
pub fn made_in_order<P: Send, M: Send>(
    pieces: impl Iterator<Item = P>,
    make: impl Fn(P) -> M + Sync,
    mut put: impl FnMut(M) + Send,
) {
    let work = |(piece, made): &mut (Option<P>, Option<M>)| *made = piece.take().map(&make);
    let put_made = |(_, made): (Option<P>, Option<M>)| {
        made.into_iter().for_each(&mut put);
        Ok::<(), Infallible>(())
    };
    let give = |queue: &WorkQueue<_>| {
        for piece in pieces {
            queue.push((Some(piece), None));
        }
        Ok(())
    };
    let Ok(()) = in_order(work, put_made, give);
}

impl<T> WorkQueue<T> {
    /// Queues an item once there is room; false if no more is wanted.
    pub fn push(&self, one: T) -> bool {
        let (done, next) = sync_channel(1);
        self.to_put.send(Next::One(next)).is_ok() && self.to_work.send((one, done)).is_ok()
    }

    /// Waits until everything queued so far has been put.
    pub fn wait_until_empty(&self) {
        let (mark, reached) = channel();
        let _ = self.to_put.send(Next::Mark(mark)); // dropped if nothing more is put
        let _ = reached.recv(); // fails when the mark is dropped
    }
}

#[cfg(test)]
mod tests {
    use super::*;
    use std::sync::atomic::{AtomicUsize, Ordering::SeqCst};
    use std::time::Duration;

    /// Some items take long, so that later ones are done before them.
    fn work(one: &mut (usize, bool)) {
        if one.0.is_multiple_of(7) {
            thread::sleep(Duration::from_micros(200));
        }
        one.1 = true;
    }

    #[test]
    fn all_are_worked_at_and_put_in_order() {
        for count in [0, 1, 3, 1_000] {
            let mut all = Vec::new();
            let put = |(number, is_done): (usize, bool)| {
                assert!(is_done);
                all.push(number);
                Ok::<(), ()>(())
            };
            let give = |queue: &WorkQueue<_>| {
                assert!((0..count).all(|number| queue.push((number, false))));
                Ok(())
            };
            assert_eq!(in_order(work, put, give), Ok(()));
            assert!(all.into_iter().eq(0..count), "{count}");
        }
    }

    #[test]
    fn a_fault_of_one_ends_all() {
        let (put, given) = (AtomicUsize::new(0), AtomicUsize::new(0));
        let put_one = |(number, _): (usize, bool)| {
            assert_eq!(put.fetch_add(1, SeqCst), number);
            (number < 100).then_some(()).ok_or(number)
        };
        let give = |queue: &WorkQueue<_>| {
            while queue.push((given.fetch_add(1, SeqCst), false)) {}
            Err(usize::MAX)
        };
        assert_eq!(in_order(work, put_one, give), Err(100));
        assert_eq!(put.load(SeqCst), 101);
        assert!(given.load(SeqCst) <= 100 + FOR_A_THREAD * threads() + 2);
    }

    #[test]
    fn whoever_gives_may_wait_for_all_before() {
        let put = AtomicUsize::new(0);
        let put_one = |_: (usize, bool)| {
            put.fetch_add(1, SeqCst);
            Ok::<(), ()>(())
        };
        let give = |queue: &WorkQueue<_>| {
            for number in 0..100 {
                queue.push((number, false));
                if number % 10 == 0 {
                    queue.wait_until_empty();
                    assert_eq!(put.load(SeqCst), number + 1);
                }
            }
            Ok(())
        };
        assert_eq!(in_order(work, put_one, give), Ok(()));
        assert_eq!(put.load(SeqCst), 100);
    }

    #[test]
    #[should_panic(expected = "a scoped thread panicked")]
    fn a_panic_of_one_ends_all() {
        let work = |number: &mut usize| assert!(*number < 50);
        let give = |queue: &WorkQueue<_>| {
            while queue.push(100) {}
            Ok::<(), ()>(())
        };
        let _ = in_order(work, |_| Ok(()), give);
    }
}
