//! Bounds the memory and the time of bodies that are still arriving. `body` and `grpc/message` ask it before each wait for
//! more bytes.
//!
//! A sender may pause at any byte while its bytes occupy memory. So all arriving bodies together may use at most half
//! of the budget, and long ones less; the rest is for bodies that have arrived. Above a quarter of the budget, no
//! further body may become long, so that those that are long already have room, and slow bodies are refused. No body
//! ever waits for room, so there is no deadlock. None of these bounds refuses a body that arrives alone: one that uses
//! more than a quarter of the budget here would exceed all of it when it is parsed (`post`).

use super::refusal::{Full, Refusal};
use super::weight::MemoryHold;
use crate::work::Readers;
use std::future::{pending, Future};
use std::pin::pin;
use std::time::{Duration, Instant};
use tokio::time::sleep;

/// The most that arriving bodies may use together, in eighths of the budget.
const MOST: usize = 4;
/// A long body is refused if all arriving bodies would use more than this, in eighths.
const MOST_WITH_LONG: usize = 3;
/// Above this many eighths, no body becomes long and slow bodies are refused.
const SHORT_OF_ROOM: usize = 2;
/// The speed, in bytes a second, that a body must keep while room is short, after this grace time.
const PACE: usize = 1 << 20;
const GRACE: Duration = Duration::from_secs(2);
/// How often a waiting body is checked against these bounds.
const LOOK: Duration = Duration::from_millis(250);

/// A body that may still be arriving.
pub struct Arrival<'h> {
    hold: &'h mut MemoryHold,
    received: usize,
    /// When its first bytes were received.
    since: Instant,
    /// The bytes that it has reserved in `Budget::arriving`.
    taken: usize,
}

impl<'h> Arrival<'h> {
    pub fn of(hold: &'h mut MemoryHold) -> Arrival<'h> {
        Arrival { hold, received: 0, since: Instant::now(), taken: 0 }
    }

    /// Records how many bytes have been received in all.
    pub fn has(&mut self, received: usize) -> Result<(), Refusal> {
        if self.received == 0 {
            self.since = Instant::now();
        }
        self.received = received;
        self.hold.set(memory_of(received)).map_err(Refusal::from)
    }

    /// Waits for the next part, as long as the bounds allow it.
    pub async fn next<T>(&mut self, coming: impl Future<Output = T>) -> Result<T, Refusal> {
        let coming = pin!(coming);
        tokio::select! {
            biased;
            came = coming => Ok(came),
            refusal = self.gives_way() => Err(refusal),
        }
    }

    async fn gives_way(&mut self) -> Refusal {
        if self.received == 0 {
            return pending().await; // it occupies no memory yet
        }
        loop {
            if let Err(refusal) = self.stays() {
                return refusal;
            }
            Box::pin(sleep(LOOK)).await;
        }
    }

    fn stays(&mut self) -> Result<(), Refusal> {
        let (budget, bytes) = (&self.hold.budget, memory_of(self.received));
        let eighths = |count: usize| budget.most() / 8 * count;
        let is_long = self.received > Readers::SHORT;
        if budget.arriving.bytes() > eighths(SHORT_OF_ROOM) {
            if is_long && self.taken <= memory_of(Readers::SHORT) {
                return Err(Full::Now.into());
            }
            if self.is_slow() {
                return Err(Refusal::Slow);
            }
        }
        let most = if is_long { MOST_WITH_LONG } else { MOST };
        budget.arriving.change(self.taken, bytes, eighths(most))?;
        self.taken = bytes;
        Ok(())
    }

    fn is_slow(&self) -> bool {
        let usual = Duration::from_secs_f64(self.received as f64 / PACE as f64);
        self.since.elapsed() > GRACE + usual
    }
}

impl Drop for Arrival<'_> {
    fn drop(&mut self) {
        self.hold.budget.arriving.give_back(self.taken);
    }
}

/// The memory that a received body takes: a growing vector has up to twice its bytes.
fn memory_of(received: usize) -> usize {
    2 * received
}

#[cfg(test)]
mod tests {
    use super::super::body::MOST;
    use super::super::post::WHILE_READ_JSON;
    use super::super::weight::Budget;
    use super::*;
    use std::future::ready;
    use std::task::Poll;

    /// Whether the body may still be waited for.
    async fn waits(arrival: &mut Arrival<'_>) -> Result<bool, u16> {
        let mut next = pin!(arrival.next(pending::<()>()));
        match std::future::poll_fn(|context| Poll::Ready(next.as_mut().poll(context))).await {
            Poll::Pending => Ok(true),
            Poll::Ready(Ok(())) => Ok(false),
            Poll::Ready(Err(refusal)) => Err(refusal.reason().status()),
        }
    }

    #[tokio::test]
    async fn long_bodies_have_less_than_half_and_begin_in_a_quarter() {
        const SHORT: usize = Readers::SHORT;
        let budget = Budget::new(16 * memory_of(SHORT));
        let mut holds: Vec<_> = (0..5).map(|_| budget.hold()).collect();
        let mut arrivals: Vec<_> = holds.iter_mut().map(Arrival::of).collect();
        let [first, second, third, short, here] = &mut arrivals[..] else { panic!() };
        assert_eq!(waits(third).await, Ok(true), "it has nothing");
        for (arrival, received) in [(&mut *first, 2 * SHORT), (&mut *second, 3 * SHORT)] {
            arrival.has(received).unwrap();
            assert_eq!(waits(arrival).await, Ok(true));
        }
        third.has(SHORT + 1).unwrap();
        assert_eq!(waits(third).await, Err(503), "no long one begins");
        first.has(3 * SHORT).unwrap();
        assert_eq!(waits(first).await, Ok(true), "who began goes on");
        second.has(3 * SHORT + 1).unwrap();
        assert_eq!(waits(second).await, Err(503), "all have as much as with long ones");
        for (received, outcome) in [(SHORT / 2, Ok(true)), (SHORT, Ok(true))] {
            short.has(received).unwrap();
            assert_eq!(waits(short).await, outcome);
        }
        assert_eq!(waits(first).await, Ok(true), "it takes no more");
        here.has(2 * SHORT).unwrap();
        assert!(here.next(ready(())).await.is_ok(), "it is not waited for");
        drop(arrivals);
        assert_eq!(budget.arriving.bytes(), 0);
        assert_eq!(budget.used(), memory_of(10 * SHORT + 2));
        drop(holds);
        let mut alone = budget.hold();
        let mut alone = Arrival::of(&mut alone);
        alone.has(6 * SHORT + 1).unwrap();
        assert_eq!(waits(&mut alone).await, Err(413), "there is never so much");
    }

    #[tokio::test]
    async fn who_is_slow_gives_way_once_room_is_short() {
        const SHORT: usize = Readers::SHORT;
        let budget = Budget::new(16 * memory_of(SHORT));
        let [mut one, mut two] = [budget.hold(), budget.hold()];
        let [mut slow, mut other] = [Arrival::of(&mut one), Arrival::of(&mut two)];
        for (arrival, received) in [(&mut slow, SHORT), (&mut other, 3 * SHORT)] {
            arrival.has(received).unwrap();
            assert_eq!(waits(arrival).await, Ok(true));
        }
        slow.since -= 2 * GRACE;
        assert_eq!(waits(&mut slow).await, Ok(true), "there is room");
        other.has(3 * SHORT + 1).unwrap();
        assert_eq!(waits(&mut other).await, Ok(true));
        assert_eq!(waits(&mut slow).await, Err(503));
    }

    /// Otherwise a body that the service could parse would be refused every time.
    #[tokio::test]
    async fn who_is_alone_and_can_be_read_is_refused_for_no_share_however_slowly_it_comes() {
        for most in [1 << 20, 9 << 20, 256 << 20] {
            let budget = Budget::new(most);
            let mut alone = budget.hold();
            let mut alone = Arrival::of(&mut alone);
            alone.has(MOST.min(most / WHILE_READ_JSON)).unwrap();
            alone.since -= 2 * GRACE + Duration::from_secs(5);
            assert_eq!(waits(&mut alone).await, Ok(true), "{most}");
        }
    }
}
