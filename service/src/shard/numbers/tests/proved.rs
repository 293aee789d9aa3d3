//! Compares protobuf bodies read by number with the proved readers, of the bytes and of their JSON, and with what a
//! start reads from the journal.

use super::*;
use crate::otlp::plain_posts_of_test;

struct Ways {
    /// Read as JSON.
    slow: Arc<SharedBook>,
    /// Read as they come.
    fast: Arc<SharedBook>,
    /// Read by the names that a start makes of those in the journal.
    again: Arc<SharedBook>,
    start: Arc<Names>,
    numbers: Numbers,
    reading: Arc<Reading>,
    by_number: usize,
    proved: usize,
    taken: usize,
}

impl Ways {
    fn new(reading: Reading) -> Ways {
        let shared_book = || SharedBook::apart(20_000, FlushWindow::None).unwrap();
        Ways {
            slow: shared_book(),
            fast: shared_book(),
            again: shared_book(),
            start: Names::new().unwrap(),
            numbers: Numbers::default(),
            reading: Arc::new(reading),
            by_number: 0,
            proved: 0,
            taken: 0,
        }
    }

    fn text(&self, body: &Bytes) -> Result<Request, String> {
        let prepared = taken_of_test(Encoding::Protobuf, body.clone(), &self.reading);
        prepared.map(|prepared| Request::Text(prepared.body)).map_err(|refused| refused.to_string())
    }

    fn read(&self, shared_book: &Arc<SharedBook>, sender: &str, request: Request) -> Result<Read, String> {
        read(shared_book, &self.numbers, sender, request).map_err(|refused| refused.to_string())
    }

    /// What the proved protobuf reader says of a body, if it accepts it and no point is foreign.
    fn proved(&self, sender: &str, body: &Bytes) -> Option<Read> {
        let mut read = Read::of_body(&self.fast, sender.into(), body.clone()).ok()?;
        let is_numbered = read.post.foreign == 0 && self.numbers.number(&self.fast, &mut read).is_ok();
        is_numbered.then_some(read)
    }

    fn post(&mut self, sender: &str, body: Bytes, is_as_it_came: bool) {
        let slow = self.text(&body).and_then(|text| self.read(&self.slow, sender, text));
        let by_bytes = self.numbers.read(&self.fast, &body, &self.reading);
        let is_by_number = by_bytes.is_some();
        self.by_number += usize::from(is_by_number);
        let request = by_bytes.map_or_else(|| self.text(&body), |by| Ok(by.into()));
        let fast = request.and_then(|request| self.read(&self.fast, sender, request));
        if let (Ok(slow), Ok(fast)) = (&slow, &fast) {
            // All words are equal, since the numbers are of one generation.
            assert_eq!(said(fast), said(slow), "{body:02x?}");
        }
        if let (true, Ok(fast), Some(proved)) =
            (is_by_number && is_as_it_came, &fast, self.proved(sender, &body))
        {
            assert_eq!(fast.post.foreign, 0, "{body:02x?}");
            assert_eq!(said(&proved), said(fast), "{body:02x?}");
            self.proved += 1;
        }
        let [slow, fast] = [(&self.slow, slow), (&self.fast, fast)].map(|(shared_book, read)| {
            let mut read = read?;
            let admitted = shared_book.lock().admit(&mut read);
            admitted.map(|()| read).map_err(|refused| refused.to_string())
        });
        let foreign = |read: &Result<Read, String>| {
            let foreign = read.as_ref().map(|read| read.post.foreign);
            foreign.map_err(String::clone)
        };
        assert_eq!(foreign(&fast), foreign(&slow), "{body:02x?}");
        if let Ok(fast) = &fast {
            let mut replayed = replayed(&self.again, &self.start, fast);
            assert_eq!(self.again.lock().admit(&mut replayed), Ok(()));
            self.taken += 1;
        }
    }

    /// All three forward the same bytes.
    fn flush(&self) -> usize {
        let [slow, fast, again] = [&self.slow, &self.fast, &self.again].map(flushed);
        assert_eq!(fast, slow);
        assert_eq!(again.0, slow.0);
        fast.0.len()
    }
}

/// The points of a post, sorted: a reader of the library has them in the order of their series.
fn said(read: &Read) -> Option<Vec<&[u64]>> {
    let mut all: Vec<&[u64]> = by_number(read)?.each().collect();
    all.sort_unstable();
    Some(all)
}

fn settings() -> [(Reading, f64); 5] {
    let finer_units = |finer_units| Reading { finer_units, ..Reading::default() };
    let dropping = Reading { dropped: vec!["a".into(), "long name".into()], ..Reading::default() };
    [
        (Reading::default(), 0.4),
        (dropping, 0.1),
        (finer_units(rules(&["s=us", "a\"b=3:c"])), 0.1),
        (finer_units(rules(&["=", "s"])), 0.0),
        (finer_units(FinerUnits::of([Choice::Auto]).unwrap()), 0.05),
    ]
}

#[test]
fn what_is_read_by_number_is_what_the_proved_readers_say() {
    for (place, (reading, least)) in settings().into_iter().enumerate() {
        const POSTS: usize = 1_500;
        let seed = 31 + place as u64;
        let (mut ways, mut requests) = (Ways::new(reading), 0);
        let any = posts_of_test(seed, POSTS / 3);
        let bodies = plain_posts_of_test(seed, POSTS).into_iter().chain(any);
        for (number, body) in bodies.enumerate() {
            ways.post(["A", "B"][number / 7 % 2], body.into(), place == 0);
            if number % 100 == 99 {
                requests += ways.flush();
            }
        }
        let share = ways.by_number as f64 / POSTS as f64;
        eprintln!("{share} by number, {} proved, {} taken, {requests} requests", ways.proved, ways.taken);
        assert!(share >= least && (least > 0.0 || ways.by_number == 0), "{share}");
        assert!(ways.proved > POSTS / 3 || place > 0, "{}", ways.proved);
        assert!(ways.taken > POSTS / 4 && requests > 15, "{} {requests}", ways.taken);
    }
}
