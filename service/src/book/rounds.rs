//! Decides when the rounds of the books are closed. Closing takes up to some milliseconds for a book, so one book is
//! closed after a post, and the books are spread out: no post waits for two. `close` does the closing.

use super::Refused;

/// A round is closed after so many posts, and after more if there are many series, since closing takes some microseconds
/// for each series; but after at most about half of the posts that a book has room for. It is also closed after so many
/// points, since a round keeps them.
const LEAST_POSTS: usize = 4_000;
const MOST_POSTS: usize = 16_000;
const SERIES_FOR_A_POST: usize = 5;
const LEAST_POINTS: usize = 50_000;
const POINTS_FOR_A_SERIES: usize = 20;
/// A book admits nothing unless its journal of 65,536 entries has room for the end of that too. These entries are for
/// what comes; the others are for the ends of what is open, in flight or quarantined.
const MOST_ENTRIES: usize = 60_000;
/// How many entries a post adds to the journal of each book that it touches.
const ENTRIES_OF_A_POST: usize = 2;
/// While a flush is live no round can be closed: it is tried again after so many posts.
const POSTS_UNTIL_ANOTHER_TRY: u64 = 500;
/// All books are closed within one such part of a cycle (2: the first half).
const PART: u64 = 2;
/// If memory is short, they may be closed after one such part of a cycle.
const WORTH: u64 = 10;

/// Counts only posts that were taken, since a refused post leaves no entry in a journal.
pub(super) struct Rounds {
    books: usize,
    /// Posts that were taken, and flushes that were ended, since the current cycle began.
    posts: u64,
    points: u64,
    /// After how many posts or points the next cycle begins.
    most_posts: u64,
    max_points: u64,
    /// While rounds are being closed: the next book, and whether all books before it were empty.
    next: Option<(usize, bool)>,
    /// How many were closed since `closed()` was asked.
    closed: usize,
}

/// The result of closing the round of a book.
#[derive(Clone, Copy, Debug, PartialEq, Eq)]
pub(super) enum Closing {
    Closed,
    /// The round had no entries.
    Empty,
    /// The round goes on: a flush of the book is in flight, or there was no memory.
    GoesOn,
}

impl Rounds {
    pub fn new(books: usize) -> Rounds {
        Rounds {
            books,
            posts: 0,
            points: 0,
            most_posts: LEAST_POSTS as u64,
            max_points: LEAST_POINTS as u64,
            next: None,
            closed: 0,
        }
    }

    /// Whether a refused post may be taken after rounds are closed. `entries` is the length of the longest journal.
    /// Closing takes long, so it is not done for a little memory.
    pub fn may_cure(&self, refused: Refused, entries: usize) -> bool {
        match refused {
            Refused::NoMemory => self.next.is_some() || self.are_past(1, WORTH),
            Refused::Full | Refused::TooLarge => entries > 0,
            _ => false,
        }
    }

    /// Counts a post of so many points that was taken, or the end of a flush.
    pub fn count(&mut self, points: u64) {
        self.posts += 1;
        self.points += points;
    }

    /// The book whose round is due after this post.
    pub fn next(&mut self) -> Option<usize> {
        if self.next.is_none() && self.are_due() {
            self.begin();
        }
        let book = self.being_closed()?;
        self.are_past(book as u64, PART * self.books as u64).then_some(book)
    }

    /// The book that is next, however few posts came since the previous one.
    pub fn being_closed(&self) -> Option<usize> {
        self.next.map(|(book, _)| book)
    }

    /// Whether `part / of` of a cycle has passed.
    fn are_past(&self, part: u64, of: u64) -> bool {
        let is_past = |count: u64, most: u64| of * count >= part * most;
        is_past(self.posts, self.most_posts) || is_past(self.points, self.max_points)
    }

    /// Whether another post has no room, `entries` being the length of the longest journal, or there are as many points
    /// as would otherwise come before the last book is closed. While nobody waits all are closed at once, and only
    /// then.
    pub fn are_full(&self, entries: usize) -> bool {
        let may_be_tried = self.posts >= POSTS_UNTIL_ANOTHER_TRY;
        let max_points = self.max_points + self.max_points / PART;
        may_be_tried && !have_room_for(entries, ENTRIES_OF_A_POST) || self.points >= max_points
    }

    /// Whether a new cycle is due for its posts.
    pub fn have_many_posts(&self) -> bool {
        self.posts >= self.most_posts
    }

    /// Whether a new cycle is due.
    pub fn are_due(&self) -> bool {
        self.are_past(1, 1)
    }

    /// Begins a cycle: all books are to be closed, from the first on.
    pub fn begin(&mut self) {
        self.next = Some((0, true));
        (self.posts, self.points) = (0, 0);
    }

    /// Records the result for the book that was next. `series` counts the series.
    pub fn note(&mut self, closing: Closing, series: impl FnOnce() -> usize) {
        let Some((book, are_empty)) = self.next else { return };
        self.closed += usize::from(closing == Closing::Closed);
        let are_empty = are_empty && closing != Closing::GoesOn;
        if book + 1 < self.books {
            self.next = Some((book + 1, are_empty));
            return;
        }
        self.next = None;
        self.last_for(series());
        if !are_empty {
            self.most_posts = POSTS_UNTIL_ANOTHER_TRY;
        }
    }

    /// Sets the length of the next cycle by the number of series.
    pub fn last_for(&mut self, series: usize) {
        self.max_points = (POINTS_FOR_A_SERIES * series).max(LEAST_POINTS) as u64;
        self.most_posts = (series / SERIES_FOR_A_POST).clamp(LEAST_POSTS, MOST_POSTS) as u64;
    }

    /// How many were closed since the last call.
    pub fn closed(&mut self) -> usize {
        std::mem::take(&mut self.closed)
    }
}

/// Whether the longest journal, which has `entries` entries, has room for so many more.
pub(super) fn have_room_for(entries: usize, more: usize) -> bool {
    entries + more <= MOST_ENTRIES
}

#[cfg(test)]
mod tests {
    use super::*;

    /// Which books are closed after each of so many posts with one point.
    fn behind(rounds: &mut Rounds, posts: usize, closing: Closing) -> Vec<(usize, usize)> {
        let mut all = Vec::new();
        for post in 1..=posts {
            rounds.count(1);
            if let Some(book) = rounds.next() {
                rounds.note(closing, || 100_000);
                all.push((post, book));
            }
        }
        all
    }

    #[test]
    fn no_post_waits_for_two_books() {
        let mut rounds = Rounds::new(3);
        let first = behind(&mut rounds, 6_000, Closing::Closed);
        assert_eq!(first, [(4_000, 0), (4_667, 1), (5_334, 2)]);
        assert_eq!((rounds.closed(), rounds.closed()), (3, 0));
        // The cycle counts from the post that began it.
        let next = behind(&mut rounds, 22_000, Closing::Closed);
        assert_eq!(next, [(14_000, 0), (16_667, 1), (19_334, 2)]);
    }

    #[test]
    fn where_none_can_be_closed_it_is_tried_again_soon() {
        let mut rounds = Rounds::new(2);
        let tries = behind(&mut rounds, 5_700, Closing::GoesOn);
        let wanted = [(4_000, 0), (5_000, 1), (5_001, 0), (5_126, 1), (5_501, 0), (5_626, 1)];
        assert_eq!(tries, wanted);
        assert_eq!(rounds.closed(), 0);
    }

    #[test]
    fn where_nobody_waits_they_are_as_long_as_there_is_room() {
        let mut rounds = Rounds::new(3);
        rounds.last_for(100_000);
        let full = (1..).find(|posts| {
            rounds.count(1);
            rounds.are_full(2 * posts)
        });
        assert_eq!(full, Some(30_000));
        rounds.begin();
        assert!(!rounds.are_full(60_000), "where none could be closed it is tried again later");
        rounds.count(2_999_999);
        assert!(!rounds.are_full(2) && rounds.are_due() && !rounds.have_many_posts());
        rounds.count(1);
        assert!(rounds.are_full(4), "as many points as else");
    }

    /// The post that begins the cycle closes only the first book, so a refusal by another book may still be cured.
    #[test]
    fn a_refusal_is_cured_where_a_journal_has_anything() {
        let mut rounds = Rounds::new(3);
        assert!(!rounds.may_cure(Refused::Full, 0) && !rounds.may_cure(Refused::NoMemory, 2));
        assert!(rounds.may_cure(Refused::TooLarge, 2) && !rounds.may_cure(Refused::Quarantined, 2));
        assert_eq!(behind(&mut rounds, 4_000, Closing::Closed), [(4_000, 0)]);
        assert_eq!(rounds.being_closed(), Some(1), "it may be closed at once");
        assert!(rounds.may_cure(Refused::NoMemory, 8_000));
    }

    #[test]
    fn many_points_close_rounds_too() {
        let mut rounds = Rounds::new(2);
        rounds.count(49_999);
        assert_eq!(rounds.next(), None);
        rounds.count(1);
        assert_eq!(rounds.next(), Some(0));
        rounds.note(Closing::Closed, || 100);
        rounds.count(12_499);
        assert_eq!(rounds.next(), None);
        rounds.count(1);
        assert_eq!(rounds.next(), Some(1));
    }
}
