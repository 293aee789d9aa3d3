//! What crosses between the service and the proved library: written by `tools/declared.py` from the source of the library
//! (`crates/book_c`). Who changes that runs it; `make test` compares. The service has no use for some of it.

/// What is kept for C, or nothing where the pointer is null. Whoever has the handle has what is
/// kept.
#[repr(C)]
pub(super) struct Handle {
    pub(super) at: *mut u8,
}

/// A status, and what it tells of.
#[repr(C)]
#[derive(Clone, Copy, Debug, Default, PartialEq, Eq)]
pub(in crate::book) struct Answer {
    pub(in crate::book) status: u32,
    pub(in crate::book) number: u64,
    pub(in crate::book) at: u64,
    pub(in crate::book) frontier: u64,
}

/// What a call answers with, in `Answer::status` or by itself.
#[allow(dead_code)]
pub(in crate::book) mod status {
    /// Done: taken, read, written or ended.
    pub const DONE: u32 = 0;
    /// The sender is quarantined.
    pub const QUARANTINED: u32 = 1;
    /// A book has no room for one more entry, open batch, live flush or quarantined sender.
    pub const FULL: u32 = 2;
    /// The point's series has another sender.
    pub const OTHER_WRITER: u32 = 3;
    /// The point starts before its series' frontier.
    pub const OUT_OF_ORDER: u32 = 4;
    /// A book would have too many series.
    pub const TOO_MANY_SERIES: u32 = 5;
    /// The sum of a series would be over a limit.
    pub const TOO_LARGE: u32 = 6;
    /// An allocation failed.
    pub const NO_MEMORY: u32 = 7;
    /// That is no sender's name.
    pub const BAD_SENDER: u32 = 8;
    /// The body is no JSON.
    pub const NOT_JSON: u32 = 9;
    /// A container of the body has the wrong type.
    pub const WRONG_SHAPE: u32 = 10;
    /// There is nothing to admit, to take or to end.
    pub const NOTHING: u32 = 11;
    /// There is no such flush, book or number, words end within a point, or a flush is not live.
    pub const NO_SUCH: u32 = 12;
    /// The sender is quarantined already.
    pub const ALREADY: u32 = 13;
    /// The sender is not quarantined.
    pub const NOT_QUARANTINED: u32 = 14;
    /// The flushes that were taken before are not ended.
    pub const NOT_ENDED: u32 = 15;
    /// No book holds something pending that a part goes beyond.
    pub const NONE_CROSSES: u32 = 17;
    /// The slice has no room for that.
    pub const TOO_SHORT: u32 = 18;
    /// The body is no request in protobuf.
    pub const NOT_PROTOBUF: u32 = 19;
    /// All of them.
    #[cfg(test)]
    pub const ALL: [u32; 19] = [
        DONE,
        QUARANTINED,
        FULL,
        OTHER_WRITER,
        OUT_OF_ORDER,
        TOO_MANY_SERIES,
        TOO_LARGE,
        NO_MEMORY,
        BAD_SENDER,
        NOT_JSON,
        WRONG_SHAPE,
        NOTHING,
        NO_SUCH,
        ALREADY,
        NOT_QUARANTINED,
        NOT_ENDED,
        NONE_CROSSES,
        TOO_SHORT,
        NOT_PROTOBUF,
    ];
}

/// The most series that one flush takes.
pub(in crate::book) const MAX_TAKEN: usize = 1_000;

#[allow(dead_code)]
extern "C" {
    /// Makes a reader. True where there was memory.
    pub(super) fn reader_new(out: *mut Handle) -> bool;

    /// Frees a reader.
    pub(super) fn reader_free(reader: *mut Handle);

    /// Reads a post and splits its points into parts, one for each of so many books. A point that ends
    /// before `from` or after `until` is left out, and counted. What was read before is gone, also if
    /// the post can't be read.
    pub(super) fn reader_read(
        reader: *mut Handle,
        sender: *const u8,
        sender_length: usize,
        body: *const u8,
        body_length: usize,
        books: usize,
        from: u64,
        until: u64,
        out: *mut Answer,
    );

    /// As `reader_read`, of a body in protobuf.
    pub(super) fn reader_read_protobuf(
        reader: *mut Handle,
        sender: *const u8,
        sender_length: usize,
        body: *const u8,
        body_length: usize,
        books: usize,
        from: u64,
        until: u64,
        out: *mut Answer,
    );

    /// Says when the points end that the reader has: the least of these times, and the greatest.
    pub(super) fn reader_ends(reader: *mut Handle, out: *mut Answer);

    /// Makes room for names. True where there was memory.
    pub(super) fn names_new(out: *mut Handle) -> bool;

    /// Frees it.
    pub(super) fn names_free(names: *mut Handle);

    /// As `reader_read`, of points by number: their series are among the names, and the words say them
    /// in turn.
    pub(super) fn reader_put(
        reader: *mut Handle,
        names: *mut Handle,
        sender: *const u8,
        sender_length: usize,
        words: *const u64,
        words_length: usize,
        books: usize,
        from: u64,
        until: u64,
        out: *mut Answer,
    );

    /// Says the points that the reader has in words, as `reader_put` takes them: each with a number of
    /// its series among the names, where a series without one gets the next one.
    pub(super) fn reader_words(
        reader: *mut Handle,
        names: *mut Handle,
        words: *mut u64,
        words_length: usize,
        out: *mut Answer,
    );

    /// Writes a request of one point, of the series with this number.
    pub(super) fn names_text(
        names: *mut Handle,
        number: u64,
        text: *mut u8,
        text_length: usize,
        out: *mut Answer,
    );

    /// Makes a desk of so many books. True where there was memory.
    pub(super) fn desk_new(books: usize, out: *mut Handle) -> bool;

    /// Frees a desk.
    pub(super) fn desk_free(desk: *mut Handle);

    /// Admits what the reader has read, which is gone from it then: all books have their parts,
    /// confirmed, or each is as it was.
    pub(super) fn desk_admit(desk: *mut Handle, reader: *mut Handle, out: *mut Answer);

    /// Answers what `desk_admit` would; what was read is gone from the reader, and each book is as it
    /// was.
    pub(super) fn desk_try(desk: *mut Handle, reader: *mut Handle, out: *mut Answer);

    /// Names the first book, from the `first`-th on, that holds something pending of a series of which
    /// the reader has a point in a later stretch of so many nanoseconds.
    pub(super) fn desk_crosses(
        desk: *mut Handle,
        reader: *mut Handle,
        stretch: u64,
        first: usize,
        out: *mut Answer,
    );

    /// Makes room for flushes. True where there was memory.
    pub(super) fn flushes_new(out: *mut Handle) -> bool;

    /// Frees it.
    pub(super) fn flushes_free(flushes: *mut Handle);

    /// Takes a flush of at most so many series of each book that has some, or none of any.
    pub(super) fn desk_take(desk: *mut Handle, flushes: *mut Handle, max: usize, out: *mut Answer);

    /// Takes a flush of at most so many series of the i-th book alone. It is in the place of that book,
    /// so whatever is done with flushes can be done with it.
    pub(super) fn desk_take_book(
        desk: *mut Handle,
        flushes: *mut Handle,
        i: usize,
        max: usize,
        out: *mut Answer,
    );

    /// Writes the request that forwards the i-th flush.
    pub(super) fn flushes_text(flushes: *mut Handle, i: usize, out: *mut Answer);

    /// Copies the text that was written last, where there is room for it.
    pub(super) fn flushes_copy(flushes: *mut Handle, out: *mut u8, out_length: usize) -> bool;

    /// Settles all flushes: the sink has their points for good.
    pub(super) fn desk_settle(desk: *mut Handle, flushes: *mut Handle) -> u32;

    /// Drops all flushes: the sink has refused their points for good.
    pub(super) fn desk_drop(desk: *mut Handle, flushes: *mut Handle) -> u32;

    /// Gives all flushes back: their points are pending, as if nothing had been taken.
    pub(super) fn desk_give_back(desk: *mut Handle, flushes: *mut Handle) -> u32;

    /// Quarantines a sender in all books, or in none.
    pub(super) fn desk_quarantine(desk: *mut Handle, sender: *const u8, sender_length: usize) -> u32;

    /// Releases a sender in each book in which it is quarantined.
    pub(super) fn desk_lift(desk: *mut Handle, sender: *const u8, sender_length: usize) -> u32;

    /// Closes the round of the i-th book alone, if its journal has at least so many entries and nothing
    /// is open or live there: whether it did.
    pub(super) fn desk_close_round(desk: *mut Handle, i: usize, entries: usize) -> bool;

    /// How many entries the longest of the books' journals has.
    pub(super) fn desk_entries(desk: *mut Handle) -> usize;

    /// How many series all books have.
    pub(super) fn desk_series(desk: *mut Handle) -> usize;

    /// Writes the report of the i-th book.
    pub(super) fn desk_report(desk: *mut Handle, flushes: *mut Handle, i: usize, out: *mut Answer);
}
