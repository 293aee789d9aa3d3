//! Calls the proved book, the library that is linked into this program, and is its allocator. Only this file and
//! `ingest/zstd` have `unsafe` code.
//!
//! What the library was proved to do holds only if its caller keeps these conditions; the comment at each call says
//! how:
//!
//! - One call of a handle at a time (`&mut self`), and only on a handle that was made and not freed yet (`Drop`).
//! - Slices have the lengths that are passed, and numbers are in the ranges of the contracts.
//! - The declarations (`declared`) are those that `tools/declared.py` takes from the library's source.
//! - Nobody else writes to its memory, which it gets by the last three functions here.

mod answer;
mod declared;

use super::memory::{self, Tried};
use answer::{asked, forwarded, written};
use declared::*;
use std::ptr::null_mut;

pub(super) use declared::{status, Answer, MAX_TAKEN};

// tcmalloc allocates all blocks of the process: it is linked before the C library, whose malloc is never called. A post
// takes hundreds of blocks, and of the four allocators that were measured tcmalloc took the least time.
#[link(name = "tcmalloc_minimal")]
extern "C" {
    #[link_name = "MallocExtension_ReleaseFreeMemory"]
    fn release_free_memory();
    #[link_name = "MallocExtension_MarkThreadIdle"]
    fn mark_thread_idle();
    #[cfg(test)]
    #[link_name = "MallocExtension_GetNumericProperty"]
    fn number_of(property: *const libc::c_char, number: *mut usize) -> libc::c_int;
}

/// The arguments: a reader, the sender's name, the body, the number of books, the bounds of time, and the answer.
type ReadCall =
    unsafe extern "C" fn(*mut Handle, *const u8, usize, *const u8, usize, usize, u64, u64, *mut Answer);

/// Defines types that own a live handle, each with the call that frees it.
macro_rules! handles {
    ($($(#[doc = $about:literal])* $name:ident: $free:ident;)*) => {$(
        $(#[doc = $about])*
        pub(super) struct $name(Handle);

        // SAFETY: the library was proved to be usable from any thread (`may_cross`), one call at a time: each takes
        // `&mut self`.
        unsafe impl Send for $name {}

        impl Drop for $name {
            fn drop(&mut self) {
                // SAFETY: the handle is live, and nothing uses it after this.
                unsafe { $free(&mut self.0) };
            }
        }
    )*};
}

handles! {
    /// Parses posts, and holds the last one, split into a part for each book.
    Reader: reader_free;
    /// The series that have numbers, from 0 on.
    Names: names_free;
    /// All books; each series belongs to one of them.
    Desk: desk_free;
    /// Flushes taken from all books, and the text that was written last.
    Flushes: flushes_free;
}

/// The handle that a call has made; none if there was no memory.
fn made(call: impl FnOnce(&mut Handle) -> bool) -> Option<Handle> {
    let mut handle = Handle { at: null_mut() };
    let answer =
        asked(|answer| answer.status = if call(&mut handle) { status::DONE } else { status::NO_MEMORY });
    (answer.status == status::DONE).then_some(handle)
}

impl Reader {
    /// None if there is no memory.
    pub fn new() -> Option<Reader> {
        // SAFETY: `handle` outlives the call, which makes it live if it returns true.
        made(|handle| unsafe { reader_new(handle) }).map(Reader)
    }

    /// Parses a JSON body.
    pub fn read(&mut self, sender: &[u8], body: &[u8], books: usize) -> Answer {
        self.read_by(reader_read, sender, body, books)
    }

    /// Parses a protobuf body.
    pub fn read_protobuf(&mut self, sender: &[u8], body: &[u8], books: usize) -> Answer {
        self.read_by(reader_read_protobuf, sender, body, books)
    }

    fn read_by(&mut self, read: ReadCall, sender: &[u8], body: &[u8], books: usize) -> Answer {
        let (by, by_len, at, len) = (sender.as_ptr(), sender.len(), body.as_ptr(), body.len());
        let (reader, books) = (&mut self.0, books.max(1));
        // SAFETY: the handle is live and borrowed for this call alone; both slices and the answer outlive it.
        asked(|answer| unsafe { read(reader, by, by_len, at, len, books, 0, u64::MAX, answer) })
    }

    /// Reads points by number: each is its number, start, end, and value words.
    pub fn put(&mut self, names: &mut Names, sender: &[u8], words: &[u64], books: usize) -> Answer {
        let (by, by_len, at, len) = (sender.as_ptr(), sender.len(), words.as_ptr(), words.len());
        let (reader, names, books) = (&mut self.0, &mut names.0, books.max(1));
        // SAFETY: both handles are live and borrowed for this call alone; both slices and the answer outlive it.
        asked(|answer| unsafe { reader_put(reader, names, by, by_len, at, len, books, 0, u64::MAX, answer) })
    }

    /// Writes the points of the last post to `words`, in the form of `put`. `words` should have about their length. A
    /// series without a number gets the next one, and `at` returns how many numbers there are then. The reader keeps
    /// its points.
    pub fn words(&mut self, names: &mut Names, words: &mut Vec<u64>) -> Answer {
        let (reader, names) = (&mut self.0, &mut names.0);
        let call = |words: &mut [u64], answer: &mut Answer| {
            // SAFETY: both handles are live and borrowed for this call alone; the slice and the answer outlive it.
            unsafe { reader_words(reader, names, words.as_mut_ptr(), words.len(), answer) }
        };
        written(words, call)
    }

    /// The least (`number`) and the greatest (`at`) end of its points, in nanoseconds. The status is not `DONE` if it
    /// has none.
    pub fn ends(&mut self) -> Answer {
        // SAFETY: the handle is live and borrowed for this call alone; the answer outlives it.
        asked(|answer| unsafe { reader_ends(&mut self.0, answer) })
    }
}

impl Names {
    /// None if there is no memory.
    pub fn new() -> Option<Names> {
        // SAFETY: as in `Reader::new`.
        made(|handle| unsafe { names_new(handle) }).map(Names)
    }

    /// Writes a request with one point of the series with this number to `text`, which should have about its length.
    pub fn text(&mut self, number: u64, text: &mut Vec<u8>) -> Answer {
        let call = |text: &mut [u8], answer: &mut Answer| {
            // SAFETY: the handle is live and borrowed for this call alone; the slice and the answer outlive it.
            unsafe { names_text(&mut self.0, number, text.as_mut_ptr(), text.len(), answer) }
        };
        written(text, call)
    }
}

impl Desk {
    /// None if there is no memory.
    pub fn new(books: usize) -> Option<Desk> {
        // SAFETY: as in `Reader::new`; there is at least one book.
        made(|handle| unsafe { desk_new(books.max(1), handle) }).map(Desk)
    }

    /// Admits the post that the reader has read, which must have been split for as many books as there are here.
    pub fn admit(&mut self, reader: &mut Reader) -> Answer {
        // SAFETY: both handles are live and borrowed for this call alone.
        asked(|answer| unsafe { desk_admit(&mut self.0, &mut reader.0, answer) })
    }

    /// Answers as `admit` would, and changes no book; the reader loses its post.
    pub fn try_admit(&mut self, reader: &mut Reader) -> Answer {
        // SAFETY: both handles are live and borrowed for this call alone.
        asked(|answer| unsafe { desk_try(&mut self.0, &mut reader.0, answer) })
    }

    /// Finds (as `number`) the first book, from `first` on, in which a series has pending points of an earlier window
    /// than one of its points in the reader. A window has `stretch` nanoseconds. Changes nothing.
    pub fn crosses(&mut self, reader: &mut Reader, stretch: u64, first: usize) -> Answer {
        // SAFETY: both handles are live and borrowed for this call alone; the length of a window is not 0.
        asked(|answer| unsafe { desk_crosses(&mut self.0, &mut reader.0, stretch.max(1), first, answer) })
    }

    /// Takes a flush of at most `most` series from each book that has pending points.
    pub fn take(&mut self, flushes: &mut Flushes, most: usize) -> Answer {
        let most = most.clamp(1, MAX_TAKEN);
        // SAFETY: both handles are live and borrowed for this call alone; the number is from 1 to 1,000.
        forwarded(|answer| unsafe { desk_take(&mut self.0, &mut flushes.0, most, answer) })
    }

    /// Takes a flush from one book alone.
    pub fn take_book(&mut self, flushes: &mut Flushes, book: usize, most: usize) -> Answer {
        let most = most.clamp(1, MAX_TAKEN);
        // SAFETY: both handles are live and borrowed for this call alone; the number is from 1 to 1,000.
        forwarded(|answer| unsafe { desk_take_book(&mut self.0, &mut flushes.0, book, most, answer) })
    }

    /// Ends flushes whose requests were serialised: the books forget their points.
    pub fn settle(&mut self, flushes: &mut Flushes) -> Answer {
        // SAFETY: both handles are live and borrowed for this call alone.
        forwarded(|answer| answer.status = unsafe { desk_settle(&mut self.0, &mut flushes.0) })
    }

    /// Ends flushes by making their points pending again.
    pub fn give_back(&mut self, flushes: &mut Flushes) -> Answer {
        // SAFETY: both handles are live and borrowed for this call alone.
        forwarded(|answer| answer.status = unsafe { desk_give_back(&mut self.0, &mut flushes.0) })
    }

    /// Quarantines a sender in all books or in none.
    pub fn quarantine(&mut self, sender: &[u8]) -> Answer {
        // SAFETY: the handle is live and borrowed for this call alone; the slice outlives it.
        asked(|answer| answer.status = unsafe { desk_quarantine(&mut self.0, sender.as_ptr(), sender.len()) })
    }

    /// Releases a sender in each book in which it is quarantined.
    pub fn lift(&mut self, sender: &[u8]) -> Answer {
        // SAFETY: the handle is live and borrowed for this call alone; the slice outlives it.
        forwarded(|answer| answer.status = unsafe { desk_lift(&mut self.0, sender.as_ptr(), sender.len()) })
    }

    /// Closes the round of one book if it has entries, and no open batch and no live flush; returns whether it was
    /// closed.
    pub fn close_round(&mut self, book: usize) -> bool {
        // SAFETY: the handle is live and borrowed for this call alone.
        memory::with_reserve(|| unsafe { desk_close_round(&mut self.0, book, 1) })
    }

    /// The length of the longest of the books' journals.
    pub fn entries(&mut self) -> usize {
        // SAFETY: the handle is live and borrowed for this call alone.
        unsafe { desk_entries(&mut self.0) }
    }

    /// How many series all books have.
    pub fn series(&mut self) -> usize {
        // SAFETY: the handle is live and borrowed for this call alone.
        unsafe { desk_series(&mut self.0) }
    }

    /// Writes the report of one book, which `Flushes::copy` returns.
    pub fn report(&mut self, flushes: &mut Flushes, book: usize) -> Answer {
        // SAFETY: both handles are live and borrowed for this call alone.
        asked(|answer| unsafe { desk_report(&mut self.0, &mut flushes.0, book, answer) })
    }
}

impl Flushes {
    /// None if there is no memory.
    pub fn new() -> Option<Flushes> {
        // SAFETY: as in `Reader::new`.
        let call = |handle: &mut Handle| unsafe { flushes_new(handle) };
        memory::with_reserve(|| made(call)).map(Flushes)
    }

    /// Writes the request of one flush, which `copy` returns.
    pub fn text(&mut self, number: usize) -> Answer {
        // SAFETY: the handle is live and borrowed for this call alone.
        forwarded(|answer| unsafe { flushes_text(&mut self.0, number, answer) })
    }

    /// Copies the text that was written last; returns whether `out` has exactly its length.
    pub fn copy(&mut self, out: &mut [u8]) -> bool {
        // SAFETY: the handle and the slice are live and borrowed for this call alone.
        unsafe { flushes_copy(&mut self.0, out.as_mut_ptr(), out.len()) }
    }
}

/// Returns free memory of the process to the system, except what other threads cache.
pub fn give_back() {
    give_back_of_thread();
    // SAFETY: any thread may call it at any time.
    unsafe { release_free_memory() };
}

/// Makes the free memory that this thread caches available to all threads.
pub(super) fn give_back_of_thread() {
    // SAFETY: any thread may call it at any time.
    unsafe { mark_thread_idle() };
}

/// How many bytes the allocator has returned to the system.
#[cfg(test)]
pub(crate) fn given_back() -> usize {
    number(c"tcmalloc.pageheap_unmapped_bytes")
}

/// How many bytes of the process are allocated now.
#[cfg(test)]
pub(crate) fn allocated() -> usize {
    number(c"generic.current_allocated_bytes")
}

#[cfg(test)]
fn number(property: &std::ffi::CStr) -> usize {
    let mut number = 0;
    // SAFETY: the name ends with a zero, and both outlive the call.
    let is_known = unsafe { number_of(property.as_ptr(), &mut number) };
    assert_eq!(is_known, 1, "tcmalloc has this number");
    number
}

/// The length of a block as the allocator gave it; this length is counted.
fn length_of(at: *mut libc::c_void) -> usize {
    // SAFETY: `at` came from malloc or realloc and was not freed.
    unsafe { libc::malloc_usable_size(at) }
}

/// Allocates a block. The alignment is at most 16, which malloc always provides. An empty block has an address of its
/// own, too.
#[no_mangle]
extern "C" fn rattle_alloc(bytes: usize, align: usize) -> Tried {
    // SAFETY: malloc may be asked for any length.
    let at = unsafe { libc::malloc(if bytes == 0 { align } else { bytes }) };
    if at.is_null() {
        return Tried::not();
    }
    if memory::take(length_of(at)) {
        return Tried::of(at);
    }
    // SAFETY: the block came from malloc just now, and nothing uses it.
    unsafe { libc::free(at) };
    Tried::not()
}

/// Changes the length of a block, whose first bytes stay. If that fails, the block is unchanged.
#[no_mangle]
extern "C" fn rattle_realloc(at: *mut u8, _kept: usize, bytes: usize, align: usize) -> Tried {
    let (at, bytes) = (at.cast(), if bytes == 0 { align } else { bytes });
    let before = length_of(at);
    let more = bytes.saturating_sub(before);
    if more > 0 && !memory::take(more) {
        return Tried::not();
    }
    // SAFETY: the library passes only blocks that it got from these functions and has not freed.
    let moved = unsafe { libc::realloc(at, bytes) };
    if moved.is_null() {
        memory::give(more);
        return Tried::not();
    }
    memory::correct(before + more, length_of(moved));
    Tried::of(moved)
}

#[no_mangle]
extern "C" fn rattle_dealloc(at: *mut u8) {
    let at = at.cast();
    memory::give(length_of(at));
    // SAFETY: the library passes only blocks that it got from these functions, each once.
    unsafe { libc::free(at) };
}
