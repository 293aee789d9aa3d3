//! `totxegun version`: this program's version, and what is known of the book that is linked into it.
//!
//! `book/PROVENANCE` has the checksum of the proved library, the revision of its sources and the toolchain. `build.rs`
//! links no library with another checksum, and passes the file's words on to the program.

use std::fmt::{Display, Formatter};

/// One line: `totxegun 1.2.3; book: revision R, proved by TOOLCHAIN`.
pub struct Versions;

/// What `book/PROVENANCE` says of the library.
const REVISION: Option<&str> = option_env!("BOOK_REVISION");
const TOOLCHAIN: Option<&str> = option_env!("BOOK_TOOLCHAIN");

impl Display for Versions {
    fn fmt(&self, out: &mut Formatter<'_>) -> std::fmt::Result {
        write!(out, "totxegun {}; book: ", env!("CARGO_PKG_VERSION"))?;
        match REVISION.zip(TOOLCHAIN) {
            Some((revision, toolchain)) => write!(out, "revision {revision}, proved by {toolchain}"),
            None => write!(out, "nothing says that it was proved"),
        }
    }
}
