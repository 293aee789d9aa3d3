//! Checks that Cargo.toml has the version of the file VERSION at the top, looks for the allocator that `book/library`
//! links with, and links the proved book, that is, the library in `book/`, if it is the one that PROVENANCE there
//! names.

use sha2::{Digest, Sha256};
use std::path::{Path, PathBuf};
use std::process::Command;

/// The folder of the library, with what it was built from and what proved it. `$TOTXEGUN_BOOK` names another folder,
/// which may lack PROVENANCE: `tools/build.py book_c` makes one of changed crates.
const FOLDER: &str = "../book";
const LIBRARY: &str = "libbook.a";
const PROVENANCE: &str = "PROVENANCE";
/// The processor that the library is built for.
const PROCESSOR: &str = "x86_64";
/// The name that pkg-config has for it.
const ALLOCATOR: &str = "libtcmalloc_minimal";

fn main() {
    println!("cargo:rerun-if-changed=../VERSION");
    println!("cargo:rerun-if-changed=build.rs");
    println!("cargo:rerun-if-env-changed=TOTXEGUN_BOOK");
    compare_versions();
    look_for_allocator();
    link_book();
}

fn compare_versions() {
    let own = std::env::var("CARGO_PKG_VERSION").expect("cargo tells the version");
    match std::fs::read_to_string("../VERSION") {
        Ok(text) if text.trim() == own => {}
        Ok(text) => panic!("VERSION says {}, service/Cargo.toml {own}: write one into both", text.trim()),
        Err(error) => panic!("the file VERSION can't be read: {error}"),
    }
}

fn look_for_allocator() {
    let asked = Command::new("pkg-config").args(["--exists", ALLOCATOR]).status();
    if !asked.is_ok_and(|status| status.success()) {
        panic!("pkg-config finds no {ALLOCATOR}, the allocator: Debian's packages are pkg-config and libgoogle-perftools-dev");
    }
}

fn link_book() {
    let processor = std::env::var("CARGO_CFG_TARGET_ARCH").expect("cargo tells the processor");
    if processor != PROCESSOR {
        panic!("the proved library in book/ is for {PROCESSOR}, and this build is for {processor}: there is no other");
    }
    let other = std::env::var_os("TOTXEGUN_BOOK").map(PathBuf::from);
    let folder = std::path::absolute(other.as_deref().unwrap_or(Path::new(FOLDER))).expect("it has a name");
    let (library, provenance) = (folder.join(LIBRARY), folder.join(PROVENANCE));
    println!("cargo:rerun-if-changed={}", library.display());
    println!("cargo:rerun-if-changed={}", provenance.display());
    println!("cargo:rustc-link-search=native={}", folder.display());
    println!("cargo:rustc-link-lib=static=book");
    let Ok(bytes) = std::fs::read(&library) else {
        panic!("there is no {}: `git checkout book` brings it back", library.display());
    };
    match std::fs::read_to_string(&provenance) {
        Ok(text) => tell_version(&text, &bytes, &library),
        Err(_) if other.is_some() => {}
        Err(error) => {
            panic!("{} can't be read ({error}): `git checkout book` brings it back", provenance.display())
        }
    }
}

/// Gives the program the revision and the toolchain of its book, if the library has the checksum that PROVENANCE names.
fn tell_version(provenance: &str, bytes: &[u8], library: &Path) {
    let value = |key: &str| {
        let mut lines = provenance.lines().filter_map(|line| line.split_once(' '));
        lines.find(|(word, _)| *word == key).map(|(_, value)| value.trim())
    };
    let sum: String = Sha256::digest(bytes).iter().map(|byte| format!("{byte:02x}")).collect();
    if value("sha256") != Some(sum.as_str()) {
        let wanted = value("sha256").unwrap_or("nothing");
        panic!("{} has the sha256 {sum}, and {PROVENANCE} says {wanted}: `git checkout book` brings back the proved one", library.display());
    }
    for (name, key) in [("BOOK_REVISION", "revision"), ("BOOK_TOOLCHAIN", "toolchain")] {
        println!("cargo:rustc-env={name}={}", value(key).unwrap_or("unknown"));
    }
}
