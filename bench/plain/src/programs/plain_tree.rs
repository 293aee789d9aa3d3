//! The least that does the job, but that a body becomes a tree first.

use plain::least::{read_by_tree, Store};
use plain::serve;
use plain::simple::Simple;

fn main() {
    serve::serve(&Simple(Store::new(read_by_tree)));
}
