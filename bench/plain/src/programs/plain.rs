//! The least that does the job.

use plain::least::{read, Store};
use plain::serve;
use plain::simple::Simple;

fn main() {
    serve::serve(&Simple(Store::new(read)));
}
