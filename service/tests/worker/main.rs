//! Tests a shard with its worker over files on disk, with the book that is linked in.

mod hours;
mod numbered;
mod real;
mod support;
mod together;
