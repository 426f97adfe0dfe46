//! An independent implementation of document 01, in plain Rust: the tests compare the proved one with it, word for word, and the benchmarks measure both
//! in one process. It was written from the documents, not from the proved code. It is meant to be as fast as safe Rust with loops, arrays and operations
//! on 64-bit words can be, so that a ratio of 1 means something: a set is one word wherever it fits.
//!
//! In the order of the data: `grammar` reads the table, `relations` has IDP, IDS and EDP, `sets` the sets and visits, `sequences` the visit-sequences,
//! `plan` puts them together, `tree` checks a tree, `run` runs it. `cases` and `shrink` make inputs, `proved` calls the proved code.

pub mod cases;
pub mod grammar;
pub mod plan;
pub mod proved;
mod relations;
pub mod run;
mod sequences;
mod sets;
pub mod shrink;
mod tree;

/// A refusal: document 01's number, place and second place.
#[derive(Debug, Clone, Copy, PartialEq, Eq)]
pub struct Refusal {
    pub number: u32,
    pub place: usize,
    pub second: usize,
}

impl Refusal {
    pub fn at(number: u32, place: usize) -> Self {
        Refusal { number, place, second: 0 }
    }
}

/// The numbers that refusals have.
pub const NUMBERS: [u32; 17] = [1, 2, 3, 4, 5, 6, 7, 8, 9, 10, 12, 13, 14, 15, 16, 17, 18];

/// How a run ended.
#[derive(Debug, Clone, Copy, PartialEq, Eq)]
pub enum Ran {
    Done(u32),
    Stopped(u32),
}

pub use plan::plan;
pub use run::run;
