//! A plain Rust reference for the Lyndon structure of a string. It is written from the definitions of
//! document 01, and of document 02 for the cabinet, the two counts of comparisons, the runs, masked letters,
//! symbols of 32 bits, the string of a tree and small trees, and shares no code with the library that it is
//! compared with. Letters of one byte and symbols of 32 bits go through the same code, and differ in their ranks
//! alone.
//!
//! - [`ranks`]: the numbers by which letters compare;
//! - [`definitions`]: suffixes, tables, tree, reach and Lyndon words, each as defined;
//! - [`steps`]: the reuse steps 1 to 4, which define the two counts of comparisons;
//! - [`brackets`]: a tree judged, read and questioned bit by bit;
//! - [`refusals`]: which refusals apply to an operation's input;
//! - [`cabinet`]: a file of many trees, written and read;
//! - [`runs`]: the runs of a string, as defined and period by period;
//! - [`tree_string`]: the string of a tree, as defined;
//! - [`small_trees`]: all trees of a small size, as defined;
//! - [`fast`], [`fast_brackets`], [`fast_runs`] and [`fast_tree_string`]: the same answers, usable at 1,000,000
//!   letters;
//! - [`fast_small_trees`]: small trees one after the other in the same buffer;
//! - [`samples`]: random numbers, strings and trees for tests.

#![warn(missing_docs)]

pub mod brackets;
pub mod cabinet;
pub mod definitions;
pub mod fast;
pub mod fast_brackets;
pub mod fast_runs;
pub mod fast_small_trees;
pub mod fast_tree_string;
pub mod ranks;
pub mod refusals;
pub mod runs;
pub mod samples;
pub mod small_trees;
pub mod steps;
pub mod tree_string;

/// The greatest number of letters that is taken.
pub const MAX_LETTERS: usize = 1_000_000;

/// The four tables, with n for none.
#[derive(Debug, Clone, PartialEq, Eq)]
pub struct Tables {
    /// The nearest smaller suffix before each position.
    pub previous: Vec<u32>,
    /// The nearest smaller suffix after each position.
    pub next: Vec<u32>,
    /// The letters shared with the previous smaller suffix.
    pub previous_match: Vec<u32>,
    /// The letters shared with the next smaller suffix.
    pub next_match: Vec<u32>,
}

/// What a build says of itself.
#[derive(Debug, Clone, Copy, PartialEq, Eq)]
pub struct Figures {
    /// Whether all rows are done.
    pub finished: bool,
    /// The rows done.
    pub rows: usize,
    /// The comparisons of the reuse steps that find two letters equal.
    pub equal: usize,
    /// Those that find them unequal.
    pub unequal: usize,
    /// The reach after these rows.
    pub reach: usize,
}

/// A build's whole answer.
#[derive(Debug, Clone, PartialEq, Eq)]
pub struct Structure {
    /// What the build says of itself.
    pub figures: Figures,
    /// The tables after the rows done.
    pub tables: Tables,
    /// The bytes of the tree after the rows done.
    pub tree: Vec<u8>,
}
