//! The refusals that apply to an operation's input, by their numbers in the order in which they are tested,
//! which is ascending, but for 14. The first of them is the one that the operation returns.

use crate::small_trees::MAX_SIZE;
use crate::{brackets, MAX_LETTERS};

/// An operation's refusal, out of those that apply.
pub fn first(applying: &[u32]) -> Result<(), u32> {
    applying.first().map_or(Ok(()), |&number| Err(number))
}

/// The numbers whose condition holds.
fn applying<const K: usize>(conditions: [(u32, bool); K]) -> Vec<u32> {
    conditions
        .into_iter()
        .filter(|&(_, holds)| holds)
        .map(|(number, _)| number)
        .collect()
}

fn too_long(n: usize) -> bool {
    n > MAX_LETTERS
}

fn table_length(n: usize, lengths: &[usize]) -> bool {
    lengths.iter().any(|&length| length != n)
}

fn tree_length(n: usize, length: usize) -> bool {
    length != n.div_ceil(4)
}

fn size_outside(size: usize) -> bool {
    !(1..=MAX_SIZE).contains(&size)
}

/// Build: 1 to 4.
pub fn of_build(n: usize, tables: [usize; 4], tree: usize, rows: usize) -> Vec<u32> {
    applying([
        (1, too_long(n)),
        (2, table_length(n, &tables)),
        (3, tree_length(n, tree)),
        (4, rows > n),
    ])
}

/// Reading: 1, 2, 3, 6, 7, 8.
pub fn of_reading(n: usize, tree: &[u8], tables: [usize; 2]) -> Vec<u32> {
    applying([
        (1, too_long(n)),
        (2, table_length(n, &tables)),
        (3, tree_length(n, tree.len())),
        (6, brackets::spare_bit_set(n, tree)),
        (7, brackets::closed_too_early(n, tree)),
        (8, brackets::left_open(n, tree)),
    ])
}

/// The string of a tree, in a buffer of so many symbols: 1, 2, 3, 6, 7, 8.
pub fn of_tree_string(n: usize, tree: &[u8], symbols: usize) -> Vec<u32> {
    applying([
        (1, too_long(n)),
        (2, table_length(n, &[symbols])),
        (3, tree_length(n, tree.len())),
        (6, brackets::spare_bit_set(n, tree)),
        (7, brackets::closed_too_early(n, tree)),
        (8, brackets::left_open(n, tree)),
    ])
}

/// The first tree of a size, in a buffer of so many bytes: 14, 3.
pub fn of_first_tree(size: usize, tree: usize) -> Vec<u32> {
    applying([(14, size_outside(size)), (3, tree_length(size, tree))])
}

/// The tree after a tree: 14, 3, 6, 7, 8.
pub fn of_next_tree(size: usize, tree: &[u8]) -> Vec<u32> {
    applying([
        (14, size_outside(size)),
        (3, tree_length(size, tree.len())),
        (6, brackets::spare_bit_set(size, tree)),
        (7, brackets::closed_too_early(size, tree)),
        (8, brackets::left_open(size, tree)),
    ])
}

/// Tree questions: 1, 3, 5 to 8.
pub fn of_question(n: usize, tree: &[u8], position: usize) -> Vec<u32> {
    applying([
        (1, too_long(n)),
        (3, tree_length(n, tree.len())),
        (5, position >= n),
        (6, brackets::spare_bit_set(n, tree)),
        (7, brackets::closed_too_early(n, tree)),
        (8, brackets::left_open(n, tree)),
    ])
}

/// Longest word: 1, 5.
pub fn of_word(n: usize, position: usize) -> Vec<u32> {
    applying([(1, too_long(n)), (5, position >= n)])
}

/// Checking a claimed next table: 1, 2.
pub fn of_check(n: usize, claimed: usize, work: [usize; 4]) -> Vec<u32> {
    applying([
        (1, too_long(n)),
        (2, table_length(n, &[claimed]) || table_length(n, &work)),
    ])
}

/// Runs: 1, 2, 12, 13. The lists are the starts, the ends and the periods; `runs` is the number of runs,
/// of which a list has too few entries for 13.
pub fn of_runs(n: usize, work: [usize; 6], lists: [usize; 3], runs: usize) -> Vec<u32> {
    applying([
        (1, too_long(n)),
        (2, table_length(n, &work)),
        (12, lists.iter().any(|&length| length != lists[0])),
        (13, lists.iter().any(|&length| length < runs)),
    ])
}
