//! The string of a tree in one pass and with no memory but the buffer, usable at 1,000,000 positions. The
//! benchmark compares the library with this code.
//!
//! The brackets are passed from right to left. Closings are numbered as they come, and their numbers wait in
//! the first entries of the buffer. An opening is the last position that has no number, and takes the number
//! that waits last. Where all closings are numbered, the rest are openings, and their numbers stand where they
//! belong.

use crate::{fast_brackets, MAX_LETTERS};

/// The refusal 1, 2, 3, 6, 7 or 8.
fn judge(n: usize, tree: &[u8], symbols: &[u32]) -> Result<(), u32> {
    if n <= MAX_LETTERS && symbols.len() != n {
        return Err(2);
    }
    fast_brackets::judge(n, tree)
}

/// Passes the brackets of a balanced tree from right to left, 1 for an opening and 0 for a closing, until one is
/// not wanted.
#[inline(always)]
fn from_right_to_left(n: usize, tree: &[u8], mut pass: impl FnMut(u8) -> bool) {
    let (whole, rest) = tree.split_at(n / 4);
    for k in (0..2 * (n % 4)).rev() {
        if !pass((rest[0] >> k) & 1) {
            return;
        }
    }
    for byte in whole.iter().rev() {
        for k in (0..8).rev() {
            if !pass((byte >> k) & 1) {
                return;
            }
        }
    }
}

/// Writes the string of a tree into a lent buffer, or returns the number of a refusal. Two entries are stored
/// whichever a bracket is, so that no branch depends on it.
pub fn write(n: usize, tree: &[u8], symbols: &mut [u32]) -> Result<(), u32> {
    judge(n, tree, symbols)?;
    let symbols = &mut symbols[..n];
    // The last position that has no number, and the number of the next closing. As many numbers wait as
    // closings are passed less openings.
    let (mut position, mut number) = (n.wrapping_sub(1), 0);
    from_right_to_left(n, tree, |bracket| {
        if number == n {
            return false;
        }
        let opening = usize::from(bracket);
        let closing = 1 - opening;
        let last = number + closing + position - n;
        symbols[position] = symbols[last];
        symbols[last] = number as u32;
        position = position.wrapping_sub(opening);
        number += closing;
        true
    });
    Ok(())
}

/// The same with a branch at each bracket: faster where it is foreseen, and slower where it is not.
pub fn write_with_branches(n: usize, tree: &[u8], symbols: &mut [u32]) -> Result<(), u32> {
    judge(n, tree, symbols)?;
    let symbols = &mut symbols[..n];
    let (mut left, mut waiting, mut number) = (n, 0, 0);
    from_right_to_left(n, tree, |bracket| {
        if number == n {
            return false;
        }
        if bracket == 1 {
            left -= 1;
            waiting -= 1;
            symbols[left] = symbols[waiting];
        } else {
            symbols[waiting] = number as u32;
            waiting += 1;
            number += 1;
        }
        true
    });
    Ok(())
}

#[cfg(test)]
mod tests {
    use super::*;
    use crate::samples::{balanced_trees, one_root_over_leaves, random_tree, strings_over, Random};
    use crate::{refusals, tree_string};

    /// Both ways, in a buffer of so many entries.
    fn check(n: usize, tree: &[u8], entries: usize) {
        let applying = refusals::of_tree_string(n, tree, entries);
        let verdict = refusals::first(&applying);
        let expected = match verdict {
            Ok(()) => tree_string::by_definition(n, tree),
            Err(_) => vec![7; entries],
        };
        for write in [write, write_with_branches] {
            let mut symbols = vec![7; entries];
            assert_eq!(write(n, tree, &mut symbols), verdict);
            assert_eq!(symbols, expected);
        }
    }

    #[test]
    fn every_small_tree_has_the_defined_string() {
        for n in 0..=7 {
            for tree in balanced_trees(n) {
                check(n, &tree, n);
            }
        }
    }

    #[test]
    fn longer_trees_have_the_defined_string() {
        let mut random = Random::new(8);
        for n in 8..=200 {
            check(n, &one_root_over_leaves(n), n);
            for openings in [0, 1, 5, 9, 10] {
                check(n, &random_tree(&mut random, n, openings), n);
            }
        }
    }

    #[test]
    fn refusals_are_returned() {
        let bytes: Vec<u8> = (0..=255).collect();
        for n in 0..=5 {
            for length in 0..=2 {
                for tree in strings_over(&bytes, length) {
                    check(n, &tree, n);
                    check(n, &tree, n + 1);
                }
            }
        }
        check(MAX_LETTERS + 1, &[], 0);
    }
}
