//! The trees of a small size one after the other in the same buffer, with the brackets in one number of 32 bits.
//! The benchmark compares the library with this code.

use crate::fast_brackets;
use crate::small_trees::MAX_SIZE;

/// Writes the first tree of a size, or returns the number of a refusal.
pub fn first(size: usize, tree: &mut [u8]) -> Result<(), u32> {
    if !(1..=MAX_SIZE).contains(&size) {
        return Err(14);
    }
    if tree.len() != size.div_ceil(4) {
        return Err(3);
    }
    write((1 << size) - 1, tree);
    Ok(())
}

/// Writes the tree after a tree and returns true, or returns false where it is the last; or the number of a
/// refusal.
pub fn next(size: usize, tree: &mut [u8]) -> Result<bool, u32> {
    if !(1..=MAX_SIZE).contains(&size) {
        return Err(14);
    }
    fast_brackets::judge(size, tree)?;
    let brackets = read(tree);
    // A tree ends with some pairs () that stand in no other, of which the highest bit is 0 and the one below 1.
    let from_the_highest = brackets << (32 - 2 * size);
    let pairs = (from_the_highest ^ 0x5555_5555).leading_zeros() as usize / 2;
    if pairs >= size {
        return Ok(false);
    }
    // The last opening before them is in another. It becomes a closing, and behind it come one opening more than
    // there are pairs, and then closings.
    let before = brackets & ((1 << (2 * (size - pairs))) - 1);
    let k = before.ilog2();
    let openings = (1 << (pairs + 1)) - 1;
    write(before ^ (1 << k) | openings << (k + 1), tree);
    Ok(true)
}

/// The brackets of a tree of at most 4 bytes.
fn read(tree: &[u8]) -> u32 {
    let bytes = tree.iter().rev();
    bytes.fold(0, |brackets, &byte| brackets << 8 | u32::from(byte))
}

fn write(brackets: u32, tree: &mut [u8]) {
    for (byte, &value) in tree.iter_mut().zip(&brackets.to_le_bytes()) {
        *byte = value;
    }
}

#[cfg(test)]
mod tests {
    use super::*;
    use crate::refusals;
    use crate::samples::strings_over;
    use crate::small_trees::in_order;

    #[test]
    fn they_are_the_defined_trees_in_order() {
        for size in 1..=MAX_SIZE {
            let mut tree = vec![7; size.div_ceil(4)];
            assert_eq!(first(size, &mut tree), Ok(()));
            let expected = in_order(size);
            for (k, defined) in expected.iter().enumerate() {
                assert_eq!(tree, *defined);
                assert_eq!(next(size, &mut tree), Ok(k + 1 < expected.len()));
            }
            assert_eq!(Some(&tree), expected.last());
        }
    }

    #[test]
    fn refusals_are_returned() {
        let bytes: Vec<u8> = (0..=255).collect();
        for size in [0, 1, 3, 4, 5, 7, 8, 9, 12, 13, usize::MAX] {
            for length in 0..=2 {
                for given in strings_over(&bytes, length) {
                    let mut tree = given.clone();
                    let verdict = refusals::first(&refusals::of_next_tree(size, &given));
                    assert_eq!(next(size, &mut tree).map(drop), verdict);
                    assert!(verdict.is_ok() || tree == given);
                }
                let mut tree = vec![7; length];
                let verdict = refusals::first(&refusals::of_first_tree(size, length));
                assert_eq!(first(size, &mut tree), verdict);
                assert!(verdict.is_ok() || tree == vec![7; length]);
            }
        }
    }
}
