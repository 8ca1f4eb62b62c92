//! A tree judged, read and questioned with a table over half bytes, usable at 1,000,000 positions. The
//! benchmark compares the library with this code.

use crate::MAX_LETTERS;

/// The sum of a half byte's brackets, +1 for an opening and -1 for a closing from the lowest bit on, and
/// the lowest running sum, the empty start included.
#[derive(Debug, Clone, Copy, PartialEq, Eq)]
struct Sums {
    total: i32,
    lowest: i32,
}

/// The sums of every half byte.
static HALF_SUMS: [Sums; 16] = half_sums();

const fn half_sums() -> [Sums; 16] {
    let mut table = [Sums {
        total: 0,
        lowest: 0,
    }; 16];
    let mut half = 0;
    while half < 16 {
        let mut bit = 0;
        while bit < 4 {
            table[half].total += step((half >> bit) & 1 == 1);
            if table[half].total < table[half].lowest {
                table[half].lowest = table[half].total;
            }
            bit += 1;
        }
        half += 1;
    }
    table
}

const fn step(open: bool) -> i32 {
    if open {
        1
    } else {
        -1
    }
}

/// The sums of the lower and of the upper half of a byte.
fn halves(byte: u8) -> [Sums; 2] {
    [byte % 16, byte / 16].map(|half| HALF_SUMS[usize::from(half)])
}

/// The depth behind a byte, or none where it falls below 0 in it.
fn behind(depth: i32, byte: u8) -> Option<i32> {
    let [lower, upper] = halves(byte);
    if depth + lower.lowest < 0 {
        return None;
    }
    let middle = depth + lower.total;
    if middle + upper.lowest < 0 {
        return None;
    }
    Some(middle + upper.total)
}

/// The depth before a byte, or none where it falls below 0 on the way back through it.
fn before(depth: i32, byte: u8) -> Option<i32> {
    let [lower, upper] = halves(byte);
    let middle = depth - upper.total;
    if middle + upper.lowest < 0 {
        return None;
    }
    let start = middle - lower.total;
    if start + lower.lowest < 0 {
        return None;
    }
    Some(start)
}

fn is_open(tree: &[u8], k: usize) -> bool {
    (tree[k / 8] >> (k % 8)) & 1 == 1
}

/// The refusal 1, 3, 6, 7 or 8 of a tree of `n` positions.
pub fn judge(n: usize, tree: &[u8]) -> Result<(), u32> {
    if n > MAX_LETTERS {
        return Err(1);
    }
    if tree.len() != n.div_ceil(4) {
        return Err(3);
    }
    judge_brackets(n, tree)
}

/// The refusal 6, 7 or 8 of a tree of the right length.
fn judge_brackets(n: usize, tree: &[u8]) -> Result<(), u32> {
    let (whole, rest) = tree.split_at(n / 4);
    let used = 2 * (n % 4);
    if rest.iter().any(|byte| byte >> used != 0) {
        return Err(6);
    }
    let mut depth = 0;
    for &byte in whole {
        depth = behind(depth, byte).ok_or(7u32)?;
    }
    for k in 0..used {
        depth += step(is_open(rest, k));
        if depth < 0 {
            return Err(7);
        }
    }
    if depth > 0 {
        return Err(8);
    }
    Ok(())
}

/// Reads a tree into lent tables, or returns the number of a refusal.
pub fn read(n: usize, tree: &[u8], previous: &mut [u32], next: &mut [u32]) -> Result<(), u32> {
    if n <= MAX_LETTERS && (previous.len() != n || next.len() != n) {
        return Err(2);
    }
    judge(n, tree)?;

    // The innermost open position; `previous` leads from it to those around it. At the spare bits no
    // position is open.
    let none = n as u32;
    let mut innermost = none;
    let mut position = 0;
    let (previous, next) = (&mut previous[..n], &mut next[..n]);
    for byte in tree {
        for bit in 0..8 {
            if (byte >> bit) & 1 == 1 {
                previous[position as usize] = innermost;
                innermost = position;
                position += 1;
            } else if innermost != none {
                next[innermost as usize] = position;
                innermost = previous[innermost as usize];
            }
        }
    }
    Ok(())
}

/// Refusals 1, 3, 5, 6, 7, 8 of a question.
fn judge_question(n: usize, tree: &[u8], position: usize) -> Result<(), u32> {
    match judge(n, tree) {
        Err(refusal) if refusal < 5 => Err(refusal),
        _ if position >= n => Err(5),
        verdict => verdict,
    }
}

/// The bit place of the opening of a position, or the number of a refusal.
pub fn place(n: usize, tree: &[u8], position: usize) -> Result<usize, u32> {
    judge_question(n, tree, position)?;
    Ok(opening(tree, position))
}

/// The entry of a position in the previous table, or the number of a refusal.
pub fn previous(n: usize, tree: &[u8], position: usize) -> Result<usize, u32> {
    judge_question(n, tree, position)?;
    let open = opening(tree, position);
    // From the parent's opening on, up to this one, openings are one more than closings.
    Ok(parent(tree, open).map_or(n, |above| position - (open - above).div_ceil(2)))
}

/// The entry of a position in the next table, or the number of a refusal.
pub fn next(n: usize, tree: &[u8], position: usize) -> Result<usize, u32> {
    judge_question(n, tree, position)?;
    let open = opening(tree, position);
    Ok(position + (closing(tree, open) - open).div_ceil(2))
}

/// The place of the opening number `position`.
fn opening(tree: &[u8], position: usize) -> usize {
    let mut index = 0;
    let mut left = position;
    for eight in tree.chunks_exact(8) {
        let word = u64::from_le_bytes(eight.try_into().expect("eight bytes"));
        let openings = word.count_ones() as usize;
        if openings > left {
            break;
        }
        left -= openings;
        index += 8;
    }
    for byte in &tree[index..] {
        let openings = byte.count_ones() as usize;
        if openings > left {
            break;
        }
        left -= openings;
        index += 1;
    }
    let mut byte = tree[index];
    for _ in 0..left {
        byte &= byte - 1;
    }
    8 * index + byte.trailing_zeros() as usize
}

/// The place where the bracket opened at `open` closes.
fn closing(tree: &[u8], open: usize) -> usize {
    let mut k = open + 1;
    // The level at k, less that behind `open`.
    let mut depth = 0;
    while !k.is_multiple_of(8) {
        depth += step(is_open(tree, k));
        if depth < 0 {
            return k;
        }
        k += 1;
    }
    for &byte in &tree[k / 8..] {
        let Some(level) = behind(depth, byte) else {
            break;
        };
        depth = level;
        k += 8;
    }
    loop {
        depth += step(is_open(tree, k));
        if depth < 0 {
            return k;
        }
        k += 1;
    }
}

/// The place of the bracket around the one opened at `open`.
fn parent(tree: &[u8], open: usize) -> Option<usize> {
    let mut k = open;
    // The level at k, less that at `open`.
    let mut depth = 0;
    while !k.is_multiple_of(8) {
        k -= 1;
        depth -= step(is_open(tree, k));
        if depth < 0 {
            return Some(k);
        }
    }
    for &byte in tree[..k / 8].iter().rev() {
        let Some(level) = before(depth, byte) else {
            break;
        };
        depth = level;
        k -= 8;
    }
    while k > 0 {
        k -= 1;
        depth -= step(is_open(tree, k));
        if depth < 0 {
            return Some(k);
        }
    }
    None
}

#[cfg(test)]
mod tests {
    use super::*;
    use crate::samples::{random_tree, Random};
    use crate::{brackets, refusals};

    fn check(n: usize, tree: &[u8]) {
        let (mut previous_table, mut next_table) = (vec![0; n], vec![0; n]);
        let verdict = read(n, tree, &mut previous_table, &mut next_table);
        assert_eq!(
            verdict,
            refusals::first(&refusals::of_reading(n, tree, [n, n]))
        );
        for i in 0..=n {
            assert_eq!(place(n, tree, i), brackets::place(n, tree, i));
            assert_eq!(previous(n, tree, i), brackets::previous(n, tree, i));
            assert_eq!(next(n, tree, i), brackets::next(n, tree, i));
            if verdict.is_ok() && i < n {
                assert_eq!(previous_table[i] as usize, previous(n, tree, i).unwrap());
                assert_eq!(next_table[i] as usize, next(n, tree, i).unwrap());
            }
        }
    }

    /// The sum of a byte's brackets and the lowest running sum, bit by bit.
    fn sums(byte: u8) -> Sums {
        let (mut total, mut lowest) = (0, 0);
        for bit in 0..8 {
            total += step((byte >> bit) & 1 == 1);
            lowest = lowest.min(total);
        }
        Sums { total, lowest }
    }

    #[test]
    fn the_sums_of_hexadecimal_cd_are_2_and_0() {
        let (total, lowest) = (2, 0);
        assert_eq!(sums(0xcd), Sums { total, lowest });
    }

    #[test]
    fn two_halves_make_every_byte() {
        for byte in 0..=255 {
            let Sums { total, lowest } = sums(byte);
            for depth in 0..=9 {
                let passed = (depth + lowest >= 0).then_some(depth + total);
                assert_eq!(behind(depth, byte), passed);
                let passed = (depth - total + lowest >= 0).then_some(depth - total);
                assert_eq!(before(depth, byte), passed);
            }
        }
    }

    #[test]
    fn every_small_tree_is_answered_as_bit_by_bit() {
        check(0, &[]);
        for byte in 0..=255 {
            for n in 0..=5 {
                check(n, &[byte]);
            }
        }
        for bytes in 0..=u16::MAX {
            check(6, &bytes.to_le_bytes());
        }
    }

    #[test]
    fn longer_trees_are_answered_as_bit_by_bit() {
        let mut random = Random::new(3);
        for n in 1..=80 {
            for openings in [1, 5, 9, 10] {
                let mut tree = random_tree(&mut random, n, openings);
                check(n, &tree);
                tree[random.below(n.div_ceil(4))] ^= 1 << random.below(8);
                check(n, &tree);
            }
        }
    }
}
