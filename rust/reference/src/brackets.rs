//! A tree judged, read and questioned bit by bit.

use crate::refusals;

/// Whether bit `k` opens a bracket.
pub fn is_open(tree: &[u8], k: usize) -> bool {
    tree[k / 8] & (1 << (k % 8)) != 0
}

/// The number of the first 2n bits that are there.
fn used_bits(n: usize, tree: &[u8]) -> usize {
    n.saturating_mul(2).min(8 * tree.len())
}

/// The openings less the closings in the first 0, 1, 2, ... of the 2n bits.
fn running_sums(n: usize, tree: &[u8]) -> impl Iterator<Item = i64> + '_ {
    let mut sum = 0;
    let steps = (0..used_bits(n, tree)).map(move |k| {
        sum += if is_open(tree, k) { 1 } else { -1 };
        sum
    });
    std::iter::once(0).chain(steps)
}

/// Refusal 6: a spare bit is 1.
pub fn spare_bit_set(n: usize, tree: &[u8]) -> bool {
    (used_bits(n, tree)..8 * tree.len()).any(|k| is_open(tree, k))
}

/// Refusal 7: some first bits of the 2n hold more closings than openings.
pub fn closed_too_early(n: usize, tree: &[u8]) -> bool {
    running_sums(n, tree).any(|sum| sum < 0)
}

/// Refusal 8: no such place, but not all are closed.
pub fn left_open(n: usize, tree: &[u8]) -> bool {
    !closed_too_early(n, tree) && running_sums(n, tree).last() != Some(0)
}

/// The bit place of the opening of `position`, or the number of a refusal.
pub fn place(n: usize, tree: &[u8], position: usize) -> Result<usize, u32> {
    refusals::first(&refusals::of_question(n, tree, position))?;
    Ok(opening(n, tree, position))
}

/// The parent of `position`, n at a root, or the number of a refusal.
pub fn previous(n: usize, tree: &[u8], position: usize) -> Result<usize, u32> {
    refusals::first(&refusals::of_question(n, tree, position))?;
    Ok((0..position)
        .rev()
        .find(|&above| at_or_below(n, tree, above, position))
        .unwrap_or(n))
}

/// `position` plus the number of positions at and below it, or the number of a refusal.
pub fn next(n: usize, tree: &[u8], position: usize) -> Result<usize, u32> {
    refusals::first(&refusals::of_question(n, tree, position))?;
    Ok(position
        + (0..n)
            .filter(|&other| at_or_below(n, tree, position, other))
            .count())
}

/// The place of the opening of position `i` of a balanced tree.
fn opening(n: usize, tree: &[u8], i: usize) -> usize {
    let mut openings = (0..2 * n).filter(|&k| is_open(tree, k));
    openings.nth(i).expect("a balanced tree opens n brackets")
}

/// The place where the bracket of position `i` of a balanced tree closes.
fn closing(n: usize, tree: &[u8], i: usize) -> usize {
    let mut depth = 0;
    let closes = |&k: &usize| {
        depth += if is_open(tree, k) { 1 } else { -1 };
        depth == 0
    };
    (opening(n, tree, i)..2 * n)
        .find(closes)
        .expect("a balanced tree closes all brackets")
}

/// Whether position `j` of a balanced tree is at or below position `i`.
fn at_or_below(n: usize, tree: &[u8], i: usize, j: usize) -> bool {
    (opening(n, tree, i)..closing(n, tree, i)).contains(&opening(n, tree, j))
}
