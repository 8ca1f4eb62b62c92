//! The definitions of document 01, computed as they are written. Letters compare by their ranks.

use crate::ranks::{ranks, same, Letter};
use crate::{steps, Figures, Structure, Tables};

/// Whether one string is smaller than another: a proper prefix is smaller, otherwise the first differing
/// letter decides. This is the order of sequences, here of the ranks.
fn less<L: Letter>(left: &[L], right: &[L]) -> bool {
    ranks(left).lt(ranks(right))
}

/// Whether the suffix at `i` is smaller than the suffix at `j`.
pub fn suffix_less<L: Letter>(letters: &[L], i: usize, j: usize) -> bool {
    less(&letters[i..], &letters[j..])
}

/// match(i, j): the number of leading letters that the suffixes at `i` and `j` share.
pub fn suffix_match<L: Letter>(letters: &[L], i: usize, j: usize) -> usize {
    letters[i..]
        .iter()
        .zip(&letters[j..])
        .take_while(|(&a, &b)| same(a, b))
        .count()
}

/// The greatest j < i whose suffix is smaller than that at `i`.
pub fn previous<L: Letter>(letters: &[L], i: usize) -> Option<usize> {
    (0..i).rev().find(|&j| suffix_less(letters, j, i))
}

/// The least j > i whose suffix is smaller than that at `i`.
pub fn next<L: Letter>(letters: &[L], i: usize) -> Option<usize> {
    (i + 1..letters.len()).find(|&j| suffix_less(letters, j, i))
}

/// The least position whose entry in a claimed next table of n entries is not the defined one.
pub fn least_wrong<L: Letter>(letters: &[L], claimed: &[u32]) -> Option<usize> {
    let n = letters.len();
    (0..n).find(|&i| claimed[i] as usize != next(letters, i).unwrap_or(n))
}

/// The four tables after `rows` rows.
pub fn tables<L: Letter>(letters: &[L], rows: usize) -> Tables {
    let n = letters.len();
    let previous_after = |i| if i < rows { previous(letters, i) } else { None };
    let next_after = |i| {
        if i < rows {
            next(letters, i).filter(|&j| j < rows)
        } else {
            None
        }
    };
    let table = |entry: &dyn Fn(usize) -> usize| (0..n).map(|i| entry(i) as u32).collect();
    Tables {
        previous: table(&|i| previous_after(i).unwrap_or(n)),
        next: table(&|i| next_after(i).unwrap_or(n)),
        previous_match: table(&|i| previous_after(i).map_or(0, |j| suffix_match(letters, j, i))),
        next_match: table(&|i| next_after(i).map_or(0, |j| suffix_match(letters, i, j))),
    }
}

/// The reach after `rows` rows, over all pairs.
pub fn reach<L: Letter>(letters: &[L], rows: usize) -> usize {
    let previous: Vec<_> = (0..rows).map(|i| previous(letters, i)).collect();
    let next: Vec<_> = (0..rows).map(|i| next(letters, i)).collect();
    let pairs = (0..rows).flat_map(|r| (0..r).map(move |l| (l, r)));
    let near = pairs.filter(|&(l, r)| next[l] == Some(r) || previous[r] == Some(l));
    near.map(|(l, r)| r + suffix_match(letters, l, r))
        .fold(rows.min(1), usize::max)
}

/// The tree after `rows` rows: position i hangs under previous\[i\], or is a root.
pub fn tree<L: Letter>(letters: &[L], rows: usize) -> Vec<u8> {
    let parents: Vec<_> = (0..rows).map(|i| previous(letters, i)).collect();
    let mut brackets = Vec::new();
    append_children(None, &parents, &mut brackets);
    pack(&brackets, letters.len())
}

/// Appends the brackets of all that hangs under `parent`, from left to right.
fn append_children(parent: Option<usize>, parents: &[Option<usize>], brackets: &mut Vec<bool>) {
    for child in 0..parents.len() {
        if parents[child] == parent {
            brackets.push(true);
            append_children(Some(child), parents, brackets);
            brackets.push(false);
        }
    }
}

/// The brackets as the first bits of the ceil(n/4) bytes of a tree.
pub fn pack(brackets: &[bool], n: usize) -> Vec<u8> {
    let mut bytes = vec![0; n.div_ceil(4)];
    for (k, &open) in brackets.iter().enumerate() {
        if open {
            bytes[k / 8] += 2u8.pow((k % 8) as u32);
        }
    }
    bytes
}

/// The whole answer of a build of `rows` rows, `rows` at most n.
pub fn build<L: Letter>(letters: &[L], rows: usize) -> Structure {
    let steps = steps::run(letters, rows);
    Structure {
        figures: Figures {
            finished: rows == letters.len(),
            rows,
            equal: steps.equal,
            unequal: steps.unequal,
            reach: reach(letters, rows),
        },
        tables: tables(letters, rows),
        tree: tree(letters, rows),
    }
}

/// Whether `word` is non-empty and smaller than each of its proper non-empty suffixes.
pub fn is_lyndon<L: Letter>(word: &[L]) -> bool {
    !word.is_empty() && (1..word.len()).all(|i| less(word, &word[i..]))
}

/// The longest Lyndon word that starts at `position`, `position` below n.
pub fn longest_word<L: Letter>(letters: &[L], position: usize) -> &[L] {
    let suffix = &letters[position..];
    let longest = (1..=suffix.len())
        .rev()
        .find(|&length| is_lyndon(&suffix[..length]));
    &suffix[..longest.expect("a single letter is a Lyndon word")]
}

#[cfg(test)]
mod tests {
    use super::*;
    use crate::samples::strings_over;

    #[test]
    fn the_length_of_the_longest_lyndon_word_is_next_minus_position() {
        for n in 1..=7 {
            for letters in strings_over(b"aAbc", n) {
                for i in 0..n {
                    let end = next(&letters, i).unwrap_or(n);
                    assert_eq!(longest_word(&letters, i), &letters[i..end]);
                }
            }
        }
    }

    #[test]
    fn small_letters_compare_as_capitals() {
        assert!(less(b"a", b"B") && less(b"A", b"b") && less(b"z", b"_"));
        assert!(less(b"A", b"aA") && less(b"a", b"AA"));
        assert!(!less(b"a", b"A") && !less(b"A", b"a"));
        assert_eq!(suffix_match(b"bAnaNa", 1, 3), 3);
        assert_eq!(longest_word(b"bAnaNa", 1), b"An");
        // Bytes 91 to 96 are greater than every letter, 123 too.
        assert_eq!(tree(b"a_", 2), [0x03]);
        assert_eq!(tree(b"_a", 2), [0x05]);
    }

    #[test]
    fn symbols_compare_as_numbers() {
        let in_order = [0, 65, 97, 255, 256, 0x7fff_ffff, 0x8000_0000, u32::MAX];
        for pair in in_order.windows(2) {
            let [left, right] = [pair[0], pair[1]].map(|symbol| [symbol]);
            assert!(less(&left, &right) && !less(&right, &left), "{pair:?}");
        }
        let symbols: [u32; 4] = [97, 66, 97, 97];
        assert_eq!(suffix_match(&symbols, 0, 2), 1);
        assert_eq!(longest_word(&symbols, 0), [97]);
        assert_eq!(tree(&symbols[..2], 2), [0x05]);
    }
}
