//! All trees of a small size, as document 02 defines them under T-09, and what the program `trees` prints.

use std::fmt::Write;

use crate::tree_string;

/// The greatest size.
pub const MAX_SIZE: usize = 12;

/// Every balanced tree of `size` positions, "ordered by their first differing bracket, an opening before a
/// closing".
pub fn in_order(size: usize) -> Vec<Vec<u8>> {
    let mut trees = Vec::new();
    add_trees(size, &mut Vec::new(), &mut trees);
    trees
}

/// Adds the trees of `size` positions that begin with these brackets: first those that go on with an opening,
/// then those that go on with a closing.
fn add_trees(size: usize, brackets: &mut Vec<bool>, trees: &mut Vec<Vec<u8>>) {
    let openings = brackets.iter().filter(|&&open| open).count();
    let closings = brackets.len() - openings;
    if closings == size {
        trees.push(bytes(brackets));
        return;
    }
    for (open, possible) in [(true, openings < size), (false, closings < openings)] {
        if possible {
            brackets.push(open);
            add_trees(size, brackets, trees);
            brackets.pop();
        }
    }
}

/// The bytes of a tree with these brackets.
fn bytes(brackets: &[bool]) -> Vec<u8> {
    let mut tree = vec![0; brackets.len().div_ceil(8)];
    for (k, &open) in brackets.iter().enumerate() {
        tree[k / 8] |= u8::from(open) << (k % 8);
    }
    tree
}

/// What the program `trees` prints for an input: "a line for each", or "the one line `no size`".
pub fn text(input: &[u8]) -> String {
    match size_of(input) {
        Some(size @ 1..=MAX_SIZE) => in_order(size).iter().map(|tree| line(size, tree)).collect(),
        _ => "no size\n".into(),
    }
}

/// The size that an input gives: "one or two decimal digits and then at most one byte 10".
fn size_of(input: &[u8]) -> Option<usize> {
    let digits = input.strip_suffix(b"\n").unwrap_or(input);
    let is_size = matches!(digits.len(), 1 | 2) && digits.iter().all(u8::is_ascii_digit);
    let value = |digit: &u8| usize::from(digit - b'0');
    is_size.then(|| digits.iter().map(value).fold(0, |size, v| 10 * size + v))
}

/// The line of a tree: "the tree in lower-case hexadecimal, then its string from T-08 in decimal, with single
/// blanks".
fn line(size: usize, tree: &[u8]) -> String {
    let mut line = String::new();
    for byte in tree {
        write!(line, "{byte:02x}").expect("a string");
    }
    for symbol in tree_string::by_definition(size, tree) {
        write!(line, " {symbol}").expect("a string");
    }
    line + "\n"
}

#[cfg(test)]
mod tests {
    use super::*;
    use crate::brackets::is_open;
    use crate::samples::balanced_trees;

    #[test]
    fn the_example_of_the_document() {
        let brackets = |tree: &Vec<u8>| -> String {
            let bracket = |k| if is_open(tree, k) { '(' } else { ')' };
            (0..6).map(bracket).collect()
        };
        let three: Vec<String> = in_order(3).iter().map(brackets).collect();
        assert_eq!(three, ["((()))", "(()())", "(())()", "()(())", "()()()"]);
        assert_eq!(in_order(3), [[0x07], [0x0b], [0x13], [0x0d], [0x15]]);
    }

    /// The bit strings that are balanced, sorted by their brackets.
    #[test]
    fn they_are_the_balanced_trees_sorted() {
        for size in 1..=11 {
            let mut sorted: Vec<_> = balanced_trees(size).collect();
            sorted.sort_by_cached_key(|tree| -> Vec<bool> {
                (0..2 * size).map(|k| !is_open(tree, k)).collect()
            });
            assert_eq!(in_order(size), sorted, "size {size}");
        }
    }

    #[test]
    fn the_text_of_the_document() {
        assert_eq!(text(b"2"), "03 0 1\n05 1 0\n");
        assert_eq!(text(b"02\n"), text(b"2"));
        assert_eq!(text(b"2\n\n"), "no size\n");
        assert_eq!(text(b"13"), "no size\n");
    }
}
