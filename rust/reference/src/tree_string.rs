//! The string of a tree, as document 02 defines it under T-08.

use crate::brackets::is_open;

/// A position, and what hangs directly under it, from left to right.
struct Node {
    position: usize,
    children: Vec<Node>,
}

/// The nodes that open before the next closing that is none of theirs, or before the end.
fn nodes(
    brackets: &mut impl Iterator<Item = bool>,
    positions: &mut impl Iterator<Item = usize>,
) -> Vec<Node> {
    let mut found = Vec::new();
    while brackets.next() == Some(true) {
        let position = positions.next().expect("an opening for each position");
        let children = nodes(brackets, positions);
        found.push(Node { position, children });
    }
    found
}

/// Numbers these nodes from last to first, each followed by all that hangs below it before the next.
fn number(nodes: &[Node], numbers: &mut impl Iterator<Item = u32>, symbols: &mut [u32]) {
    for node in nodes.iter().rev() {
        symbols[node.position] = numbers.next().expect("a number for each position");
        number(&node.children, numbers, symbols);
    }
}

/// The string of a balanced tree of `n` positions: "roots from last to first, each followed by all that hangs
/// below it before the next root, children likewise from last to first, counting from 0". The calls are nested
/// as deep as the tree.
pub fn by_definition(n: usize, tree: &[u8]) -> Vec<u32> {
    let mut brackets = (0..2 * n).map(|k| is_open(tree, k));
    let roots = nodes(&mut brackets, &mut (0..n));
    let mut symbols = vec![0; n];
    number(&roots, &mut (0..), &mut symbols);
    symbols
}

#[cfg(test)]
mod tests {
    use super::*;

    #[test]
    fn the_examples_of_the_document() {
        assert_eq!(by_definition(2, &[0x05]), [1, 0]);
        assert_eq!(by_definition(2, &[0x03]), [0, 1]);
    }

    /// The roots of banana's tree are 0, 1, 3 and 5; 2 hangs under 1, and 4 under 3.
    #[test]
    fn the_string_of_bananas_tree() {
        assert_eq!(by_definition(6, &[0xcd, 0x04]), [5, 3, 4, 1, 2, 0]);
    }

    /// 3 and 1 hang under 0, and 2 under 1.
    #[test]
    fn children_are_numbered_from_last_to_first() {
        assert_eq!(by_definition(4, &[0b0010_0111]), [0, 2, 3, 1]);
        assert_eq!(by_definition(0, &[]), []);
    }
}
