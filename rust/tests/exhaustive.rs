//! Every short string over two and over three letters, at every number of rows, against the
//! definitions.

mod common;

use common::{assert_build, assert_tree_of_build, assert_word};
use reference::{brackets, definitions, samples};

fn check_every_string(alphabet: &[u8], longest: usize) {
    for n in 0..=longest {
        for letters in samples::strings_over(alphabet, n) {
            for rows in 0..=n {
                let expected = definitions::build(&letters, rows);
                assert_build(&letters, rows, &expected);
                assert_tree_of_build(n, &expected);
            }
            check_positions(&letters);
        }
    }
}

/// The longest word and the three questions at every position.
fn check_positions(letters: &[u8]) {
    let n = letters.len();
    let tree = definitions::tree(letters, n);
    for position in 0..n {
        assert_word(
            letters,
            position,
            definitions::longest_word(letters, position),
        );
        let previous = definitions::previous(letters, position).unwrap_or(n);
        let next = definitions::next(letters, position).unwrap_or(n);
        assert_eq!(
            lyndon::previous(n, &tree, position),
            Ok(previous),
            "previous of {position}"
        );
        assert_eq!(
            lyndon::next(n, &tree, position),
            Ok(next),
            "next of {position}"
        );
        assert_eq!(
            lyndon::place(n, &tree, position),
            Ok(brackets::place(n, &tree, position).unwrap())
        );
    }
}

// The letters 127 and 128 are in the other order when a byte is taken as signed.

#[test]
fn every_string_over_two_letters() {
    check_every_string(&[127, 128], 16);
}

#[test]
fn every_string_over_three_letters() {
    check_every_string(&[0, 127, 255], 11);
}
