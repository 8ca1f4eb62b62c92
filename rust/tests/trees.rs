//! Trees of all kinds, balanced and damaged: the verdict, the reading and the questions.

mod common;

use std::collections::HashSet;

use common::{
    assert_questions, assert_read, assert_read_refused, assert_tree_of_build, Question, FAST,
    LIBRARY,
};
use reference::samples::{kinds, one_root_over_leaves, random_tree, Random};
use reference::{brackets, fast, fast_brackets, refusals};

/// The three questions answered bit by bit.
const BITWISE: [Question; 3] = [brackets::place, brackets::previous, brackets::next];

/// Asserts that the tree is refused, or read as the expected tables.
fn check_reading(n: usize, tree: &[u8], tables: impl Fn() -> [Vec<u32>; 2]) {
    match refusals::first(&refusals::of_reading(n, tree, [n, n])) {
        Err(number) => assert_read_refused(n, tree, [n, n], number),
        Ok(()) => {
            let [previous, next] = tables();
            assert_read(n, tree, &previous, &next);
        }
    }
}

/// Compares every answer with the one found bit by bit.
fn check_bitwise(n: usize, tree: &[u8]) {
    check_reading(n, tree, || {
        [brackets::previous, brackets::next]
            .map(|entry| (0..n).map(|i| entry(n, tree, i).unwrap() as u32).collect())
    });
    for position in 0..=n + 1 {
        assert_questions(n, tree, position, BITWISE);
    }
}

/// Compares the reading and the answers at some positions with the fast reference.
fn check_large(random: &mut Random, n: usize, tree: &[u8]) {
    check_reading(n, tree, || {
        let (mut previous, mut next) = (vec![0; n], vec![0; n]);
        fast_brackets::read(n, tree, &mut previous, &mut next).expect("a balanced tree");
        [previous, next]
    });
    for position in [
        0,
        1,
        n / 2,
        n - 1,
        n,
        random.below(n),
        random.below(n),
        random.below(n),
    ] {
        assert_questions(n, tree, position, FAST);
    }
}

fn flip_random_bits(random: &mut Random, tree: &mut [u8], flips: usize) {
    for _ in 0..flips {
        tree[random.below(tree.len())] ^= 1 << random.below(8);
    }
}

/// Every value of the bytes of a tree of `n` positions, `n` at most 8.
fn every_value(n: usize) -> impl Iterator<Item = Vec<u8>> {
    let length = n.div_ceil(4);
    (0..1_usize << (8 * length)).map(move |value| value.to_le_bytes()[..length].to_vec())
}

#[test]
fn every_value_of_the_bytes_of_small_trees() {
    for n in 0..=8 {
        for tree in every_value(n) {
            check_bitwise(n, &tree);
        }
    }
}

#[test]
fn each_small_balanced_tree_has_a_pair_of_tables_of_its_own() {
    let catalan_numbers = [1, 1, 2, 5, 14, 42, 132, 429, 1430];
    for (n, count) in catalan_numbers.into_iter().enumerate() {
        let mut pairs = HashSet::new();
        let mut read = 0;
        for tree in every_value(n) {
            let (mut previous, mut next) = (vec![0; n], vec![0; n]);
            if lyndon::read(n, &tree, &mut previous, &mut next).is_ok() {
                read += 1;
                pairs.insert((previous, next));
            }
        }
        assert_eq!(
            (read, pairs.len()),
            (count, count),
            "trees of {n} positions"
        );
    }
}

#[test]
fn trees_damaged_at_random_bits() {
    let mut random = Random::new(21);
    for n in 1..=40 {
        for openings in [0, 2, 5, 8, 10] {
            let tree = random_tree(&mut random, n, openings);
            check_bitwise(n, &tree);
            for flips in [1, 1, 2, 2, 2, 3, 4] {
                let mut damaged = tree.clone();
                flip_random_bits(&mut random, &mut damaged, flips);
                check_bitwise(n, &damaged);
            }
        }
    }
}

#[test]
fn large_trees_and_large_damaged_trees() {
    let mut random = Random::new(22);
    let small = 1..=300;
    for n in small.chain([1_000, 4_095, 4_096, 4_097, 99_999, 999_998, 1_000_000]) {
        // From a root for each position (0) to all of them on one path (10).
        for openings in [0, 2, 5, 8, 10] {
            let mut tree = random_tree(&mut random, n, openings);
            check_large(&mut random, n, &tree);
            let flips = 1 + random.below(2);
            flip_random_bits(&mut random, &mut tree, flips);
            check_large(&mut random, n, &tree);
        }
    }
}

#[test]
fn halted_trees_are_refused_whole_and_answered_by_their_first_bytes() {
    let mut random = Random::new(24);
    let n = 203;
    for (_, letters) in kinds(&mut random, n) {
        for rows in 0..n {
            let halted =
                lyndon::Structure::halted(&letters, rows).expect("fewer rows than letters");
            assert_tree_of_build(n, &fast::structure(&letters, rows));
            let position = random.below(n);
            assert_eq!(
                LIBRARY.map(|question| question(n, &halted.tree, position)),
                [Err(7); 3]
            );
            let first_bytes = &halted.tree[..lyndon::tree_length(rows)];
            assert_questions(rows, first_bytes, position, FAST);
        }
    }
}

#[test]
fn a_long_search_for_a_closing_or_a_parent() {
    let mut random = Random::new(23);
    for n in [2, 3, 4, 5, 8, 9, 1_000, 1_001, 1_000_000] {
        let tree = one_root_over_leaves(n);
        assert_eq!(lyndon::next(n, &tree, 0), Ok(n));
        assert_eq!(lyndon::previous(n, &tree, n - 1), Ok(0));
        assert_eq!(lyndon::previous(n, &tree, 0), Ok(n));
        assert_eq!(lyndon::place(n, &tree, n - 1), Ok(2 * n - 3));
        check_large(&mut random, n, &tree);
    }
}
