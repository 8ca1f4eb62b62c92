//! All trees of a size from 1 to 12 one after the other: each once and in order, what each step writes, refused
//! sizes and damaged trees. Every pair of refusals at once is tested in refusals.rs.

mod common;

use std::collections::HashMap;

use common::{
    assert_first_tree, assert_first_tree_refused, assert_list, assert_next_tree,
    assert_next_tree_refused, Guarded, FILLS,
};
use lyndon::{all_trees, next_tree, tree_length, tree_string, Step, Structure};
use reference::samples::{balanced_trees, random_string, random_tree, strings_over, Random};
use reference::small_trees::in_order;
use reference::{fast_small_trees, refusals};

/// The numbers of trees of the sizes 1 to 12.
const CATALAN_NUMBERS: [usize; 12] = [1, 2, 5, 14, 42, 132, 429, 1430, 4862, 16796, 58786, 208_012];

/// Sizes that are refused, among them those whose low bits, double or quarter would pass for a small one.
const OUTSIDE: [usize; 13] = [
    0,
    13,
    14,
    16,
    (1 << 8) + 3,
    (1 << 16) + 3,
    1_000_000,
    1_000_001,
    (1 << 32) + 3,
    (1 << 62) + 3,
    (1 << 63) + 3,
    usize::MAX - 1,
    usize::MAX,
];

/// For each tree of a size the one after it, none for the last.
fn followers(size: usize) -> HashMap<Vec<u8>, Option<Vec<u8>>> {
    let trees = in_order(size);
    let after = trees[1..].iter().cloned().map(Some).chain([None]);
    trees.iter().cloned().zip(after).collect()
}

#[test]
fn the_example_of_the_document() {
    let trees = [[0x07], [0x0b], [0x13], [0x0d], [0x15]];
    assert_first_tree(3, &trees[0]);
    for pair in trees.windows(2) {
        assert_next_tree(3, &pair[0], Some(&pair[1]));
    }
    assert_next_tree(3, &trees[4], None);
    assert_eq!(
        all_trees(3).map(Vec::from_iter),
        Ok(trees.map(Vec::from).to_vec())
    );
}

#[test]
fn the_one_tree_of_size_1_is_the_first_and_the_last() {
    assert_first_tree(1, &[0x01]);
    assert_next_tree(1, &[0x01], None);
    assert_eq!(all_trees(1).map(Vec::from_iter), Ok(vec![vec![0x01]]));
}

/// In one buffer, which holds the last tree in the end, whatever it held before.
#[test]
fn from_the_first_tree_each_is_reached_once_and_in_order() {
    for (size, number) in (1..).zip(CATALAN_NUMBERS) {
        let trees = in_order(size);
        assert_eq!(trees.len(), number, "trees of size {size}");
        assert_first_tree(size, &trees[0]);
        let mut lent = Guarded::new(tree_length(size), FILLS[size % 2]);
        assert_eq!(lyndon::first_tree_into(size, lent.lent()), Ok(()));
        assert_list("the first tree", lent.contents(), &trees[0]);
        for tree in &trees[1..] {
            assert_eq!(next_tree(size, lent.lent()), Ok(Step::Next));
            assert_list("the tree after it", lent.contents(), tree);
        }
        for _ in 0..2 {
            assert_eq!(next_tree(size, lent.lent()), Ok(Step::Last));
            assert_list("the last tree", lent.contents(), &trees[number - 1]);
        }
    }
}

#[test]
fn the_iterator_gives_each_tree_once_and_in_order() {
    for size in 1..=12 {
        let mut trees = all_trees(size).expect("a size that is taken");
        assert!(trees.by_ref().eq(in_order(size)), "trees of size {size}");
        assert_eq!([trees.next(), trees.next()], [None, None]);
    }
}

/// Goes on from these bytes as the reference does.
fn check_next(size: usize, tree: &[u8], followers: &HashMap<Vec<u8>, Option<Vec<u8>>>) {
    match refusals::first(&refusals::of_next_tree(size, tree)) {
        Err(number) => assert_next_tree_refused(size, tree, number),
        Ok(()) => assert_next_tree(size, tree, followers[tree].as_deref()),
    }
}

/// Among them are all balanced trees of these sizes.
#[test]
fn every_value_of_the_bytes_of_sizes_1_to_8() {
    let bytes: Vec<u8> = (0..=255).collect();
    for size in 1..=8 {
        let followers = followers(size);
        for tree in strings_over(&bytes, tree_length(size)) {
            check_next(size, &tree, &followers);
        }
    }
}

#[test]
fn random_bytes_of_sizes_9_to_12() {
    let mut random = Random::new(121);
    for size in 9..=12 {
        let followers = followers(size);
        for _ in 0..20_000 {
            let mut tree = random_string(&mut random, 3, 256);
            check_next(size, &tree, &followers);
            let openings = random.below(11);
            tree = random_tree(&mut random, size, openings);
            check_next(size, &tree, &followers);
            for _ in 0..1 + random.below(2) {
                tree[random.below(3)] ^= 1 << random.below(8);
            }
            check_next(size, &tree, &followers);
        }
    }
}

/// One changed bit is refused, whichever it is.
#[test]
fn every_change_of_a_single_bit_of_sizes_9_and_10() {
    for size in [9, 10] {
        for tree in in_order(size) {
            for k in 0..24 {
                let mut damaged = tree.clone();
                damaged[k / 8] ^= 1 << (k % 8);
                let verdict = refusals::first(&refusals::of_next_tree(size, &damaged));
                let number = verdict.expect_err("a tree with one bit changed");
                assert_next_tree_refused(size, &damaged, number);
            }
        }
    }
}

/// A buffer that fits is tried where it is not a huge one.
#[test]
fn sizes_outside_1_to_12_are_refused_in_buffers_that_fit_and_others() {
    let mut random = Random::new(122);
    for size in OUTSIDE {
        if tree_length(size) <= 250_001 {
            assert_first_tree_refused(size, tree_length(size), 14);
            assert_next_tree_refused(size, &random_tree(&mut random, size, 5), 14);
        }
        for length in [0, 1, 2, 3, 4, 5, 8, 250_000, 250_001] {
            assert_first_tree_refused(size, length, 14);
            for byte in [0x00, 0x55, 0x0f, 0xff] {
                assert_next_tree_refused(size, &vec![byte; length], 14);
            }
        }
    }
    for tree in balanced_trees(3) {
        assert_next_tree_refused((1 << 32) + 3, &tree, 14);
        assert_next_tree_refused((1 << 63) + 3, &tree, 14);
    }
}

#[test]
fn buffers_of_another_length_are_refused() {
    for size in 1..=12 {
        let mut first = vec![0; tree_length(size)];
        fast_small_trees::first(size, &mut first).expect("a size that is taken");
        for length in (0..=8).filter(|&length| length != tree_length(size)) {
            assert_first_tree_refused(size, length, 3);
            let mut tree = first.clone();
            tree.resize(length, 0);
            assert_next_tree_refused(size, &tree, 3);
            for byte in [0x00, 0x55, 0xff] {
                assert_next_tree_refused(size, &vec![byte; length], 3);
            }
        }
    }
}

/// 14 is tested first, and then 3, 6, 7, 8.
#[test]
fn the_first_refusal_is_returned() {
    assert_first_tree_refused(0, 1, 14);
    assert_first_tree_refused(13, 3, 14);
    // A size outside, beside another length, a spare bit set, brackets closed too early, and ones left open.
    assert_next_tree_refused(0, &[0xff], 14);
    assert_next_tree_refused(13, &[0x55, 0x55, 0x55], 14);
    assert_next_tree_refused(13, &[0x55, 0x55, 0x55, 0x05], 14);
    assert_next_tree_refused(14, &[0x00, 0x00, 0x00, 0x00], 14);
    assert_next_tree_refused(14, &[0xff, 0xff, 0xff, 0x0f], 14);
    // Another length, beside a spare bit set, brackets closed too early, and ones left open.
    assert_next_tree_refused(5, &[0x55, 0x01, 0x01], 3);
    assert_next_tree_refused(5, &[0x00], 3);
    assert_next_tree_refused(5, &[0xff], 3);
    // A spare bit set, beside brackets that are closed too early, and beside ones that are left open.
    assert_next_tree_refused(5, &[0x00, 0x04], 6);
    assert_next_tree_refused(5, &[0xff, 0x07], 6);
    // Closed too early, with as many openings as closings in all.
    assert_next_tree_refused(5, &[0xe0, 0x03], 7);
    assert_next_tree_refused(5, &[0xff, 0x03], 8);
    assert_next_tree(5, &[0x1f, 0x00], Some(&[0x2f, 0x00]));
}

#[test]
fn the_string_of_each_tree_of_sizes_1_to_8_builds_it() {
    for size in 1..=8 {
        for tree in all_trees(size).expect("a size that is taken") {
            let string = tree_string(size, &tree).expect("a balanced tree");
            let built = Structure::of_symbols(&string).expect("a short string");
            assert_eq!(built.tree, tree);
        }
    }
}
