//! Strings for trees: of every small tree and of long ones, with what building them gives; damaged trees, and
//! buffers of the wrong length. Every pair of refusals at once is tested in refusals.rs.

mod common;

use common::{
    assert_list, assert_read, assert_tree_string, assert_tree_string_refused, Lent, FILLS,
};
use lyndon::{tree_length, tree_string, Refusal, Structure, MAX_LETTERS};
use reference::samples::{
    balanced_trees, one_root_over_leaves, random_string, random_tree, strings_over, Random,
};
use reference::tree_string::by_definition;
use reference::{fast, refusals};

/// Asserts that the string of a tree is the expected one, that it has each of the numbers 0 to n - 1 once, and
/// that building it gives the tree back, with the tables that reading gives and no match.
fn check_string(n: usize, tree: &[u8], expected: &[u32]) {
    assert_tree_string(n, tree, expected);

    let mut seen = vec![false; n];
    for &symbol in expected {
        assert!(!seen[symbol as usize], "{symbol} a second time");
        seen[symbol as usize] = true;
    }

    let mut lent = Lent::new([n; 4], tree_length(n), FILLS[n % 2]);
    let built = lent.build(expected, n).expect("a build of the string");
    assert_eq!((built.finished, built.rows, built.equal), (true, n, 0));
    assert_list("tree", lent.tree.contents(), tree);
    assert_read(n, tree, lent.previous.contents(), lent.next.contents());
    for (name, table) in [
        ("previous-match", &lent.previous_match),
        ("next-match", &lent.next_match),
    ] {
        assert_list(name, table.contents(), &vec![0; n]);
    }
}

/// The string of a tree that is not too deep for the definition.
fn check_by_definition(n: usize, tree: &[u8]) {
    check_string(n, tree, &by_definition(n, tree));
}

#[test]
fn the_examples_of_the_document() {
    check_string(2, &[0x05], &[1, 0]);
    check_string(2, &[0x03], &[0, 1]);
}

#[test]
fn the_string_of_bananas_tree() {
    let tree = Structure::of(b"banana").expect("six letters").tree;
    assert_eq!(tree, [0xcd, 0x04]);
    check_string(6, &tree, &[5, 3, 4, 1, 2, 0]);
}

#[test]
fn the_empty_tree_has_the_empty_string() {
    check_string(0, &[], &[]);
    assert_eq!(tree_string(0, &[]), Ok(vec![]));
    assert_eq!(tree_string(0, &[0]), Err(Refusal::TreeLength));
    assert_tree_string_refused(0, &[], 1, 2);
    assert_tree_string_refused(0, &[0], 1, 2);
}

#[test]
fn every_small_balanced_tree() {
    for n in 0..=9 {
        for tree in balanced_trees(n) {
            check_by_definition(n, &tree);
        }
    }
}

/// Every value of the bytes, so that each of the refusals 6, 7 and 8 applies to many.
#[test]
fn every_value_of_the_bytes_of_small_trees() {
    let bytes: Vec<u8> = (0..=255).collect();
    for n in 0..=8 {
        for tree in strings_over(&bytes, tree_length(n)) {
            match refusals::first(&refusals::of_tree_string(n, &tree, n)) {
                Err(number) => assert_tree_string_refused(n, &tree, n, number),
                Ok(()) => assert_tree_string(n, &tree, &by_definition(n, &tree)),
            }
        }
    }
}

/// One changed bit is refused, whichever it is.
#[test]
fn every_change_of_a_single_bit_of_a_small_tree() {
    for n in 1..=9 {
        for tree in balanced_trees(n) {
            for k in 0..8 * tree.len() {
                let mut damaged = tree.clone();
                damaged[k / 8] ^= 1 << (k % 8);
                let verdict = refusals::first(&refusals::of_tree_string(n, &damaged, n));
                let number = verdict.expect_err("a tree with one bit changed");
                assert_tree_string_refused(n, &damaged, n, number);
            }
        }
    }
}

#[test]
fn buffers_and_trees_one_entry_too_short_or_too_long() {
    for n in 1..=9 {
        for tree in balanced_trees(n) {
            let shorter = &tree[..tree.len() - 1];
            let longer = [tree.as_slice(), &[0]].concat();
            for symbols in [n - 1, n + 1] {
                for tree in [&tree, shorter, &longer] {
                    assert_tree_string_refused(n, tree, symbols, 2);
                }
            }
            for tree in [shorter, &longer] {
                assert_tree_string_refused(n, tree, n, 3);
            }
        }
    }
}

/// Where several refusals apply, the lowest number is returned.
#[test]
fn the_first_refusal_is_returned() {
    let n = MAX_LETTERS + 1;
    assert_tree_string_refused(n, &[0xff], 5, 1);
    assert_tree_string_refused(n, &vec![0x00; tree_length(n)], n, 1);
    assert_tree_string_refused(5, &[0xff], 4, 2);
    assert_tree_string_refused(5, &[0xff, 0xff], 6, 2);
    assert_tree_string_refused(5, &[0xff], 5, 3);
    assert_tree_string_refused(5, &[0x00, 0xff, 0xff], 5, 3);
    // A spare bit set, beside brackets that are closed too early, and beside ones that are left open.
    assert_tree_string_refused(5, &[0x00, 0x04], 5, 6);
    assert_tree_string_refused(5, &[0xff, 0x07], 5, 6);
    // Closed too early, with as many openings as closings in all.
    assert_tree_string_refused(5, &[0xe0, 0x03], 5, 7);
    assert_tree_string_refused(5, &[0xff, 0x03], 5, 8);
    check_string(5, &[0x1f, 0x00], &[0, 1, 2, 3, 4]);
}

#[test]
fn random_trees_of_every_remainder() {
    let mut random = Random::new(111);
    let mut seen = [0; 4];
    for _ in 0..600 {
        let n = 10 + random.below(1_991);
        let openings = random.below(11);
        check_by_definition(n, &random_tree(&mut random, n, openings));
        seen[n % 4] += 1;
    }
    assert!(seen.into_iter().all(|number| number > 100), "{seen:?}");
    for n in 10..=100 {
        check_by_definition(n, &one_root_over_leaves(n));
        for openings in [0, 10] {
            check_by_definition(n, &random_tree(&mut random, n, openings));
        }
    }
}

#[test]
fn trees_of_random_strings() {
    let mut random = Random::new(112);
    for _ in 0..300 {
        let (n, size) = (10 + random.below(1_991), 1 + random.below(256));
        let letters = random_string(&mut random, n, size);
        check_by_definition(n, &fast::structure(&letters, n).tree);
    }
}

#[test]
fn damaged_trees_of_random_lengths() {
    let mut random = Random::new(113);
    for _ in 0..1_000 {
        let (n, openings) = (10 + random.below(1_991), random.below(11));
        let mut tree = random_tree(&mut random, n, openings);
        for _ in 0..1 + random.below(2) {
            tree[random.below(tree_length(n))] ^= 1 << random.below(8);
        }
        match refusals::first(&refusals::of_tree_string(n, &tree, n)) {
            Err(number) => assert_tree_string_refused(n, &tree, n, number),
            Ok(()) => check_by_definition(n, &tree),
        }
    }
}

/// Trees of 1,000,000 positions and a few fewer, one for each remainder.
#[test]
fn the_longest_trees() {
    let mut random = Random::new(114);
    for n in MAX_LETTERS - 3..=MAX_LETTERS {
        let letters = random_string(&mut random, n, 4);
        check_by_definition(n, &fast::structure(&letters, n).tree);
        check_by_definition(n, &random_tree(&mut random, n, 5));

        // One path, all roots, and one root over leaves.
        let ascending: Vec<u32> = (0..n as u32).collect();
        let descending: Vec<u32> = (0..n as u32).rev().collect();
        check_string(n, &random_tree(&mut random, n, 10), &ascending);
        check_string(n, &random_tree(&mut random, n, 0), &descending);
        let over_leaves = [&[0], &descending[..n - 1]].concat();
        check_string(n, &one_root_over_leaves(n), &over_leaves);
    }
}
