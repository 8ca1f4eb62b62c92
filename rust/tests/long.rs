//! Long strings of different kinds, whole and halted, against the fast reference, and less long ones against the definitions.

mod common;

use common::{assert_build, check_builds};
use reference::definitions;
use reference::samples::{self, Random};

fn check_kinds(seed: u64, lengths: &[usize], halts: usize) {
    let mut random = Random::new(seed);
    for &n in lengths {
        let kinds = samples::kinds(&mut random, n).into_iter();
        for (_, letters) in kinds.chain(samples::bases(&mut random, n)) {
            check_builds(&mut random, &letters, halts);
        }
    }
}

#[test]
fn strings_of_about_10_000_letters() {
    check_kinds(11, &[10_000, 10_001, 10_002, 10_003, 12_345], 10);
}

#[test]
fn strings_of_about_100_000_letters() {
    check_kinds(12, &[99_991, 100_000], 3);
}

#[test]
fn strings_of_about_1_000_000_letters() {
    check_kinds(13, &[999_999, 1_000_000], 1);
}

#[test]
fn random_strings_of_random_lengths_and_alphabets() {
    let mut random = Random::new(14);
    for _ in 0..500 {
        let n = 1 + random.below(2_000);
        let size = 1 + random.below(256);
        let letters = samples::random_string(&mut random, n, size);
        check_builds(&mut random, &letters, 3);
    }
}

#[test]
fn random_words_repeated() {
    let mut random = Random::new(15);
    for _ in 0..500 {
        let n = 1 + random.below(2_000);
        let (length, size) = (1 + random.below(20), 1 + random.below(3));
        let word = samples::random_string(&mut random, length, size);
        check_builds(&mut random, &samples::repeated(&word, n), 3);
    }
}

#[test]
fn random_words_repeated_in_mixed_case() {
    let mut random = Random::new(18);
    for _ in 0..500 {
        let letters = samples::word_repeated_in_random_case(&mut random);
        check_builds(&mut random, &letters, 3);
    }
}

/// The string whole and with a random number of rows, by the definitions.
fn check_by_definitions(random: &mut Random, letters: &[u8]) {
    let n = letters.len();
    for rows in [n, random.below(n)] {
        assert_build(letters, rows, &definitions::build(letters, rows));
    }
}

#[test]
fn strings_of_each_kind_by_the_definitions() {
    let mut random = Random::new(16);
    let kinds = samples::kinds(&mut random, 1_000).into_iter();
    for (_, letters) in kinds.chain(samples::bases(&mut random, 1_000)) {
        check_by_definitions(&mut random, &letters);
        let masked = samples::in_random_case(&mut random, &letters);
        check_by_definitions(&mut random, &masked);
    }
}

#[test]
fn random_strings_of_5_000_letters_by_the_definitions() {
    let mut random = Random::new(17);
    for size in [2, 4, 256] {
        let letters = samples::random_string(&mut random, 5_000, size);
        check_by_definitions(&mut random, &letters);
    }
}
