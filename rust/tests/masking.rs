//! Masked letters: bytes 97 to 122 compare as 65 to 90. Every short string of small letters, capitals and a
//! byte between them, and every pair of bytes, against the definitions; strings that differ in masking alone
//! against each other; and strings that both orders of letters take alike.

mod common;

use common::{assert_word, check_by_definitions};
use lyndon::{raw, Checked, Structure};
use reference::ranks::Letter;
use reference::samples::{self, Random};

/// Byte 95 is above the capitals and below the small letters, so the two orders differ by it too.
#[test]
fn every_string_of_small_letters_capitals_and_byte_95() {
    for n in 0..=7 {
        for letters in samples::strings_over(b"AaBb_", n) {
            check_by_definitions(&letters);
        }
    }
}

#[test]
fn every_pair_of_bytes() {
    for left in 0..=255_u8 {
        for right in 0..=255 {
            check_by_definitions(&[left, right]);
        }
    }
}

/// The pair of each byte with each says how the two compare: equal, less or greater.
#[test]
fn letters_compare_by_their_ranks() {
    for left in 0..=255_u8 {
        for right in 0..=255_u8 {
            let pair = Structure::of(&[left, right]).expect("two letters");
            let (left_rank, right_rank) = (left.rank(), right.rank());
            let equal = left_rank == right_rank;
            assert_eq!(
                (pair.built.equal, pair.built.unequal),
                (usize::from(equal), usize::from(!equal)),
                "{left} and {right}"
            );
            let tree = if left_rank < right_rank { 0x03 } else { 0x05 };
            assert_eq!(pair.tree, [tree], "{left} and {right}");
            let found = lyndon::runs(&[left, right]).expect("two letters");
            assert_eq!(found.len(), usize::from(equal), "{left} and {right}");
        }
    }
}

/// Asserts that all answers for the two strings are the same, the longest words as parts of each.
fn assert_same_answers(random: &mut Random, letters: &[u8], masked: &[u8]) {
    let n = letters.len();
    assert_eq!(masked.len(), n);
    let whole = Structure::of(letters).expect("at most 1,000,000 letters");
    assert!(whole == Structure::of(masked).expect("at most 1,000,000 letters"));
    let rows = random.below(n + 1);
    let halted = [letters, masked].map(|letters| Structure::halted(letters, rows));
    assert!(halted[0] == halted[1], "{rows} rows");
    assert!(lyndon::runs(letters) == lyndon::runs(masked));
    assert_eq!(lyndon::check(masked, &whole.next), Ok(Checked::Right));
    for _ in 0..10 {
        let position = random.below(n);
        let end = whole.next[position] as usize;
        for letters in [letters, masked] {
            assert_word(letters, position, &letters[position..end]);
        }
    }
}

/// The string in capitals, in small letters, and twice in mixed case have the same answers.
fn check_masking(random: &mut Random, letters: &[u8]) {
    let capitals = letters.to_ascii_uppercase();
    let masked = [
        letters.to_vec(),
        letters.to_ascii_lowercase(),
        samples::in_random_case(random, letters),
        samples::in_blocks(random, letters),
    ];
    for masked in masked {
        assert_same_answers(random, &capitals, &masked);
    }
}

#[test]
fn masking_changes_no_answer_for_random_strings() {
    let mut random = Random::new(71);
    for _ in 0..500 {
        let n = 1 + random.below(2_000);
        // From 65 on, so that few letters are many small ones and capitals.
        let size = 1 + random.below(191);
        let letters: Vec<u8> = (0..n).map(|_| 65 + random.below(size) as u8).collect();
        check_masking(&mut random, &letters);
    }
}

#[test]
fn masking_changes_no_answer_for_strings_of_each_kind() {
    let mut random = Random::new(72);
    for n in [10_000, 100_000, 1_000_000] {
        for (_, letters) in samples::bases(&mut random, n) {
            check_masking(&mut random, &letters);
        }
        for letters in [
            samples::repeated(b"a", n),
            samples::repeated(b"gattaca", n),
            samples::fibonacci(n),
            samples::thue_morse(n),
            samples::squares(n),
            samples::random_string(&mut random, n, 256),
        ] {
            check_masking(&mut random, &letters);
        }
    }
}

/// The longest word is a part of the string as it stands: the masked letters in it stay masked.
#[test]
fn a_longest_word_is_the_callers_own_bytes() {
    let letters = *b"baNana";
    assert_eq!(lyndon::longest_word(&letters, 0), Ok(&b"b"[..]));
    assert_eq!(lyndon::longest_word(&letters, 1), Ok(&b"aN"[..]));
    assert_eq!(lyndon::longest_word(&letters, 2), Ok(&b"N"[..]));
    assert_eq!(lyndon::longest_word(&letters, 3), Ok(&b"an"[..]));
    assert_eq!(lyndon::longest_word(b"aABbaAaB", 0), Ok(&b"aABb"[..]));
    assert_eq!(lyndon::longest_word(b"aABbaAaB", 4), Ok(&b"aAaB"[..]));
    for position in 0..6 {
        let word = lyndon::longest_word(&letters, position).expect("a position inside");
        assert_eq!(word.as_ptr(), letters[position..].as_ptr());
        // SAFETY: the pointer comes from a slice with its length.
        let reply = unsafe { raw::lyndon_word(letters.as_ptr(), 6, position) };
        let expected = raw::PartReply {
            refusal: 0,
            start: position,
            length: word.len(),
        };
        assert_eq!(reply, expected);
    }
    assert_eq!(letters, *b"baNana", "the letters are only read");
}

/// For each position the nearest smaller suffix before it, where letters compare by their values: the order
/// of slices, which was the order of letters before they were masked.
fn plain_parents(letters: &[u8]) -> Vec<usize> {
    let smaller = |i: usize| (0..i).rev().find(|&j| letters[j..] < letters[i..]);
    let n = letters.len();
    (0..n).map(|i| smaller(i).unwrap_or(n)).collect()
}

/// Whether the library gives the string the tree that it has where letters compare by their values. The
/// previous entries decide the tree.
fn has_plain_tree(letters: &[u8]) -> bool {
    let previous = Structure::of(letters).expect("a short string").previous;
    let parents = plain_parents(letters);
    previous.iter().map(|&entry| entry as usize).eq(parents)
}

/// What docs/FORMAT.md says: the two orders differ only on strings with a small letter and a byte from 65
/// to 96 as well.
#[test]
fn only_small_letters_with_bytes_65_to_96_change_a_tree() {
    let mut both = [0; 2];
    for n in 0..=5 {
        for letters in samples::strings_over(b"@AZ[`az{", n) {
            let small = letters.iter().any(|letter| (97..=122).contains(letter));
            let between = letters.iter().any(|letter| (65..=96).contains(letter));
            let plain = has_plain_tree(&letters);
            if small && between {
                both[usize::from(plain)] += 1;
            } else {
                assert!(plain, "{letters:?}");
            }
        }
    }
    assert!(both[0] > 0 && both[1] > 0, "some change and some do not");

    let mut random = Random::new(73);
    for without in [97..=122, 65..=96] {
        let bytes: Vec<u8> = (0..=255).filter(|byte| !without.contains(byte)).collect();
        for _ in 0..200 {
            let (n, size) = (random.below(300), 1 + random.below(bytes.len()));
            let letters: Vec<u8> = (0..n).map(|_| bytes[random.below(size)]).collect();
            assert!(has_plain_tree(&letters), "{letters:?}");
        }
    }
}

/// The examples of docs/FORMAT.md: the trees under `LYN2`, and those under `LYN1`.
#[test]
fn trees_of_both_orders() {
    for (letters, masked, plain) in [
        (b"aB", 0x03, 0x05),
        (b"Aa", 0x05, 0x03),
        (b"a_", 0x03, 0x05),
        (b"Ab", 0x03, 0x03),
        (b"ab", 0x03, 0x03),
    ] {
        let tree = Structure::of(letters).expect("two letters").tree;
        assert_eq!(tree, [masked], "{letters:?}");
        let hangs = letters[..] < letters[1..];
        assert_eq!(if hangs { 0x03 } else { 0x05 }, plain, "{letters:?}");
        assert_eq!(has_plain_tree(letters), masked == plain, "{letters:?}");
    }
}
