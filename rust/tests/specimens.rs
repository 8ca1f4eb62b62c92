//! The specimens of document 01 and further ones, by their literal figures and by the definitions.

mod common;

use common::{assert_build, assert_read_refused, assert_tree_of_build, assert_word, Lent, FILLS};
use lyndon::{Refusal, Structure};
use reference::definitions;

/// The structure after `rows` rows, compared with the definitions.
fn halted(letters: &[u8], rows: usize) -> Structure {
    let expected = definitions::build(letters, rows);
    assert_build(letters, rows, &expected);
    assert_tree_of_build(letters.len(), &expected);
    Structure::halted(letters, rows).expect("a specimen that is not refused")
}

fn whole(letters: &[u8]) -> Structure {
    let structure = halted(letters, letters.len());
    assert!(structure.built.finished);
    assert_eq!(structure.built.rows, letters.len());
    structure
}

/// Equal comparisons, unequal ones, and reach.
fn cost(structure: &Structure) -> (usize, usize, usize) {
    let built = &structure.built;
    (built.equal, built.unequal, built.reach)
}

#[test]
fn m1_the_empty_string() {
    let empty = whole(b"");
    assert_eq!(cost(&empty), (0, 0, 0));
    assert_eq!(empty.tree, []);
}

#[test]
fn m2_a() {
    let a = whole(b"a");
    assert_eq!(
        (a.previous.as_slice(), a.next.as_slice()),
        ([1].as_slice(), [1].as_slice())
    );
    assert_eq!(cost(&a), (0, 0, 1));
    assert_eq!(a.tree, [0x01]);
}

#[test]
fn m3_ab() {
    let ab = whole(b"ab");
    assert_eq!(ab.previous, [2, 0]);
    assert_eq!(ab.next, [2, 2]);
    assert_eq!(cost(&ab), (0, 1, 1));
    assert_eq!(ab.tree, [0x03]);
}

#[test]
fn m4_ba() {
    let ba = whole(b"ba");
    assert_eq!(ba.previous, [2, 2]);
    assert_eq!(ba.next, [1, 2]);
    assert_eq!(cost(&ba), (0, 1, 1));
    assert_eq!(ba.tree, [0x05]);
}

#[test]
fn m5_aab() {
    let aab = whole(b"aab");
    assert_eq!(aab.previous, [3, 0, 1]);
    assert_eq!(aab.next, [3, 3, 3]);
    assert_eq!(aab.previous_match, [0, 1, 0]);
    assert_eq!(cost(&aab), (1, 2, 2));
    assert_eq!(aab.tree, [0x07]);
}

#[test]
fn m6_aaaa() {
    let aaaa = whole(b"aaaa");
    assert_eq!(aaaa.next, [1, 2, 3, 4]);
    assert_eq!(aaaa.next_match, [3, 2, 1, 0]);
    assert_eq!(cost(&aaaa), (3, 0, 4));
    assert_eq!(aaaa.tree, [0x55]);
}

#[test]
fn m7_banana() {
    let banana = whole(b"banana");
    assert_eq!(banana.previous, [6, 6, 1, 6, 3, 6]);
    assert_eq!(banana.next, [1, 3, 3, 5, 5, 6]);
    assert_eq!(banana.next_match, [0, 3, 0, 1, 0, 0]);
    assert_eq!(cost(&banana), (3, 3, 6));
    assert_eq!(banana.tree, [0xcd, 0x04]);
}

#[test]
fn m8_banana_after_4_rows() {
    let banana = halted(b"banana", 4);
    assert!(!banana.built.finished);
    assert_eq!(banana.built.rows, 4);
    assert_eq!(banana.previous, [6, 6, 1, 6, 6, 6]);
    assert_eq!(banana.next, [1, 3, 3, 6, 6, 6]);
    assert_eq!(banana.next_match, [0, 3, 0, 0, 0, 0]);
    assert_eq!(cost(&banana), (3, 3, 6));
    assert_eq!(banana.tree, [0x4d, 0x00]);
}

#[test]
fn m9_m10_m11_refused_trees() {
    for (tree, number) in [([0x02], 7), ([0x0f], 8), ([0x15], 6)] {
        assert_read_refused(2, &tree, [2, 2], number);
        let refused = [lyndon::place, lyndon::previous, lyndon::next]
            .map(|question| question(2, &tree, 0).map_err(Refusal::number));
        assert_eq!(refused, [Err(number); 3]);
    }
}

#[test]
fn m12_words_of_banana() {
    let banana = b"banana";
    assert_word(banana, 1, &banana[1..3]);
    assert_eq!(lyndon::longest_word(banana, 1), Ok(b"an".as_slice()));
    assert_eq!(
        lyndon::longest_word(banana, 6),
        Err(Refusal::PositionOutside)
    );
}

#[test]
fn lyndon_lengths_of_document_003() {
    let letters = b"aabaabbabbab";
    let lengths = [12, 2, 1, 9, 3, 1, 1, 3, 1, 1, 2, 1];
    let next = whole(letters).next;
    for (i, length) in lengths.into_iter().enumerate() {
        assert_eq!(next[i] as usize - i, length, "at {i}");
        assert_eq!(
            definitions::longest_word(letters, i).len(),
            length,
            "at {i}"
        );
        assert_word(letters, i, &letters[i..i + length]);
    }
}

#[test]
fn refused_specimens() {
    let mut lent = Lent::new([6; 4], 2, FILLS[0]);
    assert_eq!(lent.build(b"banana", 7), Err(Refusal::TooManyRows));
    lent.assert_untouched();
    assert_read_refused(5, &[0x55], [5, 5], 3);
    assert_eq!(lyndon::place(5, &[0x55], 0), Err(Refusal::TreeLength));
}

/// The end of the string is smaller than a letter: `aaaa` is four words and not one.
#[test]
fn the_end_of_the_string_is_smaller_than_a_letter() {
    for position in 0..4 {
        assert_eq!(lyndon::longest_word(b"aaaa", position), Ok(b"a".as_slice()));
    }
}

/// Strings that take more than reach - 2 equal comparisons, and more than rows - 1 unequal ones.
#[test]
fn bounds_that_are_too_low() {
    assert_eq!(cost(&whole(b"aa")), (1, 0, 2));
    assert_eq!(cost(&whole(b"acb")), (0, 3, 2));
}

/// Strings that show slips which M2 to M8 do not: a recorded match copied where it meets the reach, and
/// wrong turns in step 4.
#[test]
fn further_strings() {
    assert_eq!(cost(&whole(b"aabaaab")), (4, 8, 6));
    assert_eq!(whole(b"aabaabab").built.reach, 8);
    let aabaa = whole(b"aabaa");
    assert_eq!(aabaa.previous, [5, 0, 1, 5, 5]);
    assert_eq!(aabaa.next, [3, 3, 3, 4, 5]);
    assert_eq!(aabaa.next_match, [2, 1, 0, 1, 0]);
    let aba = whole(b"aba");
    assert_eq!(
        (aba.previous.as_slice(), aba.next.as_slice()),
        (&[3, 0, 3][..], &[2, 2, 3][..])
    );
    let abb = whole(b"abb");
    assert_eq!(
        (abb.previous.as_slice(), abb.next.as_slice()),
        (&[3, 0, 0][..], &[3, 2, 3][..])
    );
    let aaaba = whole(b"aaaba");
    assert_eq!(aaaba.previous, [5, 0, 1, 2, 5]);
    assert_eq!(aaaba.next, [4, 4, 4, 4, 5]);
    assert_eq!(aaaba.next_match, [1, 1, 1, 0, 0]);
    for letters in [
        &b"aabaa"[..],
        b"aabaaab",
        b"aabaabab",
        b"abb",
        b"aaaba",
        b"aba",
    ] {
        for rows in 0..letters.len() {
            assert!(!halted(letters, rows).built.finished);
        }
    }
}
