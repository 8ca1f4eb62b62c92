//! The check of a claimed next table: every short string with one entry wrong at every position, tables
//! wrong in several places, wrong lengths, and long strings.

mod common;

use common::{
    assert_check, assert_list, check_every_entry, check_some_entries, tried, Fill, Guarded,
    LentForCheck, Letter, FILLS,
};
use lyndon::{check, raw, Checked, Refusal, Structure, MAX_LETTERS};
use reference::definitions::{least_wrong, tables};
use reference::samples::{self, Random};
use reference::{fast, refusals, Tables};

fn check_every_string(alphabet: &[u8], longest: usize) {
    for n in 0..=longest {
        for letters in samples::strings_over(alphabet, n) {
            check_every_entry(&letters, &tables(&letters, n));
        }
    }
}

// The letters 127 and 128 are in the other order when a byte is taken as signed.

#[test]
fn every_string_over_two_letters_with_one_entry_wrong() {
    check_every_string(&[127, 128], 8);
}

#[test]
fn every_string_over_three_letters_with_one_entry_wrong() {
    check_every_string(&[0, 127, 255], 6);
}

/// Byte 95 is above the capitals and below the small letters.
#[test]
fn every_string_of_small_letters_capitals_and_byte_95_with_one_entry_wrong() {
    check_every_string(b"AaBb_", 5);
}

/// Every table of n entries of 0 to n + 1: all right and all wrong ones, wherever they are.
#[test]
fn every_table_of_small_entries() {
    for n in 0..=4 {
        let entries: Vec<u8> = (0..=n as u8 + 1).collect();
        for letters in samples::strings_over(b"ab", n) {
            let tables = tables(&letters, n);
            for claimed in samples::strings_over(&entries, n) {
                let claimed: Vec<u32> = claimed.into_iter().map(u32::from).collect();
                let expected = least_wrong(&letters, &claimed);
                assert_check(&letters, &claimed, expected, &tables, FILLS[n % 2]);
            }
        }
    }
}

/// The next table of another string, random entries from some position on, and tables that are none of
/// next.
#[test]
fn tables_wrong_in_many_places() {
    let mut random = Random::new(91);
    for _ in 0..300 {
        let (n, size) = (1 + random.below(60), 1 + random.below(4));
        let letters = samples::random_string(&mut random, n, size);
        let tables = tables(&letters, n);
        let mut other = letters.clone();
        other[random.below(n)] = random.below(size) as u8;
        let of_another = fast::structure(&other, n).tables.next;
        let mut partly_random = tables.next.clone();
        for entry in &mut partly_random[random.below(n)..] {
            *entry = random.below(n + 2) as u32;
        }
        for (k, claimed) in [
            &of_another,
            &partly_random,
            &tables.previous,
            &tables.next_match,
        ]
        .into_iter()
        .enumerate()
        {
            let expected = least_wrong(&letters, claimed);
            assert_check(&letters, claimed, expected, &tables, FILLS[k % 2]);
        }
    }
}

/// Plain Rust's check, which the benchmark compares with, against the definitions.
#[test]
fn plain_rust_finds_the_same() {
    for n in 0..=6 {
        for letters in samples::strings_over(b"ab", n) {
            let tables = tables(&letters, n);
            let mut claimed = tables.next.clone();
            for i in 0..n {
                let right = claimed[i];
                for entry in tried(n, right).chain([right]) {
                    claimed[i] = entry;
                    let [mut a, mut b, mut c, mut d] = [(); 4].map(|()| vec![7; n]);
                    let found = fast::check(&letters, &claimed, &mut a, &mut b, &mut c, &mut d);
                    assert_eq!(found, Ok(least_wrong(&letters, &claimed)));
                    let left = Tables {
                        previous: a,
                        next: b,
                        previous_match: c,
                        next_match: d,
                    };
                    assert_eq!(left, tables);
                }
            }
        }
    }
    let [mut a, mut b, mut c, mut d] = [[7; 2]; 4];
    let refused = fast::check(b"ab", &[1], &mut a, &mut b, &mut c, &mut d);
    assert_eq!((refused, [a, b, c, d]), (Err(2), [[7; 2]; 4]));
}

/// Asserts that a check over memory of these lengths is refused, and leaves all of it.
fn assert_refused<L: Letter>(
    letters: &[L],
    claimed: usize,
    work: [usize; 4],
    number: u32,
    fill: Fill,
) {
    let mut claimed = Guarded::new(claimed, fill);
    let mut lent = LentForCheck::new(work, fill);
    let reply = lent.check_raw(letters, claimed.lent());
    let refused = raw::CheckReply {
        refusal: number,
        right: 0,
        position: 0,
    };
    let n = letters.len();
    assert_eq!(
        reply,
        refused,
        "{n} letters, {} claimed entries, work tables of {work:?}",
        claimed.contents().len()
    );
    claimed.assert_untouched();
    lent.0.iter().for_each(Guarded::assert_untouched);
    let answer = lent.check(letters, claimed.lent());
    assert_eq!(answer.map_err(Refusal::number), Err(number));
    lent.0.iter().for_each(Guarded::assert_untouched);
}

/// The five lengths, of the claimed table and of the work tables, in every combination of these.
fn combinations(lengths: &[usize]) -> impl Iterator<Item = [usize; 5]> + '_ {
    let choices = (0..lengths.len() as u8).collect::<Vec<u8>>();
    let chosen = samples::strings_over(&choices, 5).collect::<Vec<_>>();
    chosen
        .into_iter()
        .map(|choice| std::array::from_fn(|k| lengths[choice[k] as usize]))
}

#[test]
fn wrong_lengths_in_every_combination() {
    for letters in [&b""[..], b"a", b"ba", b"banana"] {
        let n = letters.len();
        let mut lengths = vec![n, n + 1, n + 1_000];
        lengths.extend([n / 2, n.saturating_sub(1)].iter().filter(|&&k| k != n));
        for [claimed, work @ ..] in combinations(&lengths) {
            if let Err(number) = refusals::first(&refusals::of_check(n, claimed, work)) {
                assert_eq!(number, 2);
                assert_refused(letters, claimed, work, number, FILLS[claimed % 2]);
                let symbols = samples::widened(letters);
                assert_refused(&symbols, claimed, work, number, FILLS[claimed % 2]);
            }
        }
    }
}

/// Asserts that a check of too many letters is refused, whatever the lengths are.
fn check_too_many<L: Letter>(letters: &[L]) {
    for [claimed, work @ ..] in combinations(&[0, 7]) {
        assert_refused(letters, claimed, work, 1, FILLS[claimed % 2]);
    }
    let n = letters.len();
    for fill in FILLS {
        assert_refused(letters, n, [n; 4], 1, fill);
        assert_refused(letters, n - 1, [n; 4], 1, fill);
    }
}

#[test]
fn too_many_letters_in_every_combination_with_wrong_lengths() {
    let n = MAX_LETTERS + 1;
    let letters = vec![b'a'; n];
    check_too_many(&letters);
    check_too_many(&samples::widened(&letters));
    assert_eq!(check(&letters, &vec![0; n]), Err(Refusal::TooLong));
    assert_eq!(check(&letters, &[]), Err(Refusal::TooLong));
}

/// The claimed table is lent between guards, and is the same after the check, right or wrong.
#[test]
fn the_claimed_table_is_left_as_it_is() {
    for letters in [&b""[..], b"a", b"banana"] {
        let n = letters.len();
        let tables = tables(letters, n);
        for fill in FILLS {
            let mut claimed: Guarded<u32> = Guarded::new(n, fill);
            let expected = least_wrong(letters, claimed.contents());
            assert_check(letters, claimed.lent(), expected, &tables, fill);
            claimed.assert_untouched();
            claimed.lent().copy_from_slice(&tables.next);
            assert_check(letters, claimed.lent(), None, &tables, fill);
            assert_list("the claimed table", claimed.contents(), &tables.next);
        }
    }
}

#[test]
fn long_strings_of_each_kind() {
    let mut random = Random::new(92);
    for n in [9_999, 100_000] {
        let mut kinds = samples::kinds(&mut random, n);
        kinds.extend(samples::bases(&mut random, n));
        for (kind, letters) in kinds {
            println!("{n} letters, {kind}");
            check_some_entries(&mut random, &letters);
        }
    }
}

#[test]
fn strings_of_1_000_000_letters() {
    let mut random = Random::new(93);
    for (kind, letters) in samples::kinds(&mut random, MAX_LETTERS) {
        println!("{kind}");
        check_some_entries(&mut random, &letters);
    }
}

#[test]
fn the_wrapper_checks_in_memory_of_its_own() {
    let mut random = Random::new(94);
    for _ in 0..300 {
        let (n, size) = (random.below(200), 1 + random.below(4));
        let letters = samples::random_string(&mut random, n, size);
        let mut claimed = Structure::of(&letters).expect("few letters").next;
        assert_eq!(check(&letters, &claimed), Ok(Checked::Right));
        if n > 0 {
            let i = random.below(n);
            claimed[i] = claimed[i].wrapping_sub(1);
            assert_eq!(check(&letters, &claimed), Ok(Checked::WrongAt(i)));
        }
        claimed.push(n as u32);
        assert_eq!(check(&letters, &claimed), Err(Refusal::TableLength));
    }
}

/// The next table that is read from the tree of a build is right.
#[test]
fn a_table_read_from_a_tree_is_right() {
    let mut random = Random::new(95);
    for _ in 0..300 {
        let (n, size) = (1 + random.below(500), 1 + random.below(26));
        let letters = samples::random_string(&mut random, n, size);
        let tree = Structure::of(&letters).expect("few letters").tree;
        let (mut previous, mut next) = (vec![0; n], vec![0; n]);
        lyndon::read(n, &tree, &mut previous, &mut next).expect("the tree of a build");
        assert_eq!(check(&letters, &next), Ok(Checked::Right));
    }
}
