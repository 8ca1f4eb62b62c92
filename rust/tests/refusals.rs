//! Every refusal and every pair of refusals of every operation but the cabinet's two, of letters and of
//! symbols: the one that is tested first is returned, which is the lowest number, but for 14, which comes before
//! all; all other figures are 0, and nothing is written, but for the work tables by 13.

mod common;

use std::collections::BTreeSet;

use common::{
    assert_build, assert_first_tree, assert_first_tree_refused, assert_next_tree,
    assert_next_tree_refused, assert_read, assert_read_refused, assert_runs, assert_runs_refused,
    assert_tree_string, assert_tree_string_refused, assert_word, Lent, Letter, FILLS, LIBRARY,
};
use lyndon::{raw, tree_length, Built, Refusal};
use reference::runs::{by_definition, Run};
use reference::samples::{random_string, random_tree, widened, Random};
use reference::{fast, fast_brackets, fast_small_trees, fast_tree_string, refusals};

/// Numbers of letters around those where a tree takes one more byte.
const SMALL: [usize; 9] = [0, 1, 2, 3, 4, 5, 7, 8, 9];
const LIMIT: usize = 1_000_000;

/// The pairs of refusals that have applied to one input at once, and, each as a pair with itself, the
/// refusals that have applied alone.
#[derive(Default)]
struct Pairs(BTreeSet<(u32, u32)>);

impl Pairs {
    fn add(&mut self, applying: &[u32]) {
        if let [alone] = applying {
            self.0.insert((*alone, *alone));
        }
        for (k, &first) in applying.iter().enumerate() {
            let later = applying[k + 1..].iter();
            self.0.extend(later.map(|&later| (first, later)));
        }
    }

    /// Asserts that each of `numbers` has applied alone and every pair of them at once, but 7 with 8,
    /// which exclude each other.
    fn assert_all_of(self, numbers: &[u32]) {
        let mut all = Pairs::default();
        all.add(numbers);
        all.0.extend(numbers.iter().map(|&number| (number, number)));
        all.0.remove(&(7, 8));
        assert_eq!(self.0, all.0);
    }
}

/// A length, the one below it where there is one, and the one above.
fn around(length: usize) -> impl Iterator<Item = usize> + Clone {
    length.saturating_sub(1)..=length + 1
}

fn check_build<L: Letter>(
    pairs: &mut Pairs,
    letters: &[L],
    tables: [usize; 4],
    tree: usize,
    rows: usize,
) {
    let applying = refusals::of_build(letters.len(), tables, tree, rows);
    pairs.add(&applying);
    let Err(number) = refusals::first(&applying) else {
        return assert_build(letters, rows, &fast::structure(letters, rows));
    };
    for fill in FILLS {
        let mut lent = Lent::new(tables, tree, fill);
        let built = lent.build(letters, rows);
        assert_eq!(built.map_err(Refusal::number), Err(number));
        lent.assert_untouched();
        let zeros = raw::BuildReply {
            refusal: number,
            finished: 0,
            rows: 0,
            equal: 0,
            unequal: 0,
            reach: 0,
        };
        assert_eq!(lent.build_raw(letters, rows), zeros);
        lent.assert_untouched();
    }
}

/// Builds of bytes taken as letters of either width.
fn check_builds<L: Letter>(letters_of: fn(&[u8]) -> Vec<L>) {
    let mut random = Random::new(31);
    let mut pairs = Pairs::default();
    for n in SMALL {
        let letters = letters_of(&random_string(&mut random, n, 2));
        for previous in around(n) {
            for next in around(n) {
                for previous_match in around(n) {
                    for next_match in around(n) {
                        let tables = [previous, next, previous_match, next_match];
                        for tree in around(tree_length(n)) {
                            for rows in [0, n, n + 1, usize::MAX] {
                                check_build(&mut pairs, &letters, tables, tree, rows);
                            }
                        }
                    }
                }
            }
        }
        // Lengths that some other measure of the string would give.
        for wrong in [0, n / 4, n.div_ceil(8), 2 * n, 4 * n, n + 1000] {
            check_build(&mut pairs, &letters, [n; 4], wrong, n);
            for k in 0..4 {
                let mut tables = [n; 4];
                tables[k] = wrong;
                check_build(&mut pairs, &letters, tables, tree_length(n), n);
            }
        }
    }
    for n in [LIMIT, LIMIT + 1] {
        let letters = letters_of(&random_string(&mut random, n, 4));
        for tables in [[n; 4], [n, n, n, n - 1]] {
            for tree in [tree_length(n), tree_length(n) + 1] {
                for rows in [n, n + 1] {
                    check_build(&mut pairs, &letters, tables, tree, rows);
                }
            }
        }
    }
    pairs.assert_all_of(&[1, 2, 3, 4]);
}

#[test]
fn builds() {
    check_builds(<[u8]>::to_vec);
}

#[test]
fn builds_of_symbols() {
    check_builds(widened);
}

/// Bytes for a tree of `n` positions: balanced, closed too early and left open; with and without the
/// spare bits set; of the right length, a byte shorter and a byte longer.
fn trees(n: usize) -> Vec<Vec<u8>> {
    let mut trees = Vec::new();
    let spare = 8 * tree_length(n) - 2 * n;
    for pattern in [0b0101_0101, 0b0000_0000, 0b1111_1111] {
        let mut tree = vec![pattern; tree_length(n)];
        for spare_bits in [0x00, 0xff] {
            if let Some(last) = tree.last_mut() {
                let used = 0xff >> spare;
                *last = *last & used | spare_bits & !used;
            }
            trees.push(tree.clone());
            trees.push(tree[..tree.len().saturating_sub(1)].to_vec());
            trees.push([tree.as_slice(), &[0x00]].concat());
            trees.push([tree.as_slice(), &[0xff]].concat());
        }
    }
    trees
}

fn check_reading(pairs: &mut Pairs, n: usize, tree: &[u8], tables: [usize; 2]) {
    let applying = refusals::of_reading(n, tree, tables);
    pairs.add(&applying);
    match refusals::first(&applying) {
        Err(number) => assert_read_refused(n, tree, tables, number),
        Ok(()) => {
            let (mut previous, mut next) = (vec![0; n], vec![0; n]);
            fast_brackets::read(n, tree, &mut previous, &mut next).expect("a balanced tree");
            assert_read(n, tree, &previous, &next);
        }
    }
}

#[test]
fn readings() {
    let mut pairs = Pairs::default();
    for n in SMALL {
        for tree in trees(n) {
            for previous in around(n) {
                for next in around(n) {
                    check_reading(&mut pairs, n, &tree, [previous, next]);
                }
            }
            for wrong in [0, n.div_ceil(4), 2 * n, n + 1000] {
                check_reading(&mut pairs, n, &tree, [wrong, n]);
                check_reading(&mut pairs, n, &tree, [n, wrong]);
            }
        }
    }
    for n in [LIMIT, LIMIT + 1] {
        for tree in trees(n) {
            check_reading(&mut pairs, n, &tree, [n, n]);
            check_reading(&mut pairs, n, &tree, [n, n - 1]);
        }
    }
    pairs.assert_all_of(&[1, 2, 3, 6, 7, 8]);
}

fn check_tree_string(pairs: &mut Pairs, n: usize, tree: &[u8], symbols: usize) {
    let applying = refusals::of_tree_string(n, tree, symbols);
    pairs.add(&applying);
    match refusals::first(&applying) {
        Err(number) => assert_tree_string_refused(n, tree, symbols, number),
        Ok(()) => {
            let mut expected = vec![0; n];
            fast_tree_string::write(n, tree, &mut expected).expect("a balanced tree");
            assert_tree_string(n, tree, &expected);
        }
    }
}

#[test]
fn strings_of_trees() {
    let mut pairs = Pairs::default();
    for n in SMALL {
        for tree in trees(n) {
            for symbols in around(n) {
                check_tree_string(&mut pairs, n, &tree, symbols);
            }
            for wrong in [0, n.div_ceil(4), 2 * n, 4 * n, n + 1000] {
                check_tree_string(&mut pairs, n, &tree, wrong);
            }
        }
    }
    for n in [LIMIT, LIMIT + 1] {
        for tree in trees(n) {
            for symbols in around(n) {
                check_tree_string(&mut pairs, n, &tree, symbols);
            }
        }
    }
    pairs.assert_all_of(&[1, 2, 3, 6, 7, 8]);
}

#[test]
fn first_trees() {
    let mut pairs = Pairs::default();
    for size in 0..=14 {
        for length in around(tree_length(size)) {
            let applying = refusals::of_first_tree(size, length);
            pairs.add(&applying);
            match refusals::first(&applying) {
                Err(number) => assert_first_tree_refused(size, length, number),
                Ok(()) => {
                    let mut expected = vec![0; length];
                    fast_small_trees::first(size, &mut expected).expect("a size that is taken");
                    assert_first_tree(size, &expected);
                }
            }
        }
    }
    pairs.assert_all_of(&[14, 3]);
}

#[test]
fn next_trees() {
    let mut pairs = Pairs::default();
    for size in 0..=14 {
        for tree in trees(size) {
            let applying = refusals::of_next_tree(size, &tree);
            pairs.add(&applying);
            match refusals::first(&applying) {
                Err(number) => assert_next_tree_refused(size, &tree, number),
                // The brackets ()() and so on are those of the last tree.
                Ok(()) => assert_next_tree(size, &tree, None),
            }
        }
    }
    pairs.assert_all_of(&[14, 3, 6, 7, 8]);
}

fn check_questions(pairs: &mut Pairs, n: usize, tree: &[u8], position: usize) {
    let applying = refusals::of_question(n, tree, position);
    pairs.add(&applying);
    let refusal = refusals::first(&applying);
    let answers = LIBRARY.map(|question| question(n, tree, position));
    let Err(number) = refusal else {
        let expected = [
            fast_brackets::place,
            fast_brackets::previous,
            fast_brackets::next,
        ];
        assert_eq!(
            answers,
            expected.map(|question| question(n, tree, position))
        );
        return;
    };
    assert_eq!(answers, [Err(number); 3]);
    for question in [raw::lyndon_place, raw::lyndon_previous, raw::lyndon_next] {
        // SAFETY: the pointer comes from a slice with its length.
        let reply = unsafe { question(n, tree.as_ptr(), tree.len(), position) };
        assert_eq!(
            reply,
            raw::Reply {
                refusal: number,
                value: 0
            }
        );
    }
}

/// Positions inside and outside a tree or a string of `n` positions.
fn positions(n: usize) -> [usize; 6] {
    [
        0,
        n / 2,
        n.saturating_sub(1),
        n,
        n.saturating_add(1),
        usize::MAX,
    ]
}

#[test]
fn questions() {
    let mut pairs = Pairs::default();
    for n in SMALL.into_iter().chain([LIMIT, LIMIT + 1]) {
        for tree in trees(n) {
            for position in positions(n) {
                check_questions(&mut pairs, n, &tree, position);
            }
        }
    }
    pairs.assert_all_of(&[1, 3, 5, 6, 7, 8]);
}

/// Longest words of bytes taken as letters of either width.
fn check_words<L: Letter>(letters_of: fn(&[u8]) -> Vec<L>) {
    let mut random = Random::new(32);
    let mut pairs = Pairs::default();
    for n in SMALL.into_iter().chain([LIMIT, LIMIT + 1]) {
        let letters = letters_of(&random_string(&mut random, n, 2));
        for position in positions(n) {
            let applying = refusals::of_word(n, position);
            pairs.add(&applying);
            let Err(number) = refusals::first(&applying) else {
                assert_word(&letters, position, fast::longest_word(&letters, position));
                continue;
            };
            let word = L::WORD(&letters, position);
            assert_eq!(word.map_err(Refusal::number), Err(number));
            assert_eq!(
                L::WORD_RAW(&letters, position),
                raw::PartReply {
                    refusal: number,
                    start: 0,
                    length: 0
                }
            );
        }
    }
    pairs.assert_all_of(&[1, 5]);
}

#[test]
fn words() {
    check_words(<[u8]>::to_vec);
}

#[test]
fn words_of_symbols() {
    check_words(widened);
}

/// The report of these runs, over lists and work tables of these lengths.
fn check_report<L: Letter>(
    pairs: &mut Pairs,
    letters: &[L],
    expected: &[Run],
    lists: [usize; 3],
    work: [usize; 6],
) {
    let applying = refusals::of_runs(letters.len(), work, lists, expected.len());
    pairs.add(&applying);
    for fill in FILLS {
        match refusals::first(&applying) {
            Ok(()) => assert_runs(letters, lists[0], expected, fill),
            Err(number) => assert_runs_refused(letters, lists, work, number, fill),
        }
    }
}

/// Every list of so many lengths around one.
fn lengths_around<const K: usize>(length: usize) -> impl Iterator<Item = [usize; K]> {
    let choices: Vec<usize> = around(length).collect();
    let base = choices.len();
    (0..base.pow(K as u32)).map(move |index| {
        let mut rest = index;
        std::array::from_fn(|_| {
            let choice = choices[rest % base];
            rest /= base;
            choice
        })
    })
}

/// Reports of the runs of bytes taken as letters of either width.
fn check_reports<L: Letter>(letters_of: fn(&[u8]) -> Vec<L>) {
    let mut pairs = Pairs::default();
    for letters in [&b""[..], b"a", b"banana", b"aabaab"] {
        let letters = &letters_of(letters);
        let expected = by_definition(letters);
        for work in lengths_around(letters.len()) {
            for lists in lengths_around(expected.len()) {
                check_report(&mut pairs, letters, &expected, lists, work);
            }
        }
        // Lengths that some other measure of the string would give.
        let n = letters.len();
        for wrong in [0, n / 2, 2 * n, 6 * n, n + 1000] {
            for k in 0..6 {
                let mut work = [n; 6];
                work[k] = wrong;
                check_report(&mut pairs, letters, &expected, [n; 3], work);
            }
            for k in 0..3 {
                let mut lists = [n; 3];
                lists[k] = wrong;
                check_report(&mut pairs, letters, &expected, lists, [n; 6]);
            }
        }
    }
    for n in [LIMIT, LIMIT + 1] {
        let letters = letters_of(&vec![b'a'; n]);
        let whole = Run {
            start: 0,
            period: 1,
            end: n,
        };
        for lists in [[1; 3], [0; 3], [1, 1, 2], [0, 0, 1]] {
            for work in [[n; 6], [n, n, n, n, n, n - 1]] {
                check_report(&mut pairs, &letters, &[whole], lists, work);
            }
        }
    }
    pairs.assert_all_of(&[1, 2, 12, 13]);
}

#[test]
fn runs() {
    check_reports(<[u8]>::to_vec);
}

#[test]
fn runs_of_symbols() {
    check_reports(widened);
}

#[test]
fn a_million_letters_are_taken_and_one_more_is_refused() {
    let letters = vec![b'a'; LIMIT + 1];
    let tree = random_tree(&mut Random::new(33), LIMIT, 5);
    assert!(lyndon::Structure::of(&letters[1..]).is_ok());
    assert_eq!(lyndon::longest_word(&letters[1..], 0), Ok(b"a".as_slice()));
    assert_eq!(lyndon::runs(&letters[1..]).map(|runs| runs.len()), Ok(1));
    assert_eq!(
        lyndon::read(LIMIT, &tree, &mut vec![0; LIMIT], &mut vec![0; LIMIT]),
        Ok(())
    );
    assert_eq!(lyndon::place(LIMIT, &tree, 0), Ok(0));
    let mut symbols = vec![0; LIMIT];
    fast_tree_string::write(LIMIT, &tree, &mut symbols).unwrap();
    assert!(lyndon::tree_string(LIMIT, &tree) == Ok(symbols));

    let (n, one_more) = (LIMIT + 1, [tree.as_slice(), &[1]].concat());
    assert_eq!(
        lyndon::Structure::of(&letters).map(drop),
        Err(Refusal::TooLong)
    );
    assert_eq!(lyndon::longest_word(&letters, 0), Err(Refusal::TooLong));
    assert_eq!(lyndon::runs(&letters), Err(Refusal::TooLong));
    assert_read_refused(n, &one_more, [n, n], 1);
    assert_tree_string_refused(n, &one_more, n, 1);
    assert_eq!(
        LIBRARY.map(|question| question(n, &one_more, 0)),
        [Err(1); 3]
    );
}

/// Numbers of positions whose low 32 bits, double or quarter would pass for a small number.
#[test]
fn numbers_of_positions_beyond_any_tree() {
    let tree_of_5 = [0b0101_0101, 0b01];
    assert_eq!(lyndon::next(5, &tree_of_5, 4), Ok(5));
    let offsets = [0, 1 << 32, 1 << 33, 1 << 62, 1 << 63, (1 << 63) + (1 << 62)];
    let beyond = offsets
        .into_iter()
        .flat_map(|offset| [offset, offset + 4, offset + 5, offset + 8]);
    let near_the_end = (0..6).map(|k| usize::MAX - k);
    for n in beyond.chain(near_the_end).filter(|&n| n > LIMIT) {
        for tree in [&tree_of_5[..], &tree_of_5[..1], &[]] {
            for length in [0, 4, 5] {
                assert_read_refused(n, tree, [length, length], 1);
                assert_tree_string_refused(n, tree, length, 1);
            }
            for position in [0, 4, 5, n - 1, n, usize::MAX] {
                assert_eq!(
                    LIBRARY.map(|question| question(n, tree, position)),
                    [Err(1); 3]
                );
            }
        }
    }
}

#[test]
fn structures_in_memory_of_their_own() {
    let empty = lyndon::Structure::of(b"").unwrap();
    assert_eq!(
        empty.built,
        Built {
            finished: true,
            rows: 0,
            equal: 0,
            unequal: 0,
            reach: 0
        }
    );
    let halted = lyndon::Structure::halted(b"banana", 4).unwrap();
    assert_eq!((halted.built.finished, halted.built.rows), (false, 4));
    assert_eq!(
        lyndon::Structure::halted(b"banana", 7),
        Err(Refusal::TooManyRows)
    );
    let too_long = vec![0; LIMIT + 1];
    assert_eq!(
        lyndon::Structure::halted(&too_long, LIMIT + 2),
        Err(Refusal::TooLong)
    );
}

#[test]
fn refusals_have_their_numbers() {
    let numbers = Refusal::ALL.map(Refusal::number);
    assert_eq!(numbers, [1, 2, 3, 4, 5, 6, 7, 8, 9, 10, 11, 12, 13, 14]);
    assert_eq!(lyndon::MAX_LETTERS, LIMIT);
    assert_eq!(lyndon::MAX_TREE_SIZE, 12);
    assert_eq!(
        Refusal::LeftOpen.to_string(),
        "refused 8: the tree leaves a bracket open"
    );
}
