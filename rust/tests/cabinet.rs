//! Cabinet files of both marks: written, read, damaged and refused, against the reference.

mod common;

use std::collections::BTreeSet;

use common::{assert_list, Guarded, FILLS};
use lyndon::{cabinet_length, raw, tree_length, Mark, Refusal, MAX_ENTRIES};
use reference::cabinet::{self, Body};
use reference::samples::{random_string, random_tree, Random};

const LIMIT: u32 = 1_000_000;

/// The marks' numbers.
const MARKS: [u32; 2] = [1, 2];

/// Letter counts of small files. Of the trees some fill their last byte and some leave spare bits.
const SMALL: [&[u32]; 8] = [
    &[],
    &[0],
    &[3],
    &[8],
    &[0, 0, 0, 0],
    &[5, 0, 0, 6],
    &[0, 4, 1],
    &[2, 9, 0],
];

/// Random trees with these letter counts, end to end.
fn random_trees(random: &mut Random, counts: &[u32]) -> Vec<u8> {
    let tree = |&n: &u32| {
        let openings = random.below(11);
        random_tree(random, n as usize, openings)
    };
    counts.iter().flat_map(tree).collect()
}

/// A file of random trees with this mark and these letter counts.
fn random_file(random: &mut Random, mark: u32, counts: &[u32]) -> Vec<u8> {
    cabinet::unchecked(mark, counts, &random_trees(random, counts))
}

/// Each of the small letter counts with each mark.
fn small_files() -> impl Iterator<Item = (u32, &'static [u32])> {
    let both = |counts| MARKS.map(|mark| (mark, counts));
    SMALL.into_iter().flat_map(both)
}

/// At most 64 letter counts, often few and often small or 0.
fn random_counts(random: &mut Random) -> Vec<u32> {
    let most = [2, 6, MAX_ENTRIES + 1][random.below(3)];
    let size = [1, 6, 30, 300][random.below(4)];
    let entries = random.below(most);
    (0..entries).map(|_| random.below(size) as u32).collect()
}

/// Replaces the number in the four bytes at `at`.
fn set_number(file: &mut [u8], at: usize, number: u32) {
    file[at..at + 4].copy_from_slice(&number.to_le_bytes());
}

/// Compares a writing into a buffer of `length` bytes with the reference. Returns the file, or the
/// refusal's number.
fn check_writing(counts: &[u32], trees: &[u8], length: usize) -> Result<Vec<u8>, u32> {
    let mut expected = vec![0; length];
    let verdict = cabinet::write(counts, trees, &mut expected);
    for fill in FILLS {
        let mut file = Guarded::new(length, fill);
        let outcome = lyndon::cabinet_write(counts, trees, file.lent());
        assert_eq!(outcome.map_err(Refusal::number), verdict);
        match verdict {
            Ok(()) => assert_list("the file", file.contents(), &expected),
            Err(_) => file.assert_untouched(),
        }
    }
    verdict.map(|()| expected)
}

/// Compares the reading of an entry with the reference: every figure, and the part of the file itself.
/// Returns the refusal's number, 0 where not refused.
fn check_reading(file: &[u8], entry: usize) -> u32 {
    let expected = cabinet::read(file, entry);
    let refusal = expected.as_ref().err().copied().unwrap_or(0);
    let Body {
        mark,
        letters,
        part,
    } = expected.unwrap_or(Body {
        mark: 0,
        letters: 0,
        part: 0..0,
    });
    let input = format_args!("entry {entry} of {:?}", &file[..file.len().min(80)]);

    // SAFETY: the pointer comes from a slice with its length.
    let reply = unsafe { raw::lyndon_cabinet_read(file.as_ptr(), file.len(), entry) };
    let expected_reply = raw::CabinetReply {
        refusal,
        mark,
        letters,
        start: part.start,
        length: part.len(),
    };
    assert_eq!(reply, expected_reply, "{input}");

    match lyndon::cabinet_read(file, entry) {
        Err(given) => assert_eq!(given.number(), refusal, "{input}"),
        Ok(found) => {
            assert_eq!((found.letters, refusal), (letters as usize, 0), "{input}");
            assert_eq!(found.mark.number(), mark, "{input}");
            let expected_part = file[part].as_ptr_range();
            assert_eq!(found.tree.as_ptr_range(), expected_part, "{input}");
        }
    }
    refusal
}

/// Compares the reading of each of `count` entries, and of others, with the reference, and writes an
/// accepted file again. Returns the numbers that [`check_reading`] returns.
fn check_file(file: &[u8], count: usize) -> BTreeSet<u32> {
    let others = [count, count + 1, 1 << 32, usize::MAX];
    let numbers: BTreeSet<u32> = (0..count)
        .chain(others)
        .map(|entry| check_reading(file, entry))
        .collect();
    if numbers.contains(&0) {
        assert_written_again(file);
    }
    numbers
}

/// Asserts that what is read from the file, written again, is the same file with the mark `LYN2`.
fn assert_written_again(file: &[u8]) {
    let (mut counts, mut trees) = (Vec::new(), Vec::new());
    while let Ok(entry) = lyndon::cabinet_read(file, counts.len()) {
        counts.push(entry.letters as u32);
        trees.extend(entry.tree);
    }
    let mut again = vec![0; cabinet_length(&counts)];
    assert_eq!(lyndon::cabinet_write(&counts, &trees, &mut again), Ok(()));
    let expected = [b"LYN2", &file[4..]].concat();
    assert_list("the file written again", &again, &expected);
}

/// Asserts that the trees are written, and each entry of their file is read.
fn assert_taken(counts: &[u32], trees: &[u8]) {
    let file = check_writing(counts, trees, cabinet_length(counts)).expect("balanced trees");
    assert_eq!(check_file(&file, counts.len()), BTreeSet::from([0, 5]));
}

/// Asserts that a writing is refused with one number, and every reading of the file with another.
fn assert_refused(counts: &[u32], trees: &[u8], writing: u32, reading: u32) {
    let outcome = check_writing(counts, trees, cabinet_length(counts));
    assert_eq!(outcome, Err(writing));
    for mark in MARKS {
        let file = cabinet::unchecked(mark, counts, trees);
        assert_eq!(check_file(&file, counts.len()), BTreeSet::from([reading]));
    }
}

/// Asserts that the trees are written, that each is read back, and that the file has no other entry.
fn assert_read_back(counts: &[u32], trees: &[u8]) {
    let file = check_writing(counts, trees, cabinet_length(counts)).expect("balanced trees");
    let mut rest = trees;
    for (entry, &n) in counts.iter().enumerate() {
        let (tree, after) = rest.split_at(tree_length(n as usize));
        rest = after;
        let found = lyndon::cabinet_read(&file, entry).expect("an entry of an accepted file");
        assert_eq!((found.letters, found.tree), (n as usize, tree));
        assert_eq!(found.mark, Mark::Lyn2);
        let place: [u8; 4] = file[8 + 8 * entry..][..4].try_into().expect("four bytes");
        let place = u32::from_le_bytes(place) as usize;
        assert_eq!(found.tree.as_ptr(), file[place..].as_ptr());
    }
    let no_entry = lyndon::cabinet_read(&file, counts.len());
    assert_eq!(no_entry, Err(Refusal::PositionOutside));
    assert_written_again(&file);
}

#[test]
fn trees_are_written_and_read_back() {
    let mut random = Random::new(51);
    let one_of_each: Vec<u32> = (0..64).collect();
    let long: [&[u32]; 4] = [&[0; 63], &[0; 64], &[5; 64], &one_of_each];
    for counts in SMALL.into_iter().chain(long) {
        assert_read_back(counts, &random_trees(&mut random, counts));
    }
    for _ in 0..2_000 {
        let counts = random_counts(&mut random);
        assert_read_back(&counts, &random_trees(&mut random, &counts));
    }
}

/// A file without entries is one file, and accepted: it has no entry to be read.
#[test]
fn a_file_without_entries() {
    let file = check_writing(&[], &[], 8).expect("no tree");
    assert_eq!(file, b"LYN2\0\0\0\0");
    assert_eq!(check_file(&file, 0), BTreeSet::from([5]));
    assert_eq!(check_file(b"LYN1\0\0\0\0", 0), BTreeSet::from([5]));
}

/// The file of banana and of `ba` byte by byte, with each mark.
#[test]
fn both_marks_are_read_and_told_apart() {
    let behind_the_mark = b"\x02\0\0\0\x18\0\0\0\x06\0\0\0\x1a\0\0\0\x02\0\0\0\xcd\x04\x05";
    let files = [b"LYN1", b"LYN2"].map(|mark| [&mark[..], behind_the_mark].concat());
    for (file, mark) in files.iter().zip([Mark::Lyn1, Mark::Lyn2]) {
        let banana = lyndon::cabinet_read(file, 0).expect("a file with a mark");
        assert_eq!(
            (banana.mark, banana.letters, banana.tree),
            (mark, 6, &file[24..26])
        );
        let ba = lyndon::cabinet_read(file, 1).expect("a file with a mark");
        assert_eq!((ba.mark, ba.letters, ba.tree), (mark, 2, &file[26..]));
        assert_eq!(check_file(file, 2), BTreeSet::from([0, 5]));
    }
    // The trees of the file with the first mark, written again, make the one with the second.
    let written = check_writing(&[6, 2], &files[0][24..], 27);
    assert_eq!(written.as_ref(), Ok(&files[1]));
    assert_eq!([Mark::Lyn1, Mark::Lyn2].map(Mark::number), MARKS);
}

#[test]
fn marks_that_are_no_marks() {
    let mut random = Random::new(61);
    let file = random_file(&mut random, 2, &[5, 0, 6]);
    for mark in [
        b"LYN0",
        b"LYN3",
        b"LYN\0",
        b"LYN\x01",
        b"LYN\x02",
        b"LYN\xb1",
        b"LYN\xb2",
        b"LYN ",
        b"lyn1",
        b"lyn2",
        b"lYN2",
        b"LyN2",
        b"LYn2",
        b"LYN!",
        b"1NYL",
        b"2NYL",
        b"NYL2",
        b"YLN2",
        b"\0\0\0\0",
        b"\xff\xff\xff\xff",
    ] {
        let marked = [mark, &file[4..]].concat();
        assert_eq!(check_file(&marked, 3), BTreeSet::from([9]), "{mark:?}");
    }
    // Every pair of bytes in the first two places, and in the last two.
    let mut taken = Vec::new();
    let mut marked = file.clone();
    for pair in 0..=u16::MAX {
        for at in [0, 2] {
            marked[..4].copy_from_slice(b"LYN2");
            marked[at..at + 2].copy_from_slice(&pair.to_be_bytes());
            if check_reading(&marked, 0) == 0 {
                taken.push(marked[..4].to_vec());
            }
        }
    }
    assert_eq!(taken, [b"LYN2", b"LYN1", b"LYN2"]);
}

#[test]
fn lengths_of_files() {
    assert_eq!(cabinet_length(&[]), 8);
    assert_eq!(cabinet_length(&[0, 1, 4, 5]), 8 + 4 * 8 + 4);
    assert_eq!(cabinet_length(&[LIMIT; 64]), 16_000_520);
    assert_eq!(
        cabinet_length(&[u32::MAX; 100]),
        8 + 100 * (8 + (1_usize << 30))
    );
}

#[test]
fn the_largest_file() {
    let mut random = Random::new(52);
    let three = random_trees(&mut random, &[LIMIT; 3]);
    let mut trees = three.repeat(22);
    trees.truncate(64 * 250_000);
    let file = check_writing(&[LIMIT; 64], &trees, 16_000_520).expect("balanced trees");
    for (entry, number) in [(0, 0), (1, 0), (63, 0), (64, 5)] {
        assert_eq!(check_reading(&file, entry), number);
    }
}

#[test]
fn sixty_four_entries_are_taken_and_one_more_is_refused() {
    let mut random = Random::new(53);
    for n in [0, 3, 4] {
        let counts = [n; 65];
        let trees = random_trees(&mut random, &counts);
        assert_refused(&counts, &trees, 10, 10);
        assert_taken(&counts[1..], &trees[tree_length(n as usize)..]);
    }
}

#[test]
fn a_million_letters_are_taken_and_one_more_is_refused() {
    let mut random = Random::new(54);
    for entry in 0..3 {
        let mut counts = [3, 0, 7];
        counts[entry] = LIMIT;
        assert_taken(&counts, &random_trees(&mut random, &counts));
        counts[entry] = LIMIT + 1;
        assert_refused(&counts, &random_trees(&mut random, &counts), 1, 11);
    }
}

#[test]
fn every_change_of_a_single_byte() {
    let mut random = Random::new(55);
    let mut numbers = BTreeSet::new();
    for (mark, counts) in small_files() {
        let mut file = random_file(&mut random, mark, counts);
        for at in 0..file.len() {
            for change in 1..=255 {
                file[at] ^= change;
                numbers.extend(check_file(&file, counts.len()));
                file[at] ^= change;
            }
        }
    }
    assert_eq!(numbers, BTreeSet::from([0, 5, 6, 7, 8, 9, 10, 11]));
}

#[test]
fn every_cut_and_bytes_left_over() {
    let mut random = Random::new(56);
    let many: &[u32] = &[6; 64];
    for (mark, counts) in small_files().chain(MARKS.map(|mark| (mark, many))) {
        let file = random_file(&mut random, mark, counts);
        for length in 0..file.len() {
            let number = if length < 8 { 9 } else { 11 };
            let numbers = check_file(&file[..length], counts.len());
            assert_eq!(numbers, BTreeSet::from([number]), "{length} bytes left");
        }
        for more in 1..=9 {
            for byte in [0x00, 0x01, 0x55, 0xff] {
                let longer = [file.as_slice(), &vec![byte; more]].concat();
                let numbers = check_file(&longer, counts.len());
                assert_eq!(numbers, BTreeSet::from([11]), "{more} bytes more");
            }
        }
    }
}

/// Numbers that are too large for every field of a file. Sums, multiples or roundings of most of them
/// wrap in 32 bits.
const TOO_LARGE: [u32; 12] = [
    LIMIT + 1,
    1 << 29,
    1 << 30,
    (1 << 30) + 1,
    (1 << 31) - 1,
    1 << 31,
    (1 << 31) + 8,
    u32::MAX - 7,
    u32::MAX - 3,
    u32::MAX - 2,
    u32::MAX - 1,
    u32::MAX,
];

#[test]
fn numbers_that_are_too_large_for_their_field() {
    let mut random = Random::new(57);
    for (mark, counts) in small_files() {
        let file = random_file(&mut random, mark, counts);
        for at in (4..8 + 8 * counts.len()).step_by(4) {
            let number = if at == 4 { 10 } else { 11 };
            for value in TOO_LARGE {
                let mut damaged = file.clone();
                set_number(&mut damaged, at, value);
                let numbers = check_file(&damaged, counts.len());
                assert_eq!(numbers, BTreeSet::from([number]), "{value} at {at}");
            }
        }
    }
}

/// Files without bodies whose letter counts are too large: with the places that follow from them, which
/// come back to the file's end where four bodies of 2 to the power 30 bytes are passed, and with all
/// places at the file's end, as if each body had no bytes.
#[test]
fn bodies_whose_lengths_wrap() {
    for n in TOO_LARGE {
        for count in 1..=MAX_ENTRIES {
            let counts = vec![n; count];
            let mark = MARKS[count % 2];
            let following = cabinet::unchecked(mark, &counts, &[]);
            let mut without_bytes = cabinet::unchecked(mark, &vec![0; count], &[]);
            for entry in 0..count {
                set_number(&mut without_bytes, 12 + 8 * entry, n);
            }
            for file in [following, without_bytes] {
                assert_eq!(check_reading(&file, 0), 11);
                assert_eq!(check_reading(&file, count), 11);
                assert_eq!(check_writing(&counts, &[], file.len()), Err(1));
            }
        }
    }
}

/// The bytes of a tree of 5 letters, and the number of its refusal, 0 where it has none.
const BODIES: [(u32, [u8; 2]); 4] = [
    (0, [0x55, 0x01]),
    (6, [0x55, 0x05]),
    (7, [0x00, 0x00]),
    (8, [0xff, 0x03]),
];

/// Three bodies of 5 letters end to end, and the refusal of the first faulty one.
fn three_bodies() -> impl Iterator<Item = (Vec<u8>, u32)> {
    (0..64).map(|index| {
        let bodies = [index % 4, index / 4 % 4, index / 16].map(|choice| BODIES[choice]);
        let number = bodies.iter().map(|body| body.0).find(|&number| number != 0);
        let trees = bodies.map(|body| body.1).concat();
        (trees, number.unwrap_or(0))
    })
}

/// Faults, each the number of its refusal and the change that makes it. The changes of the length come
/// last, and no two of them undo each other.
type Faults<I> = [(u32, fn(&mut I))];

/// Tries every choice of faults. Each choice passes on the input with these faults and the refusal of
/// the earliest, in the order given, or `otherwise` where none is chosen.
fn for_every_choice<I: Clone>(
    input: &I,
    faults: &Faults<I>,
    order: &[u32],
    otherwise: u32,
    check: impl Fn(I, u32),
) {
    for choice in 0..1 << faults.len() {
        let mut faulty = input.clone();
        let mut chosen = BTreeSet::new();
        for (k, (number, change)) in faults.iter().enumerate() {
            if choice >> k & 1 == 1 {
                change(&mut faulty);
                chosen.insert(number);
            }
        }
        let earliest = order.iter().find(|number| chosen.contains(number));
        check(faulty, earliest.copied().unwrap_or(otherwise));
    }
}

/// A file and the entry asked for.
type Reading = (Vec<u8>, usize);

const READING_FAULTS: &Faults<Reading> = &[
    (9, |(file, _)| file[3] = b'3'),
    (10, |(file, _)| set_number(file, 4, 65)),
    (11, |(file, _)| set_number(file, 16, 33)),
    (11, |(file, _)| set_number(file, 28, LIMIT + 1)),
    (5, |(_, entry)| *entry = 3),
    (11, |(file, _)| file.extend([0; 3])),
    (11, |(file, _)| file.truncate(file.len() - 1)),
    (11, |(file, _)| file.truncate(31)),
    (9, |(file, _)| file.truncate(7)),
];

#[test]
fn the_order_of_a_readings_refusals() {
    for (trees, number) in three_bodies() {
        for (entry, mark) in [(0, 2), (1, 1), (2, 2)] {
            let file = cabinet::unchecked(mark, &[5; 3], &trees);
            let input = (file, entry);
            for_every_choice(
                &input,
                READING_FAULTS,
                &[9, 10, 11, 5],
                number,
                |(file, entry), expected| assert_eq!(check_reading(&file, entry), expected),
            );
        }
    }
}

/// What a writing is given.
#[derive(Clone)]
struct Writing {
    counts: Vec<u32>,
    trees: Vec<u8>,
    length: usize,
}

const WRITING_FAULTS: &Faults<Writing> = &[
    (1, |writing| writing.counts[1] = LIMIT + 1),
    (1, |writing| writing.counts[2] = u32::MAX),
    (10, |writing| writing.counts.resize(65, 0)),
    (3, |writing| writing.trees.extend([0; 3])),
    (3, |writing| writing.trees.truncate(writing.trees.len() - 1)),
    (3, |writing| writing.length += 3),
    (3, |writing| writing.length -= 1),
];

#[test]
fn the_order_of_a_writings_refusals() {
    for (trees, number) in three_bodies() {
        let input = Writing {
            counts: vec![5; 3],
            trees,
            length: 8 + 3 * 8 + 3 * 2,
        };
        for_every_choice(
            &input,
            WRITING_FAULTS,
            &[10, 1, 3],
            number,
            |writing, expected| {
                let outcome = check_writing(&writing.counts, &writing.trees, writing.length);
                assert_eq!(outcome.err().unwrap_or(0), expected);
            },
        );
    }
}

/// The same bytes are other trees where the letter counts cut them elsewhere.
#[test]
fn trees_are_cut_by_their_letter_counts() {
    let trees = [0x55, 0x01, 0x55];
    let file = check_writing(&[5, 4], &trees, 27).expect("balanced trees");
    assert_eq!(check_file(&file, 2), BTreeSet::from([0, 5]));
    for (counts, number) in [([4, 5], 6), ([4, 8], 7), ([5, 8], 3)] {
        assert_eq!(check_writing(&counts, &trees, 27), Err(number));
    }
}

/// Changes some bytes at random, and at times the length.
fn damage(random: &mut Random, file: &mut Vec<u8>) {
    for _ in 0..random.below(3) {
        let at = random.below(file.len());
        file[at] = match random.below(3) {
            0 => file[at] ^ (1 << random.below(8)),
            1 => random.below(16) as u8,
            _ => random.below(256) as u8,
        };
    }
    match random.below(8) {
        0 => file.truncate(random.below(file.len())),
        1 => file.resize(file.len() + 1 + random.below(9), random.below(256) as u8),
        _ => {}
    }
}

#[test]
fn random_files_with_random_damage() {
    let mut random = Random::new(58);
    let mut numbers = BTreeSet::new();
    for _ in 0..5_000 {
        let counts = random_counts(&mut random);
        let mark = MARKS[random.below(2)];
        let mut file = random_file(&mut random, mark, &counts);
        damage(&mut random, &mut file);
        numbers.extend(check_file(&file, counts.len()));
    }
    assert_eq!(numbers, BTreeSet::from([0, 5, 6, 7, 8, 9, 10, 11]));
}

#[test]
fn random_bytes() {
    let mut random = Random::new(59);
    for _ in 0..5_000 {
        let length = random.below(100);
        let bytes = random_string(&mut random, length, 256);
        assert_eq!(check_reading(&bytes, 0), 9);
    }
    let mut numbers = BTreeSet::new();
    for _ in 0..50_000 {
        let mut file = [b"LYN1", b"LYN2"][random.below(2)].to_vec();
        for _ in 0..1 + random.below(6) {
            let number = [0, 1, 2, 4, 8, 16, 24, 32, 65, u32::MAX][random.below(10)];
            file.extend(number.to_le_bytes());
        }
        let length = random.below(3);
        file.extend(random_string(&mut random, length, 256));
        numbers.extend(check_file(&file, 2));
    }
    assert_eq!(numbers, BTreeSet::from([0, 5, 6, 7, 8, 10, 11]));
}

/// What a writing of random trees is given, at times with a wrong length, a wrong count or changed bits.
fn random_writing(random: &mut Random) -> Writing {
    let mut counts = random_counts(random);
    let mut trees = random_trees(random, &counts);
    let mut length = cabinet_length(&counts);
    match random.below(12) {
        0 => length = random.below(2 * length),
        1 => trees.resize(random.below(2 * trees.len() + 2), 0x55),
        2 => counts.resize(60 + random.below(10), 0),
        3 => counts.push(TOO_LARGE[random.below(TOO_LARGE.len())]),
        4..8 if !trees.is_empty() => {
            let at = random.below(trees.len());
            trees[at] ^= 1 << random.below(8);
        }
        _ => {}
    }
    Writing {
        counts,
        trees,
        length,
    }
}

#[test]
fn random_writings() {
    let mut random = Random::new(60);
    let mut numbers = BTreeSet::new();
    for _ in 0..10_000 {
        let writing = random_writing(&mut random);
        let outcome = check_writing(&writing.counts, &writing.trees, writing.length);
        numbers.insert(outcome.err().unwrap_or(0));
    }
    assert_eq!(numbers, BTreeSet::from([0, 1, 3, 6, 7, 8, 10]));
}
