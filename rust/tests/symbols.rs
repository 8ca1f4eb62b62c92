//! Symbols of 32 bits for letters: they compare as numbers, every value may occur, and nothing is masked. Every
//! short sequence against the definitions, bytes widened to symbols against the bytes, and long sequences against
//! the fast reference. The refusals are tested in refusals.rs and check.rs, with those of letters.

mod common;

use common::{
    assert_word, check_builds, check_by_definitions, check_every_entry, check_runs,
    check_some_entries,
};
use lyndon::{
    check, check32, longest_word, longest_word32, raw, runs, runs32, Checked, Refusal, Run,
    Structure, MAX_LETTERS,
};
use reference::samples::{self, Random};
use reference::{definitions, fast_runs};

/// Symbols at the ends of the range, on both sides of a byte's end, and on that of a signed number.
const ENDS: [u32; 6] = [0, 1, 255, 256, 1 << 31, u32::MAX];

/// Compares every answer for the symbols with the definitions, the check with each single entry changed too.
fn check_sequence(symbols: &[u32]) {
    check_by_definitions(symbols);
    check_every_entry(symbols, &definitions::tables(symbols, symbols.len()));
}

fn check_every_sequence(alphabet: &[u32], longest: usize) {
    for n in 0..=longest {
        for symbols in samples::strings_over(alphabet, n) {
            check_sequence(&symbols);
        }
    }
}

/// Over each choice of three of the six.
#[test]
fn every_sequence_over_three_symbols() {
    for third in 2..6 {
        for second in 1..third {
            for first in 0..second {
                check_every_sequence(&[first, second, third].map(|k| ENDS[k]), 6);
            }
        }
    }
}

/// The one bit decides, whichever it is: pairs that agree in their low 8 or 16 bits are among them, and those
/// that are in the other order as signed numbers.
#[test]
fn every_sequence_over_two_symbols_that_differ_in_one_bit() {
    for symbol in [0, u32::MAX, 0x7fff_ffff, 0x6141_6141] {
        for bit in 0..32 {
            check_every_sequence(&[symbol, symbol ^ (1 << bit)], 5);
        }
    }
}

/// Pairs that agree in their low 8 or low 16 bits, or come in the other order as signed numbers or by their low
/// bits, and pairs of a small letter and a capital.
#[test]
fn every_sequence_over_two_symbols_that_some_other_order_confuses() {
    for pair in [
        [0x0000_0100, 0x0000_0200],
        [0x0001_2345, 0x0002_2345],
        [0x7fff_ffff, 0x8000_0000],
        [0xffff_ffff, 0x0000_0000],
        [0x0000_01ff, 0x0000_0200],
        [0x0001_ffff, 0x0002_0000],
        [0x0100_0000, 0x0000_0001],
        [65, 97],
        [90, 122],
        [0x0041_0000, 0x0061_0000],
    ] {
        check_every_sequence(&pair, 7);
    }
}

/// The pair of each symbol with each says how the two compare: equal, less or greater.
#[test]
fn symbols_compare_as_numbers() {
    let mut random = Random::new(101);
    let mut symbols: Vec<u32> = (0..=300).collect();
    for bit in 8..32 {
        symbols.extend([(1 << bit) - 1, 1 << bit, (1 << bit) + 1, !(1 << bit)]);
    }
    symbols.extend((0..100).map(|_| random.number() as u32));
    for &left in &symbols {
        for &right in &symbols {
            let pair = Structure::of_symbols(&[left, right]).expect("two symbols");
            let equal = left == right;
            let counts = (pair.built.equal, pair.built.unequal);
            let expected = (usize::from(equal), usize::from(!equal));
            assert_eq!(counts, expected, "{left} and {right}");
            let tree = if left < right { 0x03 } else { 0x05 };
            assert_eq!(pair.tree, [tree], "{left} and {right}");
            let found = runs32(&[left, right]).expect("two symbols");
            assert_eq!(found.len(), usize::from(equal), "{left} and {right}");
        }
    }
}

/// Asserts that the bytes have the same answers as the symbols with their values.
fn assert_as_bytes(random: &mut Random, letters: &[u8]) {
    let symbols = samples::widened(letters);
    let n = letters.len();
    let whole = Structure::of(letters).expect("few letters");
    assert!(Structure::of_symbols(&symbols) == Ok(whole.clone()));
    let rows = random.below(n + 1);
    assert!(Structure::halted_symbols(&symbols, rows) == Structure::halted(letters, rows));
    assert!(runs32(&symbols) == runs(letters));
    for _ in 0..n.min(10) {
        let position = random.below(n);
        let word = longest_word(letters, position).expect("a position inside");
        assert_word(&symbols, position, &symbols[position..][..word.len()]);
    }
    let mut claimed = whole.next;
    assert_eq!(check32(&symbols, &claimed), Ok(Checked::Right));
    if n > 0 {
        claimed[random.below(n)] += 1;
        assert_eq!(check32(&symbols, &claimed), check(letters, &claimed));
    }
}

#[test]
fn bytes_without_small_letters_are_answered_as_symbols() {
    let mut random = Random::new(102);
    for n in 0..=6 {
        for letters in samples::strings_over(b"\x00AZ`{\xff", n) {
            assert_as_bytes(&mut random, &letters);
        }
    }
    let bytes: Vec<u8> = (0..=255_u8)
        .filter(|byte| !byte.is_ascii_lowercase())
        .collect();
    for _ in 0..200 {
        let (n, size) = (random.below(2_000), 1 + random.below(bytes.len()));
        let letters: Vec<u8> = (0..n).map(|_| bytes[random.below(size)]).collect();
        assert_as_bytes(&mut random, &letters);
    }
    for (_, letters) in samples::kinds(&mut random, 100_000) {
        assert_as_bytes(&mut random, &letters.to_ascii_uppercase());
    }
}

#[test]
fn small_letters_are_answered_otherwise_than_their_values() {
    // As a letter a is before B, as a symbol behind it.
    let (letters, symbols) = (b"aB", [97, 66]);
    assert_eq!(Structure::of(letters).unwrap().tree, [0x03]);
    assert_eq!(Structure::of_symbols(&symbols).unwrap().tree, [0x05]);
    assert_eq!(longest_word(letters, 0), Ok(&letters[..]));
    assert_eq!(longest_word32(&symbols, 0), Ok(&symbols[..1]));
    assert_eq!(check(letters, &[2, 2]), Ok(Checked::Right));
    assert_eq!(check32(&symbols, &[2, 2]), Ok(Checked::WrongAt(0)));
    assert_eq!(check32(&symbols, &[1, 2]), Ok(Checked::Right));

    // As letters a and A are the same, as symbols they are two.
    let whole = Run {
        start: 0,
        end: 2,
        period: 1,
    };
    assert_eq!(runs(b"aA"), Ok(vec![whole]));
    assert_eq!(runs32(&[97, 65]), Ok(vec![]));
    assert_eq!(runs32(&[97, 97]), Ok(vec![whole]));
    let match_of = |symbols| Structure::of_symbols(symbols).unwrap().next_match[0];
    assert_eq!((match_of(&[97, 65]), match_of(&[97, 97])), (0, 1));
}

/// Every answer for a long sequence, whole and halted.
fn check_long(random: &mut Random, symbols: &[u32], halts: usize) {
    check_builds(random, symbols, halts);
    check_runs(symbols, &fast_runs::runs(symbols));
    check_some_entries(random, symbols);
}

#[test]
fn sequences_of_1_000_000_symbols() {
    let mut random = Random::new(103);
    for (kind, symbols) in samples::symbol_kinds(&mut random, MAX_LETTERS) {
        println!("{kind}");
        check_long(&mut random, &symbols, 1);
    }
}

#[test]
fn random_sequences_of_random_symbols() {
    let mut random = Random::new(104);
    for _ in 0..200 {
        let (n, size) = (1 + random.below(2_000), 1 + random.below(20));
        let alphabet: Vec<u32> = (0..size).map(|_| random.number() as u32).collect();
        let symbols: Vec<u32> = (0..n).map(|_| alphabet[random.below(size)]).collect();
        check_long(&mut random, &symbols, 3);
        let word = &symbols[..n.min(1 + random.below(20))];
        check_long(&mut random, &samples::repeated(word, n), 3);
    }
}

#[test]
fn a_million_symbols_are_taken_and_one_more_is_refused() {
    let symbols = vec![u32::MAX; MAX_LETTERS + 1];
    let taken = &symbols[1..];
    let next = Structure::of_symbols(taken)
        .expect("1,000,000 symbols")
        .next;
    assert_eq!(check32(taken, &next), Ok(Checked::Right));
    assert_eq!(longest_word32(taken, 0), Ok(&taken[..1]));
    assert_eq!(runs32(taken).map(|runs| runs.len()), Ok(1));

    let claimed = vec![0; MAX_LETTERS + 1];
    assert_eq!(
        Structure::of_symbols(&symbols).map(drop),
        Err(Refusal::TooLong)
    );
    assert_eq!(check32(&symbols, &claimed), Err(Refusal::TooLong));
    assert_eq!(longest_word32(&symbols, 0), Err(Refusal::TooLong));
    assert_eq!(runs32(&symbols), Err(Refusal::TooLong));
}

#[test]
fn the_empty_sequence() {
    check_sequence(&[]);
    let empty = Structure::of_symbols(&[]).expect("no symbols");
    assert_eq!(empty, Structure::of(b"").expect("no letters"));
    assert!(empty.built.finished && empty.tree.is_empty());
    assert_eq!(longest_word32(&[], 0), Err(Refusal::PositionOutside));
    assert_eq!(runs32(&[]), Ok(vec![]));
    assert_eq!(check32(&[], &[]), Ok(Checked::Right));
    assert_eq!(check32(&[], &[0]), Err(Refusal::TableLength));
}

/// The symbols are only read, and the start and the length of a word count them.
#[test]
fn a_longest_word_is_the_callers_own_symbols() {
    let symbols = [12, 9, 300, 9, 300, 9];
    for (position, length) in [1, 2, 1, 2, 1, 1].into_iter().enumerate() {
        let word = &symbols[position..][..length];
        assert_word(&symbols, position, word);
        let reply = raw::PartReply {
            refusal: 0,
            start: position,
            length,
        };
        assert_eq!(raw::word32(&symbols, position), reply);
    }
    assert_eq!(symbols, [12, 9, 300, 9, 300, 9]);
}

#[test]
fn structures_in_memory_of_their_own() {
    let symbols = [12, 9, 300, 9, 300, 9];
    for rows in 0..=6 {
        let halted = Structure::halted_symbols(&symbols, rows).expect("few rows");
        assert_eq!(halted, Structure::halted(b"banana", rows).unwrap());
    }
    let refused = Structure::halted_symbols(&symbols, 7);
    assert_eq!(refused, Err(Refusal::TooManyRows));
    let too_long = vec![0; MAX_LETTERS + 1];
    let refused = Structure::halted_symbols(&too_long, MAX_LETTERS + 2);
    assert_eq!(refused, Err(Refusal::TooLong));
}
