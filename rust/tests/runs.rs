//! The report of all runs: every short string against the definition, longer ones against a reference that
//! goes period by period, long ones against plain Rust by the same method; and the wrapper's two functions.

mod common;

use common::{assert_list, check_runs, Guarded, Letter, FILLS};
use lyndon::{runs_into, runs_work_length, Refusal, MAX_LETTERS};
use reference::runs::{by_definition, by_periods, lists};
use reference::samples::{self, Random};
use reference::{fast_runs, refusals};

fn check_every_string(alphabet: &[u8], longest: usize) {
    for n in 0..=longest {
        for letters in samples::strings_over(alphabet, n) {
            check_runs(&letters, &by_definition(&letters));
        }
    }
}

// The letters 127 and 128 are in the other order when a byte is taken as signed.

#[test]
fn every_string_over_two_letters() {
    check_every_string(&[127, 128], 14);
}

#[test]
fn every_string_over_three_letters() {
    check_every_string(&[0, 127, 255], 9);
}

/// Strings of `n` letters of different kinds.
fn strings(random: &mut Random, n: usize) -> Vec<(&'static str, Vec<u8>)> {
    let mut strings = samples::kinds(random, n);
    strings.extend(samples::bases(random, n));
    // With the order of the letters reversed.
    let upside_down = |letters: &[u8]| letters.iter().map(|letter| 255 - letter).collect();
    strings.extend([
        ("Fibonacci upside down", upside_down(&samples::fibonacci(n))),
        ("period doubling", samples::period_doubling(n)),
        ("ruler", samples::ruler(n)),
        ("ruler upside down", upside_down(&samples::ruler(n))),
        ("squares", samples::squares(n)),
        ("planted", samples::planted(random, n).0),
    ]);
    let masked = samples::in_random_case(random, &samples::fibonacci(n));
    strings.push(("Fibonacci, mixed case at random", masked));
    strings
}

#[test]
fn strings_of_100_letters_by_the_definition() {
    for (kind, letters) in strings(&mut Random::new(51), 100) {
        println!("{kind}");
        check_runs(&letters, &by_definition(&letters));
    }
}

#[test]
fn strings_of_about_10_000_letters_period_by_period() {
    let mut random = Random::new(52);
    for n in [9_999, 15_000] {
        for (kind, letters) in strings(&mut random, n) {
            println!("{n} letters, {kind}");
            check_runs(&letters, &by_periods(&letters));
        }
    }
}

#[test]
fn strings_of_about_100_000_letters() {
    let mut random = Random::new(53);
    for n in [99_991, 100_000] {
        for (kind, letters) in strings(&mut random, n) {
            println!("{n} letters, {kind}");
            check_runs(&letters, &fast_runs::runs(&letters));
        }
    }
}

#[test]
fn strings_of_1_000_000_letters() {
    for (kind, letters) in strings(&mut Random::new(54), MAX_LETTERS) {
        println!("{kind}");
        check_runs(&letters, &fast_runs::runs(&letters));
    }
}

#[test]
fn random_strings_of_random_lengths_and_alphabets() {
    let mut random = Random::new(55);
    for _ in 0..500 {
        let (n, size) = (1 + random.below(2_000), 1 + random.below(256));
        let letters = samples::random_string(&mut random, n, size);
        check_runs(&letters, &fast_runs::runs(&letters));
    }
}

#[test]
fn random_words_repeated() {
    let mut random = Random::new(56);
    for _ in 0..500 {
        let n = 1 + random.below(2_000);
        let (length, size) = (1 + random.below(20), 1 + random.below(3));
        let word = samples::random_string(&mut random, length, size);
        let letters = samples::repeated(&word, n);
        check_runs(&letters, &fast_runs::runs(&letters));
    }
}

#[test]
fn random_words_repeated_in_mixed_case() {
    let mut random = Random::new(58);
    for _ in 0..500 {
        let letters = samples::word_repeated_in_random_case(&mut random);
        check_runs(&letters, &fast_runs::runs(&letters));
    }
}

/// The runs as the wrapper gives them in memory of its own.
fn runs(letters: &[u8]) -> Vec<[usize; 3]> {
    let runs = lyndon::runs(letters).expect("at most 1,000,000 letters");
    let members = runs.iter().map(|run| [run.start, run.end, run.period]);
    members.collect()
}

#[test]
fn runs_that_are_known() {
    assert_eq!(runs(b"banana"), [[1, 6, 2]]);
    let mississippi = [[1, 8, 3], [2, 4, 1], [5, 7, 1], [8, 10, 1]];
    assert_eq!(runs(b"mississippi"), mississippi);
    assert_eq!(runs(b"MIsSisSIPpi"), mississippi);
    // Two runs with the same start: the shorter period comes first.
    let aabaab = [[0, 2, 1], [0, 6, 3], [3, 5, 1]];
    assert_eq!(runs(b"aabaab"), aabaab);
    let none: [[usize; 3]; 0] = [];
    assert_eq!(runs(b""), none);
    assert_eq!(runs(b"a"), none);
    assert_eq!(runs(b"abc"), none);
    assert_eq!(runs(&[0xff; MAX_LETTERS]), [[0, MAX_LETTERS, 1]]);
    assert_eq!(
        runs(&samples::repeated(b"ab", MAX_LETTERS)),
        [[0, MAX_LETTERS, 2]]
    );
    // A Fibonacci word has two runs for each letter of the one two before it, less 3.
    let (word, two_before) = (832_040, 317_811);
    assert_eq!(runs(&samples::fibonacci(word)).len(), 2 * two_before - 3);
}

#[test]
fn planted_repeats_are_found() {
    let (letters, stretches) = samples::planted(&mut Random::new(57), 200_000);
    let found = runs(&letters);
    assert!(stretches.len() > 100, "enough are planted");
    for [start, end, period] in stretches {
        let found = found.iter().any(|&run| {
            let [run_start, run_end, run_period] = run;
            run_start <= start && end <= run_end && run_period == period
        });
        assert!(found, "from {start} to {end} with period {period}");
    }
}

#[test]
fn work_tables_may_hold_anything() {
    let letters = b"aabaabab";
    let n = letters.len();
    let expected = lists(&by_definition(letters), n);
    for value in (0..=n as u32 + 1).chain([u32::MAX - 1, u32::MAX]) {
        let [mut starts, mut ends, mut periods] = [[value; 8]; 3];
        let mut work = vec![value; runs_work_length(n)];
        let number = runs_into(letters, &mut starts, &mut ends, &mut periods, &mut work);
        assert_eq!(number, Ok(4), "over {value}");
        assert_eq!([&starts[..], &ends, &periods], expected, "over {value}");
        assert_eq!(work, vec![0; runs_work_length(n)], "over {value}");
    }
}

/// Asks the wrapper for the runs in lists and work memory of these lengths.
fn check_runs_into<L: Letter>(letters: &[L], entries: [usize; 3], work_length: usize) {
    let n = letters.len();
    let used = runs_work_length(n);
    let expected = by_definition(letters);
    let enough = if work_length < used { n + 1 } else { n };
    let refused = refusals::first(&refusals::of_runs(n, [enough; 6], entries, expected.len()));
    for fill in FILLS {
        let mut lent = entries.map(|length| Guarded::new(length, fill));
        let mut work = Guarded::new(work_length, fill);
        let before: Vec<u32> = work.contents().to_vec();
        let [starts, ends, periods] = lent.each_mut().map(Guarded::lent);
        let answer = L::RUNS(letters, starts, ends, periods, work.lent());
        assert_eq!(
            answer.map_err(Refusal::number),
            refused.map(|()| expected.len())
        );
        match refused {
            Ok(()) => {
                let lists = lists(&expected, entries[0]);
                for (list, expected) in lent.iter().zip(&lists) {
                    assert_list("a list", list.contents(), expected);
                }
            }
            Err(_) => lent.iter().for_each(Guarded::assert_untouched),
        }
        match refused {
            Ok(()) | Err(13) => {
                assert_list("the work memory", &work.contents()[..used], &vec![0; used]);
                let behind = &work.contents()[used..];
                assert_list("the memory behind it", behind, &before[used..]);
            }
            Err(_) => work.assert_untouched(),
        }
    }
}

/// The wrapper's work memory for bytes taken as letters of either width.
fn check_work_memory<L: Letter>(letters_of: fn(&[u8]) -> Vec<L>) {
    for letters in [&b""[..], b"a", b"banana", b"aabaab", b"mississippi"] {
        let letters = &letters_of(letters);
        let used = runs_work_length(letters.len());
        assert_eq!(used, 6 * letters.len());
        let n = letters.len();
        for work_length in [used.saturating_sub(1), used, used + 1, used + 6, used + 100] {
            for entries in 0..=n {
                check_runs_into(letters, [entries; 3], work_length);
                check_runs_into(letters, [entries + 1, entries, entries], work_length);
                check_runs_into(letters, [entries, entries + 1, entries], work_length);
                check_runs_into(letters, [entries, entries, entries + 1], work_length);
            }
        }
        check_runs_into(letters, [n; 3], 0);
        check_runs_into(letters, [n; 3], n);
    }
}

#[test]
fn the_wrapper_uses_as_much_work_memory_as_it_says() {
    check_work_memory(<[u8]>::to_vec);
    check_work_memory(samples::widened);
    assert_eq!(runs_work_length(usize::MAX), usize::MAX);
}
