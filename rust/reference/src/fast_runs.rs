//! All runs of a string from its Lyndon roots in both orders, as the library finds them, in plain Rust and
//! usable at 1,000,000 letters. The benchmark compares the library with this code.

use crate::fast::Scanned;
use crate::runs::Run;
use crate::{fast, refusals};

/// The letters before `i` that agree with those before `j`, counted up to one more than `j` - `i`.
fn left_of<L: Scanned>(letters: &[L], i: usize, j: usize) -> usize {
    let most = i.min(j - i + 1);
    let before = letters[i - most..i].iter().zip(&letters[j - most..j]);
    before.rev().take_while(|(&a, &b)| a.equals(b)).count()
}

/// The run with a Lyndon root at `i`, whose next smaller suffix in one of the orders is at `j` and shares
/// `m` letters with it. A run up to the string's end is left to the order of the letters.
fn run_at<L: Scanned>(letters: &[L], reversed: bool, i: usize, j: usize, m: usize) -> Option<Run> {
    let period = j - i;
    let left = left_of(letters, i, j);
    let is_run = left >= 1 && left <= period && left + m >= period;
    (is_run && !(reversed && j + m == letters.len())).then(|| Run {
        start: i - left,
        period,
        end: j + m,
    })
}

/// Puts all runs, in the order of the report, into the first entries of three tables, and returns their
/// number. `periods` is the next table before: its entries are read before they are overwritten, since
/// each position is the root of one run at the most.
fn gather<L: Scanned>(
    letters: &[L],
    starts: &mut [u32],
    ends: &mut [u32],
    periods: &mut [u32],
    next_match: &[u32],
    reverse_next: &[u32],
    reverse_match: &[u32],
) -> usize {
    // The lengths are known from here on, which saves tests of indices.
    let n = letters.len();
    let (starts, ends, periods) = (&mut starts[..n], &mut ends[..n], &mut periods[..n]);
    let (next_match, reverse_next) = (&next_match[..n], &reverse_next[..n]);
    let reverse_match = &reverse_match[..n];

    let mut count = 0;
    for i in 1..n {
        let (j, m) = (periods[i] as usize, next_match[i] as usize);
        let found = run_at(letters, false, i, j, m).or_else(|| {
            let (j, m) = (reverse_next[i] as usize, reverse_match[i] as usize);
            run_at(letters, true, i, j, m)
        });
        let Some(run) = found else { continue };
        let (start, period) = (run.start as u32, run.period as u32);
        let mut k = count;
        while k > 0 && (start, period) < (starts[k - 1], periods[k - 1]) {
            starts[k] = starts[k - 1];
            ends[k] = ends[k - 1];
            periods[k] = periods[k - 1];
            k -= 1;
        }
        starts[k] = start;
        ends[k] = run.end as u32;
        periods[k] = period;
        count += 1;
    }
    count
}

/// Reports all runs in the lists of starts, ends and periods, and returns their number, or the number of a
/// refusal. The work tables hold 0 afterwards, also after 13.
// The benchmark calls it, as it calls the library.
#[inline(never)]
pub fn report<L: Scanned>(
    letters: &[L],
    lists: [&mut [u32]; 3],
    work: [&mut [u32]; 6],
) -> Result<usize, u32> {
    let n = letters.len();
    let work_lengths = work.each_ref().map(|table| table.len());
    let list_lengths = lists.each_ref().map(|list| list.len());
    refusals::first(&refusals::of_runs(n, work_lengths, list_lengths, 0))?;

    let [previous, next, previous_match, next_match, reverse_next, reverse_match] = work;
    fast::tables::<false, L>(letters, previous, next, previous_match, next_match);
    fast::tables::<true, L>(
        letters,
        previous,
        reverse_next,
        previous_match,
        reverse_match,
    );
    // The previous entries are not needed any more.
    let (starts, ends, periods) = (previous, previous_match, next);
    let count = gather(
        letters,
        starts,
        ends,
        periods,
        next_match,
        reverse_next,
        reverse_match,
    );
    let fits = count <= lists[0].len();
    if fits {
        for (list, table) in lists.into_iter().zip([&*starts, &*ends, &*periods]) {
            let (found, beyond) = list.split_at_mut(count);
            found.copy_from_slice(&table[..count]);
            beyond.fill(0);
        }
    }
    for table in [
        starts,
        ends,
        periods,
        next_match,
        reverse_next,
        reverse_match,
    ] {
        table.fill(0);
    }
    if fits {
        Ok(count)
    } else {
        Err(13)
    }
}

/// All runs, in memory of its own. There are at most 1,000,000 letters.
pub fn runs<L: Scanned>(letters: &[L]) -> Vec<Run> {
    let n = letters.len();
    let mut lists = [0; 3].map(|zero| vec![zero; n]);
    let mut work = [0; 6].map(|zero| vec![zero; n]);
    let count = report(
        letters,
        lists.each_mut().map(Vec::as_mut_slice),
        work.each_mut().map(Vec::as_mut_slice),
    )
    .expect("at most 1,000,000 letters");
    let [starts, ends, periods] = lists;
    (0..count)
        .map(|k| Run {
            start: starts[k] as usize,
            period: periods[k] as usize,
            end: ends[k] as usize,
        })
        .collect()
}

#[cfg(test)]
mod tests {
    use super::*;
    use crate::runs::{by_definition, by_periods, lists};
    use crate::samples::{self, Random};

    #[test]
    fn runs_are_as_defined_for_every_small_string() {
        for n in 0..=8 {
            let strings = samples::strings_over(b"abc", n);
            for letters in strings.chain(samples::strings_over(b"aAb_", n)) {
                assert_eq!(runs(&letters), by_definition(&letters));
            }
        }
    }

    #[test]
    fn runs_are_as_found_period_by_period() {
        let mut random = Random::new(6);
        for n in [100, 1_000, 3_000] {
            let kinds = samples::kinds(&mut random, n).into_iter();
            for (kind, letters) in kinds.chain(samples::bases(&mut random, n)) {
                assert_eq!(runs(&letters), by_periods(&letters), "{kind}");
            }
        }
    }

    #[test]
    fn runs_of_symbols_are_as_defined() {
        for n in 0..=7 {
            for symbols in samples::strings_over(&samples::THREE_SYMBOLS, n) {
                assert_eq!(runs(&symbols), by_definition(&symbols));
            }
        }
        for (kind, symbols) in samples::symbol_kinds(&mut Random::new(8), 1_000) {
            assert_eq!(runs(&symbols), by_periods(&symbols), "{kind}");
        }
    }

    #[test]
    fn refusals_are_returned_and_work_tables_cleared() {
        let letters = b"aabaabab";
        let expected = by_definition(letters);
        assert_eq!(expected.len(), 4);
        for entries in 0..6 {
            let mut given = [9; 3].map(|nine| vec![nine; entries]);
            let mut work = [9; 6].map(|nine| vec![nine; 8]);
            let answer = report(
                letters,
                given.each_mut().map(Vec::as_mut_slice),
                work.each_mut().map(Vec::as_mut_slice),
            );
            assert_eq!(work, [0; 6].map(|zero| vec![zero; 8]));
            if entries < 4 {
                assert_eq!(answer, Err(13));
                assert_eq!(given, [9; 3].map(|nine| vec![nine; entries]));
            } else {
                assert_eq!(answer, Ok(4));
                assert_eq!(given, lists(&expected, entries));
            }
        }
        let mut short = [9; 7];
        let [a, b, c, d, e] = &mut [[9; 8]; 5];
        let answer = report(
            letters,
            [&mut [], &mut [], &mut [9]],
            [a, b, c, d, e, &mut short],
        );
        assert_eq!((answer, short), (Err(2), [9; 7]));
        let [a, b, c, d, e, f] = &mut [[9; 8]; 6];
        let answer = report(letters, [&mut [], &mut [], &mut [9]], [a, b, c, d, e, f]);
        assert_eq!((answer, *f), (Err(12), [9; 8]));
    }
}
