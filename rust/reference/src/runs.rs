//! The runs of a string: document 02, T-03. Written twice: by the definition, and period by period. Letters
//! are equal where their ranks are.

use std::collections::HashSet;

use crate::ranks::{same, Letter};

/// A run. The order is that of the report: by start and then by period.
#[derive(Debug, Clone, Copy, PartialEq, Eq, PartialOrd, Ord)]
pub struct Run {
    /// The position of its first letter.
    pub start: usize,
    /// Its least period.
    pub period: usize,
    /// The position behind its last letter.
    pub end: usize,
}

/// Whether letters `period` apart are equal inside `part`.
fn goes_on<L: Letter>(part: &[L], period: usize) -> bool {
    (period..part.len()).all(|k| same(part[k - period], part[k]))
}

/// "A run is a start, an end (exclusive) and a period p ≥ 1, with length at least 2 × p. Letters p apart
/// inside it are equal, p is its least period, and neither end can be moved out by one letter with p
/// kept."
pub fn is_run<L: Letter>(letters: &[L], run: Run) -> bool {
    let Run { start, period, end } = run;
    let n = letters.len();
    let inside = start <= end && end <= n;
    inside
        && period >= 1
        && end - start >= 2 * period
        && goes_on(&letters[start..end], period)
        && !(1..period).any(|shorter| goes_on(&letters[start..end], shorter))
        && !(start > 0 && goes_on(&letters[start - 1..end], period))
        && !(end < n && goes_on(&letters[start..end + 1], period))
}

/// "The report lists every run of a string once, by start and then by period": each start, period and end
/// is tried.
pub fn by_definition<L: Letter>(letters: &[L]) -> Vec<Run> {
    let n = letters.len();
    let mut runs = Vec::new();
    for start in 0..n {
        for period in 1..=n {
            let ends = (start..=n).map(|end| Run { start, period, end });
            runs.extend(ends.filter(|&run| is_run(letters, run)));
        }
    }
    runs
}

/// The same report, period by period from the shortest, in a number of steps that grows with the square
/// of n.
///
/// A stretch of letters that goes on with a period as far as it can, and has it twice or more, is a run,
/// unless the same stretch was found with a shorter period. (With both periods, and at least as many
/// letters as both together, it has their greatest common divisor as a period, and goes on no farther
/// with that.)
pub fn by_periods<L: Letter>(letters: &[L]) -> Vec<Run> {
    let n = letters.len();
    let mut stretches = HashSet::new();
    let mut runs = Vec::new();
    for period in 1..=n / 2 {
        let mut start = 0;
        for k in 0..=n - period {
            if k < n - period && same(letters[k], letters[k + period]) {
                continue;
            }
            let end = k + period;
            if end - start >= 2 * period && stretches.insert((start, end)) {
                runs.push(Run { start, period, end });
            }
            start = k + 1;
        }
    }
    runs.sort_unstable();
    runs
}

/// The lists of starts, ends and periods with so many entries, "Entries beyond the number are 0". There
/// are at least as many entries as runs.
pub fn lists(runs: &[Run], entries: usize) -> [Vec<u32>; 3] {
    let mut lists = [0; 3].map(|zero| vec![zero; entries]);
    for (k, run) in runs.iter().enumerate() {
        let members = [run.start, run.end, run.period];
        for (list, member) in lists.iter_mut().zip(members) {
            list[k] = member as u32;
        }
    }
    lists
}

#[cfg(test)]
mod tests {
    use super::*;
    use crate::samples::{self, Random};

    fn members(runs: &[Run]) -> Vec<[usize; 3]> {
        let members = runs.iter().map(|run| [run.start, run.end, run.period]);
        members.collect()
    }

    #[test]
    fn runs_of_words() {
        assert_eq!(members(&by_definition(b"banana")), [[1, 6, 2]]);
        assert_eq!(members(&by_definition(b"aaaa")), [[0, 4, 1]]);
        assert_eq!(members(&by_definition(b"abcb")), [[0; 3]; 0]);
        let mississippi = [[1, 8, 3], [2, 4, 1], [5, 7, 1], [8, 10, 1]];
        assert_eq!(members(&by_definition(b"mississippi")), mississippi);
        assert_eq!(members(&by_definition(b"MiSsisSIppI")), mississippi);
    }

    #[test]
    fn period_by_period_as_defined() {
        for n in 0..=8 {
            let strings = samples::strings_over(b"abc", n);
            for letters in strings.chain(samples::strings_over(b"aAb", n)) {
                assert_eq!(by_periods(&letters), by_definition(&letters));
            }
        }
        let mut random = Random::new(5);
        let kinds = samples::kinds(&mut random, 60).into_iter();
        for (_, letters) in kinds.chain(samples::bases(&mut random, 60)) {
            assert_eq!(by_periods(&letters), by_definition(&letters));
        }
    }

    #[test]
    fn lists_end_in_zeros() {
        let runs = by_definition(b"mississippi");
        let expected = [[1, 2, 5, 8, 0], [8, 4, 7, 10, 0], [3, 1, 1, 1, 0]];
        assert_eq!(lists(&runs, 5), expected.map(Vec::from));
    }
}
