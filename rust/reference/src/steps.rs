//! The reuse steps of document 01, written step by step. Letters compare by their ranks.

use crate::ranks::Letter;
use crate::Tables;

/// What the steps have written, and what they count.
#[derive(Debug, Clone)]
pub struct Steps {
    previous: Vec<Option<usize>>,
    next: Vec<Option<usize>>,
    previous_match: Vec<usize>,
    next_match: Vec<usize>,
    /// c
    pub reach: usize,
    /// d
    pub shift: usize,
    /// The comparisons of two letters that find them equal.
    pub equal: usize,
    /// The comparisons of two letters that find them unequal.
    pub unequal: usize,
}

/// A settled pair (l, r).
struct Settled {
    matched: usize,
    left_is_smaller: bool,
}

/// Runs rows 0 to `rows` - 1, `rows` at most n.
pub fn run<L: Letter>(letters: &[L], rows: usize) -> Steps {
    let n = letters.len();
    let mut steps = Steps {
        previous: vec![None; n],
        next: vec![None; n],
        previous_match: vec![0; n],
        next_match: vec![0; n],
        reach: 0,
        shift: 0,
        equal: 0,
        unequal: 0,
    };
    if rows > 0 {
        // Row 0.
        steps.reach = 1;
        steps.shift = 0;
    }
    for r in 1..rows {
        steps.row(letters, r);
    }
    steps
}

impl Steps {
    /// The four tables as the steps have written them.
    pub fn tables(&self) -> Tables {
        let n = self.previous.len();
        let places =
            |table: &[Option<usize>]| table.iter().map(|e| e.unwrap_or(n) as u32).collect();
        let matches = |table: &[usize]| table.iter().map(|&m| m as u32).collect();
        Tables {
            previous: places(&self.previous),
            next: places(&self.next),
            previous_match: matches(&self.previous_match),
            next_match: matches(&self.next_match),
        }
    }

    fn row<L: Letter>(&mut self, letters: &[L], r: usize) {
        let mut l = r - 1;
        let mut settled = self.settle(letters, l, r, 0);
        loop {
            // Step 3, after a pair is settled.
            let m = settled.matched;
            if settled.left_is_smaller {
                self.previous[r] = Some(l);
                self.previous_match[r] = m;
                return;
            }
            let mut k = l;
            l = loop {
                self.next[k] = Some(r);
                self.next_match[k] = m;
                let Some(p) = self.previous[k] else {
                    return;
                };
                // Step 4.
                if self.previous_match[k] < m {
                    self.previous[r] = Some(p);
                    self.previous_match[r] = self.previous_match[k];
                    return;
                }
                if self.previous_match[k] == m {
                    break p;
                }
                k = p;
            };
            settled = self.settle(letters, l, r, m);
        }
    }

    /// Steps 1 and 2.
    fn settle<L: Letter>(&mut self, letters: &[L], l: usize, r: usize, m: usize) -> Settled {
        let (c, d) = (self.reach, self.shift);
        if r + m >= c {
            return self.scan(letters, l, r, m);
        }
        let (v, left_is_smaller) = if self.next[l - d] == Some(r - d) {
            (self.next_match[l - d], false)
        } else {
            assert_eq!(self.previous[r - d], Some(l - d), "the pair is recorded");
            (self.previous_match[r - d], true)
        };
        if r + v < c {
            Settled {
                matched: v,
                left_is_smaller,
            }
        } else {
            self.scan(letters, l, r, c - r)
        }
    }

    /// The scan of step 1.
    fn scan<L: Letter>(&mut self, letters: &[L], l: usize, r: usize, mut m: usize) -> Settled {
        let mut left_is_smaller = false;
        while r + m < letters.len() {
            let (left, right) = (letters[l + m].rank(), letters[r + m].rank());
            if left != right {
                self.unequal += 1;
                left_is_smaller = left < right;
                break;
            }
            self.equal += 1;
            m += 1;
        }
        self.reach = r + m;
        self.shift = r - l;
        Settled {
            matched: m,
            left_is_smaller,
        }
    }
}

#[cfg(test)]
mod tests {
    use super::*;
    use crate::definitions;
    use crate::samples::{strings_over, THREE_SYMBOLS};

    fn check_every_string<L: Letter>(alphabet: &[L], longest: usize) {
        for n in 0..=longest {
            for letters in strings_over(alphabet, n) {
                for rows in 0..=n {
                    let steps = run(&letters, rows);
                    assert_eq!(steps.tables(), definitions::tables(&letters, rows));
                    assert_eq!(steps.reach, definitions::reach(&letters, rows));
                }
            }
        }
    }

    #[test]
    fn the_steps_write_the_defined_tables_and_reach() {
        check_every_string(b"aAb_", 7);
        check_every_string(&THREE_SYMBOLS, 6);
    }
}
