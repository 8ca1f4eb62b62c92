//! A plain Rust build by the same reuse steps, in either order, the check of a claimed next table, and the
//! longest Lyndon word, usable at 1,000,000 letters. The benchmark compares the library with this code.

use crate::ranks::Letter;
use crate::{refusals, Figures, Structure, Tables};

/// A letter as a scan compares it with another.
pub trait Scanned: Letter {
    /// Whether the two have the same rank.
    fn equals(self, other: Self) -> bool;
}

impl Scanned for u8 {
    /// Most that have the same rank are the same byte; a small letter and its capital differ in the bit of
    /// weight 32 alone.
    #[inline]
    fn equals(self, other: u8) -> bool {
        self == other || (self ^ other == 32 && (self | 32).is_ascii_lowercase())
    }
}

impl Scanned for u32 {
    #[inline]
    fn equals(self, other: u32) -> bool {
        self == other
    }
}

/// The latest scanned pair: how far it reaches and how far apart its positions are. And the comparisons
/// so far that found two letters equal, and unequal.
struct Window {
    reach: usize,
    shift: usize,
    equal: usize,
    unequal: usize,
}

impl Window {
    /// Compares the suffixes at `l` and `r` from their letter `m` on. Returns their match, and whether
    /// the suffix at `l` is the smaller.
    fn scan<const REVERSED: bool, L: Scanned>(
        &mut self,
        letters: &[L],
        l: usize,
        r: usize,
        mut m: usize,
    ) -> (usize, bool) {
        let mut left_is_smaller = false;
        while r + m < letters.len() {
            let (left, right) = (letters[l + m], letters[r + m]);
            if !left.equals(right) {
                self.unequal += 1;
                left_is_smaller = (left.rank() < right.rank()) != REVERSED;
                break;
            }
            self.equal += 1;
            m += 1;
        }
        self.reach = r + m;
        self.shift = r - l;
        (m, left_is_smaller)
    }
}

/// The first `rows` rows, in the order of the letters or in its reverse. `open` is called with the bit
/// place of each row's opening.
fn settle_rows<const REVERSED: bool, L: Scanned>(
    letters: &[L],
    rows: usize,
    previous: &mut [u32],
    next: &mut [u32],
    previous_match: &mut [u32],
    next_match: &mut [u32],
    mut open: impl FnMut(usize),
) -> Window {
    let n = letters.len();
    // The lengths are known from here on, which saves tests of indices.
    let (previous, next) = (&mut previous[..n], &mut next[..n]);
    let (previous_match, next_match) = (&mut previous_match[..n], &mut next_match[..n]);

    let none = n as u32;
    let mut bit = 0;
    let mut window = Window {
        reach: rows.min(1),
        shift: 0,
        equal: 0,
        unequal: 0,
    };
    for r in 0..rows {
        let (place, matched) = if r == 0 {
            (none, 0)
        } else {
            let mut l = r - 1;
            let mut m = 0;
            'row: loop {
                let mut settled = None;
                if r + m < window.reach {
                    let (i, j) = (l - window.shift, r - window.shift);
                    let (v, left_is_smaller) = if next[i] as usize == j {
                        (next_match[i] as usize, false)
                    } else {
                        (previous_match[j] as usize, true)
                    };
                    if r + v < window.reach {
                        settled = Some((v, left_is_smaller));
                    } else {
                        m = window.reach - r;
                    }
                }
                let (matched, left_is_smaller) = match settled {
                    Some(settled) => settled,
                    None => window.scan::<REVERSED, L>(letters, l, r, m),
                };
                m = matched;
                if left_is_smaller {
                    break (l as u32, m as u32);
                }
                loop {
                    next[l] = r as u32;
                    next_match[l] = m as u32;
                    bit += 1; // a closing
                    let p = previous[l];
                    if p == none {
                        break 'row (none, 0);
                    }
                    let p_match = previous_match[l];
                    if (p_match as usize) < m {
                        break 'row (p, p_match);
                    }
                    l = p as usize;
                    if p_match as usize == m {
                        break;
                    }
                }
            }
        };
        previous[r] = place;
        previous_match[r] = matched;
        next[r] = none;
        next_match[r] = 0;
        open(bit);
        bit += 1;
    }
    window
}

/// The four tables of all letters, in the order of the letters or in its reverse, over tables of n
/// entries each.
pub fn tables<const REVERSED: bool, L: Scanned>(
    letters: &[L],
    previous: &mut [u32],
    next: &mut [u32],
    previous_match: &mut [u32],
    next_match: &mut [u32],
) {
    let rows = letters.len();
    settle_rows::<REVERSED, L>(
        letters,
        rows,
        previous,
        next,
        previous_match,
        next_match,
        |_| (),
    );
}

/// Builds the first `rows` rows into lent memory, or returns the number of a refusal.
pub fn build<L: Scanned>(
    letters: &[L],
    rows: usize,
    previous: &mut [u32],
    next: &mut [u32],
    previous_match: &mut [u32],
    next_match: &mut [u32],
    tree: &mut [u8],
) -> Result<Figures, u32> {
    let n = letters.len();
    let lengths = [
        previous.len(),
        next.len(),
        previous_match.len(),
        next_match.len(),
    ];
    refusals::first(&refusals::of_build(n, lengths, tree.len(), rows))?;

    tree.fill(0);
    let window = settle_rows::<false, L>(
        letters,
        rows,
        previous,
        next,
        previous_match,
        next_match,
        |bit| tree[bit / 8] |= 1 << (bit % 8),
    );
    let none = n as u32;
    previous[rows..].fill(none);
    next[rows..].fill(none);
    previous_match[rows..].fill(0);
    next_match[rows..].fill(0);

    Ok(Figures {
        finished: rows == n,
        rows,
        equal: window.equal,
        unequal: window.unequal,
        reach: window.reach,
    })
}

/// The least position whose entry in a claimed next table is wrong, none where the table is right, with the
/// four tables of all letters; or the number of a refusal, with the tables as they were.
pub fn check<L: Scanned>(
    letters: &[L],
    claimed: &[u32],
    previous: &mut [u32],
    next: &mut [u32],
    previous_match: &mut [u32],
    next_match: &mut [u32],
) -> Result<Option<usize>, u32> {
    let work = [
        previous.len(),
        next.len(),
        previous_match.len(),
        next_match.len(),
    ];
    refusals::first(&refusals::of_check(letters.len(), claimed.len(), work))?;
    tables::<false, L>(letters, previous, next, previous_match, next_match);
    Ok(claimed.iter().zip(&*next).position(|(a, b)| a != b))
}

/// The whole answer of a build of `rows` rows, `rows` at most n, in memory of its own.
pub fn structure<L: Scanned>(letters: &[L], rows: usize) -> Structure {
    let n = letters.len();
    let [mut previous, mut next, mut previous_match, mut next_match] =
        std::array::from_fn(|_| vec![0; n]);
    let mut tree = vec![0; n.div_ceil(4)];
    let figures = build(
        letters,
        rows,
        &mut previous,
        &mut next,
        &mut previous_match,
        &mut next_match,
        &mut tree,
    )
    .expect("at most 1,000,000 letters, and no more rows than letters");
    Structure {
        figures,
        tables: Tables {
            previous,
            next,
            previous_match,
            next_match,
        },
        tree,
    }
}

/// The longest Lyndon word that starts at `position`, `position` below n: the first word of Duval's
/// factorization of the suffix.
pub fn longest_word<L: Scanned>(letters: &[L], position: usize) -> &[L] {
    let suffix = &letters[position..];
    let mut period = 1;
    for end in 1..suffix.len() {
        let (before, letter) = (suffix[end - period], suffix[end]);
        if before.equals(letter) {
            continue;
        }
        if before.rank() > letter.rank() {
            break;
        }
        period = end + 1;
    }
    &suffix[..period]
}

#[cfg(test)]
mod tests {
    use super::*;
    use crate::definitions;
    use crate::samples::{self, Random};

    #[test]
    fn letters_are_equal_where_their_ranks_are() {
        for left in 0..=255_u8 {
            for right in 0..=255 {
                assert_eq!(left.equals(right), left.rank() == right.rank());
            }
        }
    }

    #[test]
    fn a_build_is_as_defined_for_every_small_string_and_every_row() {
        for n in 0..=7 {
            let strings = samples::strings_over(b"abc", n);
            for letters in strings.chain(samples::strings_over(b"aAb_", n)) {
                for rows in 0..=n {
                    assert_eq!(
                        structure(&letters, rows),
                        definitions::build(&letters, rows)
                    );
                }
            }
        }
    }

    #[test]
    fn a_build_is_as_defined_for_longer_strings() {
        let mut random = Random::new(2);
        for n in [30, 61, 100] {
            let mut strings = vec![
                samples::random_string(&mut random, n, 2),
                samples::random_string(&mut random, n, 256),
                samples::repeated(b"a", n),
                samples::repeated(b"abaab", n),
                samples::fibonacci(n),
                samples::thue_morse(n),
            ];
            let bases = samples::bases(&mut random, n).into_iter();
            strings.extend(bases.map(|(_, letters)| letters));
            for letters in &strings {
                for rows in [random.below(n), n] {
                    assert_eq!(structure(letters, rows), definitions::build(letters, rows));
                }
            }
        }
    }

    #[test]
    fn longest_words_are_as_defined() {
        for n in 1..=7 {
            let strings = samples::strings_over(b"abc", n);
            for letters in strings.chain(samples::strings_over(b"aAb_", n)) {
                for i in 0..n {
                    let word = longest_word(&letters, i);
                    assert_eq!(word, definitions::longest_word(&letters, i));
                }
            }
        }
    }

    #[test]
    fn refusals_are_returned() {
        let [mut a, mut b, mut c, mut d] = [[7; 2]; 4];
        assert_eq!(
            build(b"ab", 3, &mut a, &mut b, &mut c, &mut d, &mut [7]),
            Err(4)
        );
        assert_eq!(
            build(b"ab", 3, &mut a, &mut b, &mut c, &mut d, &mut [7; 2]),
            Err(3)
        );
        assert_eq!(
            build(b"abc", 3, &mut a, &mut b, &mut c, &mut d, &mut [7]),
            Err(2)
        );
        assert_eq!([a, b, c, d], [[7; 2]; 4]);
    }

    #[test]
    fn symbols_are_answered_as_defined() {
        for n in 0..=6 {
            for symbols in samples::strings_over(&samples::THREE_SYMBOLS, n) {
                for rows in 0..=n {
                    let expected = definitions::build(&symbols, rows);
                    assert_eq!(structure(&symbols, rows), expected);
                }
                for i in 0..n {
                    let word = longest_word(&symbols, i);
                    assert_eq!(word, definitions::longest_word(&symbols, i));
                }
            }
        }
        for (kind, symbols) in samples::symbol_kinds(&mut Random::new(7), 100) {
            for rows in [60, 100] {
                let expected = definitions::build(&symbols, rows);
                assert_eq!(structure(&symbols, rows), expected, "{kind}");
            }
        }
    }
}
