//! Random numbers, strings and trees, the same in every run.

use crate::refusals;

/// Marsaglia's xorshift generator with 64 bits of state.
#[derive(Debug, Clone)]
pub struct Random(u64);

impl Random {
    /// A generator with a seed other than 0.
    pub fn new(seed: u64) -> Random {
        assert_ne!(seed, 0, "the state 0 never changes");
        Random(seed)
    }

    /// The next number.
    pub fn number(&mut self) -> u64 {
        self.0 ^= self.0 << 13;
        self.0 ^= self.0 >> 7;
        self.0 ^= self.0 << 17;
        self.0
    }

    /// A number below `bound`.
    pub fn below(&mut self, bound: usize) -> usize {
        // The high bits of the state are the better ones.
        ((u128::from(self.number()) * bound as u128) >> 64) as usize
    }
}

/// Every string of `n` letters of the alphabet.
pub fn strings_over<L: Copy>(alphabet: &[L], n: usize) -> impl Iterator<Item = Vec<L>> + '_ {
    let base = alphabet.len();
    (0..base.pow(n as u32)).map(move |index| {
        let digits = std::iter::successors(Some(index), move |&rest| Some(rest / base));
        digits.take(n).map(|rest| alphabet[rest % base]).collect()
    })
}

/// `n` random letters out of the first `size` byte values.
pub fn random_string(random: &mut Random, n: usize, size: usize) -> Vec<u8> {
    (0..n).map(|_| random.below(size) as u8).collect()
}

/// The first `n` letters of a word repeated without end.
pub fn repeated<L: Copy>(word: &[L], n: usize) -> Vec<L> {
    word.iter().copied().cycle().take(n).collect()
}

/// The first `n` letters of the Fibonacci word abaababa...
pub fn fibonacci(n: usize) -> Vec<u8> {
    let (mut shorter, mut longer) = (b"a".to_vec(), b"ab".to_vec());
    while longer.len() < n {
        let sum = [longer.as_slice(), &shorter].concat();
        shorter = std::mem::replace(&mut longer, sum);
    }
    longer.truncate(n);
    longer
}

/// The first `n` letters of the Thue-Morse word abbabaab...
pub fn thue_morse(n: usize) -> Vec<u8> {
    (0..n).map(|i| b'a' + (i.count_ones() % 2) as u8).collect()
}

/// The first `n` letters of the period-doubling word abaaabab...
pub fn period_doubling(n: usize) -> Vec<u8> {
    let letter = |i: usize| b'a' + (i.trailing_zeros() % 2) as u8;
    (1..=n).map(letter).collect()
}

/// The first `n` letters of abacabad..., in which the letter at i tells how often 2 divides i + 1.
pub fn ruler(n: usize) -> Vec<u8> {
    (1..=n).map(|i| b'a' + i.trailing_zeros() as u8).collect()
}

/// The first `n` letters of the words a, aab, aabaabb and so on, each of which is the one before twice and
/// then b.
pub fn squares(n: usize) -> Vec<u8> {
    let mut word = b"a".to_vec();
    while word.len() < n {
        word = [&word[..], &word, b"b"].concat();
    }
    word.truncate(n);
    word
}

/// `n` random letters of 256 with random words in them, each repeated at once; and of each of these
/// stretches its start, its end and the length of its word. A word has the letter 0 once, so that it is no
/// repeat itself.
pub fn planted(random: &mut Random, n: usize) -> (Vec<u8>, Vec<[usize; 3]>) {
    let mut letters = random_string(random, n, 256);
    let mut stretches = Vec::new();
    let mut free = 0;
    loop {
        let period = 1 + random.below(200);
        let start = free + random.below(1000);
        let end = start + 2 * period + random.below(3 * period);
        if end > n {
            return (letters, stretches);
        }
        let mut word: Vec<u8> = (0..period).map(|_| 1 + random.below(255) as u8).collect();
        word[0] = 0;
        letters[start..end].copy_from_slice(&repeated(&word, end - start));
        stretches.push([start, end, period]);
        free = end;
    }
}

/// Named strings of `n` letters of different kinds.
pub fn kinds(random: &mut Random, n: usize) -> Vec<(&'static str, Vec<u8>)> {
    let word = random_string(random, 1000, 4);
    let mut damaged = repeated(b"abaab", n);
    for _ in 0..n / 1000 {
        damaged[random.below(n)] = b'a' + random.below(3) as u8;
    }
    vec![
        ("random, 2 letters", random_string(random, n, 2)),
        ("random, 4 letters", random_string(random, n, 4)),
        ("random, 256 letters", random_string(random, n, 256)),
        ("one letter", repeated(b"a", n)),
        ("a word of 7 letters repeated", repeated(b"gattaca", n)),
        ("a word of 1,000 letters repeated", repeated(&word, n)),
        ("a word repeated, some letters changed", damaged),
        ("Fibonacci", fibonacci(n)),
        ("Thue-Morse", thue_morse(n)),
    ]
}

/// Symbols of 32 bits: the numbers of a and A, which are two symbols, and one that agrees with the second in
/// all bits but the highest.
pub const THREE_SYMBOLS: [u32; 3] = [97, 65, 65 + (1 << 31)];

/// Bytes as symbols of 32 bits with the same values.
pub fn widened(letters: &[u8]) -> Vec<u32> {
    letters.iter().copied().map(u32::from).collect()
}

/// The letters a, b, c and d as symbols of 32 bits in the same order. They differ in the two highest bits
/// alone, so that c and d come first where a symbol is taken as signed.
pub fn spread(letters: &[u8]) -> Vec<u32> {
    let symbol = |&letter: &u8| u32::from(letter - b'a') << 30;
    letters.iter().map(symbol).collect()
}

/// Named sequences of `n` symbols of 32 bits of different kinds.
pub fn symbol_kinds(random: &mut Random, n: usize) -> Vec<(&'static str, Vec<u32>)> {
    let few: Vec<u8> = (0..n).map(|_| b"abcd"[random.below(4)]).collect();
    let any = (0..n).map(|_| (random.number() >> 32) as u32).collect();
    vec![
        ("random, 4 symbols", spread(&few)),
        ("random, all symbols", any),
        ("one symbol", repeated(&[u32::MAX], n)),
        (
            "a word of 7 symbols repeated",
            spread(&repeated(b"caddaba", n)),
        ),
        ("Fibonacci", spread(&fibonacci(n))),
    ]
}

/// The same letters, each small or a capital at random.
pub fn in_random_case(random: &mut Random, letters: &[u8]) -> Vec<u8> {
    let masked = |letter: &u8| match random.below(2) {
        0 => letter.to_ascii_uppercase(),
        _ => letter.to_ascii_lowercase(),
    };
    letters.iter().map(masked).collect()
}

/// A word of at most 20 letters, of at most three that stand first in the alphabet, repeated in at most 2,000,
/// each small or a capital at random: so it repeats further by its letters than by its bytes.
pub fn word_repeated_in_random_case(random: &mut Random) -> Vec<u8> {
    let n = 1 + random.below(2_000);
    let (length, size) = (1 + random.below(20), 1 + random.below(3));
    let word: Vec<u8> = (0..length)
        .map(|_| b'a' + random.below(size) as u8)
        .collect();
    in_random_case(random, &repeated(&word, n))
}

/// The same letters, in turn some hundred of them as capitals and some hundred small, as a genome has them
/// whose repeats are masked.
pub fn in_blocks(random: &mut Random, letters: &[u8]) -> Vec<u8> {
    let mut masked = letters.to_ascii_uppercase();
    let mut start = 0;
    loop {
        start += 100 + random.below(800);
        let end = start + 100 + random.below(800);
        let Some(block) = masked.get_mut(start..end) else {
            return masked;
        };
        block.make_ascii_lowercase();
        start = end;
    }
}

/// Named strings of `n` random bases, the letters A, C, G and T, with and without masked ones.
pub fn bases(random: &mut Random, n: usize) -> Vec<(&'static str, Vec<u8>)> {
    let capitals: Vec<u8> = (0..n).map(|_| b"ACGT"[random.below(4)]).collect();
    let in_blocks = in_blocks(random, &capitals);
    let in_random_case = in_random_case(random, &capitals);
    vec![
        ("bases, capitals", capitals),
        ("bases, mixed case in blocks", in_blocks),
        ("bases, mixed case at random", in_random_case),
    ]
}

/// Every balanced tree of `n` positions, `n` below 32.
pub fn balanced_trees(n: usize) -> impl Iterator<Item = Vec<u8>> {
    let bytes = move |bits: u64| bits.to_le_bytes()[..n.div_ceil(4)].to_vec();
    let trees = (0..1 << (2 * n)).map(bytes);
    trees.filter(move |tree| refusals::of_reading(n, tree, [n, n]).is_empty())
}

/// A random balanced tree of `n` positions. Where both brackets are possible, it opens with a
/// probability of `openings` in 10.
pub fn random_tree(random: &mut Random, n: usize, openings: usize) -> Vec<u8> {
    let mut tree = vec![0; n.div_ceil(4)];
    let (mut opened, mut closed) = (0, 0);
    for k in 0..2 * n {
        let open = opened < n && (opened == closed || random.below(10) < openings);
        if open {
            tree[k / 8] |= 1 << (k % 8);
            opened += 1;
        } else {
            closed += 1;
        }
    }
    tree
}

/// The tree of `n` positions, `n` at least 1, in which 0 is around all others and each of these is
/// closed at once.
pub fn one_root_over_leaves(n: usize) -> Vec<u8> {
    let mut tree = vec![0b1010_1010; n.div_ceil(4)];
    tree[0] |= 1;
    let last = 2 * n - 1;
    tree[last / 8] &= (1 << (last % 8)) - 1;
    tree
}

#[cfg(test)]
mod tests {
    use super::*;

    #[test]
    fn strings_are_as_named() {
        let two: Vec<_> = strings_over(b"ab", 2).collect();
        assert_eq!(two, [b"aa", b"ba", b"ab", b"bb"]);
        assert_eq!(strings_over(b"abc", 0).count(), 1);
        assert_eq!(repeated(b"abc", 7), b"abcabca");
        assert_eq!(fibonacci(13), b"abaababaabaab");
        assert_eq!(fibonacci(1), b"a");
        assert_eq!(thue_morse(8), b"abbabaab");
        assert_eq!(period_doubling(8), b"abaaabab");
        assert_eq!(ruler(9), b"abacabada");
        assert_eq!(squares(9), b"aabaabbaa");
        assert_eq!(spread(b"abcd"), [0, 1 << 30, 2 << 30, 3 << 30]);
        assert_eq!(one_root_over_leaves(1), [0b01]);
        assert_eq!(one_root_over_leaves(4), [0b0010_1011]);
        assert_eq!(one_root_over_leaves(5), [0b1010_1011, 0b00]);
    }

    #[test]
    fn masked_letters_are_the_same_but_for_their_case() {
        let mut random = Random::new(1);
        let every_byte: Vec<u8> = (0..=255).cycle().take(5_000).collect();
        for masked in [
            in_random_case(&mut random, &every_byte),
            in_blocks(&mut random, &every_byte),
        ] {
            assert!(masked.eq_ignore_ascii_case(&every_byte));
            assert!(masked.iter().any(u8::is_ascii_lowercase));
            assert!(masked.iter().any(u8::is_ascii_uppercase));
        }
        let [capitals, in_blocks, at_random] = &bases(&mut random, 5_000)[..] else {
            panic!("three strings");
        };
        assert!(capitals.1.iter().all(|letter| b"ACGT".contains(letter)));
        let changes = |letters: &[u8]| {
            let pairs = letters.windows(2);
            let changes =
                pairs.filter(|pair| pair[0].is_ascii_lowercase() != pair[1].is_ascii_lowercase());
            changes.count()
        };
        assert_eq!(changes(&capitals.1), 0);
        assert!((5..50).contains(&changes(&in_blocks.1)));
        assert!(changes(&at_random.1) > 2_000);
    }

    #[test]
    fn planted_stretches_repeat() {
        let (letters, stretches) = planted(&mut Random::new(1), 5_000);
        assert!(stretches.len() > 1, "some are planted");
        for [start, end, period] in stretches {
            assert!(end - start >= 2 * period);
            let stretch = &letters[start..end];
            assert_eq!(stretch[period..], stretch[..end - start - period]);
        }
    }

    #[test]
    fn balanced_trees_are_as_many_as_the_catalan_numbers() {
        let three: Vec<_> = balanced_trees(3).collect();
        assert_eq!(
            three,
            [[0b000111], [0b001011], [0b001101], [0b010011], [0b010101]]
        );
        let catalan_numbers = [1, 1, 2, 5, 14, 42, 132, 429, 1430, 4862];
        for (n, number) in catalan_numbers.into_iter().enumerate() {
            assert_eq!(balanced_trees(n).count(), number, "trees of {n} positions");
        }
    }

    #[test]
    fn random_trees_are_balanced() {
        let mut random = Random::new(1);
        for n in 0..50 {
            for openings in 0..=10 {
                let tree = random_tree(&mut random, n, openings);
                assert_eq!(refusals::of_reading(n, &tree, [n, n]), []);
            }
        }
    }
}
