//! The order of letters, of one byte and of 32 bits: document 02, T-04 and T-07, which amend document 01's.

use std::fmt::Debug;

/// What a string is made of: bytes, or symbols of 32 bits.
pub trait Letter: Copy + Ord + Debug {
    /// The number by which the letter compares.
    fn rank(self) -> Self;
}

impl Letter for u8 {
    /// "From here on bytes 97 to 122 compare as 65 to 90; all other bytes keep their value."
    #[inline]
    fn rank(self) -> u8 {
        match self {
            97..=122 => 65 + (self - 97),
            _ => self,
        }
    }
}

impl Letter for u32 {
    /// "Symbols compare as numbers, with no masking."
    #[inline]
    fn rank(self) -> u32 {
        self
    }
}

/// The ranks of the letters, in their order.
pub fn ranks<L: Letter>(
    letters: &[L],
) -> impl DoubleEndedIterator<Item = L> + ExactSizeIterator + '_ {
    letters.iter().map(|&letter| letter.rank())
}

/// Whether two letters are equal, which is to say that their ranks are.
pub fn same<L: Letter>(left: L, right: L) -> bool {
    left.rank() == right.rank()
}

#[cfg(test)]
mod tests {
    use super::*;

    #[test]
    fn small_letters_have_the_ranks_of_capitals_and_all_others_their_value() {
        for letter in 0..=255_u8 {
            assert_eq!(letter.rank(), letter.to_ascii_uppercase());
        }
        assert_eq!([96, 97, 122, 123].map(u8::rank), [96, 65, 90, 123]);
        assert!(ranks(b"aZ[z{").eq(*b"AZ[Z{"));
        assert!(same(b'a', b'A') && !same(b'a', b'b') && !same(b'[', b'{'));
    }

    #[test]
    fn symbols_have_their_value() {
        let symbols = [0, 65, 97, 122, 255, 256, 0x7fff_ffff, 0x8000_0000, u32::MAX];
        assert!(ranks(&symbols).eq(symbols));
        assert!(ranks(&symbols).is_sorted_by(|left, right| left < right));
        assert!(same(97_u32, 97) && !same(97_u32, 65) && !same(0, 256_u32));
    }
}
