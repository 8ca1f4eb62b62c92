//! A cabinet file as document 02 describes it under T-01 and T-04, written and read. The benchmark compares
//! the library with this code.

use std::ops::Range;

use crate::{fast_brackets, MAX_LETTERS};

/// The bytes that a file begins with: mark 1, of files from before T-04, and mark 2.
const MARKS: [(u32, &[u8; 4]); 2] = [(1, b"LYN1"), (2, b"LYN2")];
/// "the writer writes `LYN2` only".
const WRITTEN: u32 = 2;
/// The greatest number of entries.
pub const MAX_ENTRIES: usize = 64;
/// The bytes of the mark and the count.
const HEAD: usize = 8;
/// The bytes of a contents entry.
const ENTRY: usize = 8;

/// The bytes of the contents, with the mark and the count before them.
fn contents_length(entries: usize) -> usize {
    HEAD + ENTRY * entries
}

/// The bytes of the body with this letter count.
fn body_length(n: u32) -> usize {
    (n as usize).div_ceil(4)
}

/// The bytes of all bodies.
fn bodies_length(counts: &[u32]) -> usize {
    counts.iter().copied().map(body_length).sum()
}

/// The refusal 6, 7 or 8 of the first faulty body of those that lie end to end in `bytes`.
fn judge_bodies(counts: impl IntoIterator<Item = u32>, bytes: &[u8]) -> Result<(), u32> {
    let mut rest = bytes;
    for n in counts {
        let (body, after) = rest.split_at(body_length(n));
        fast_brackets::judge(n as usize, body)?;
        rest = after;
    }
    Ok(())
}

/// Writes a cabinet into a lent buffer, or returns the number of a refusal: 10, 1, 3, then 6 to 8 body
/// by body.
pub fn write(counts: &[u32], trees: &[u8], file: &mut [u8]) -> Result<(), u32> {
    if counts.len() > MAX_ENTRIES {
        return Err(10);
    }
    if counts.iter().any(|&n| n as usize > MAX_LETTERS) {
        return Err(1);
    }
    let bodies = bodies_length(counts);
    if trees.len() != bodies || file.len() != contents_length(counts.len()) + bodies {
        return Err(3);
    }
    judge_bodies(counts.iter().copied(), trees)?;
    fill(WRITTEN, counts, trees, file);
    Ok(())
}

/// The file with this mark, 1 or 2, and these letter counts and trees, which no refusal is tested for.
/// The trees have the length that the counts ask for.
pub fn unchecked(mark: u32, counts: &[u32], trees: &[u8]) -> Vec<u8> {
    let mut file = vec![0; contents_length(counts.len()) + trees.len()];
    fill(mark, counts, trees, &mut file);
    file
}

/// Fills a buffer of exactly the file's length.
fn fill(mark: u32, counts: &[u32], trees: &[u8], file: &mut [u8]) {
    let (contents, bodies) = file.split_at_mut(contents_length(counts.len()));
    let (head, entries) = contents.split_at_mut(HEAD);
    let found = MARKS.iter().find(|&&(number, _)| number == mark);
    let (_, bytes) = found.expect("mark 1 or 2");
    head[..4].copy_from_slice(*bytes);
    head[4..].copy_from_slice(&(counts.len() as u32).to_le_bytes());
    let mut place = contents_length(counts.len());
    for (entry, &n) in entries.chunks_exact_mut(ENTRY).zip(counts) {
        entry[..4].copy_from_slice(&(place as u32).to_le_bytes());
        entry[4..].copy_from_slice(&n.to_le_bytes());
        place += body_length(n);
    }
    bodies.copy_from_slice(trees);
}

/// The number in the four bytes at `at`.
fn number(file: &[u8], at: usize) -> u32 {
    u32::from_le_bytes(file[at..at + 4].try_into().expect("four bytes"))
}

/// The place of a body from the file's first byte, and its letter count, by the contents.
fn contents_entry(file: &[u8], entry: usize) -> (usize, u32) {
    let at = contents_length(entry);
    (number(file, at) as usize, number(file, at + 4))
}

/// Refusal 11, for a file of `count` entries.
fn wrong_contents(file: &[u8], count: usize) -> bool {
    let mut end = contents_length(count);
    if file.len() < end {
        return true;
    }
    for entry in 0..count {
        let (place, n) = contents_entry(file, entry);
        if place != end || n as usize > MAX_LETTERS {
            return true;
        }
        end += body_length(n);
    }
    file.len() != end
}

/// The number of the mark that a file of 8 bytes or more begins with.
fn mark_of(file: &[u8]) -> Option<u32> {
    let found = MARKS
        .iter()
        .find(|(_, bytes)| file.len() >= HEAD && file.starts_with(*bytes));
    found.map(|&(number, _)| number)
}

/// What a reading gives.
#[derive(Debug, Clone, PartialEq, Eq)]
pub struct Body {
    /// The mark that the reader met: 1 for `LYN1`, 2 for `LYN2`.
    pub mark: u32,
    /// The letter count of the entry.
    pub letters: u32,
    /// The part of the file that is its body.
    pub part: Range<usize>,
}

/// The body of an entry, or the number of a refusal: 9, 10, 11, 5, then 6 to 8 body by body.
pub fn read(file: &[u8], entry: usize) -> Result<Body, u32> {
    let mark = mark_of(file).ok_or(9_u32)?;
    let count = number(file, 4) as usize;
    if count > MAX_ENTRIES {
        return Err(10);
    }
    if wrong_contents(file, count) {
        return Err(11);
    }
    if entry >= count {
        return Err(5);
    }
    let counts = (0..count).map(|k| contents_entry(file, k).1);
    judge_bodies(counts, &file[contents_length(count)..])?;
    let (place, letters) = contents_entry(file, entry);
    Ok(Body {
        mark,
        letters,
        part: place..place + body_length(letters),
    })
}

#[cfg(test)]
mod tests {
    use super::*;

    /// banana, the empty string and ba.
    const COUNTS: [u32; 3] = [6, 0, 2];
    const TREES: [u8; 3] = [0xcd, 0x04, 0x05];
    const FILE: [u8; 35] = [
        b'L', b'Y', b'N', b'2', 3, 0, 0, 0, // the mark and the count
        32, 0, 0, 0, 6, 0, 0, 0, // banana
        34, 0, 0, 0, 0, 0, 0, 0, // the empty string
        34, 0, 0, 0, 2, 0, 0, 0, // ba
        0xcd, 0x04, 0x05,
    ];

    /// The refusal of a file that is as `FILE` but for the byte at `at`.
    fn refusal(at: usize, byte: u8) -> u32 {
        let mut file = FILE;
        file[at] = byte;
        read(&file, 0).expect_err("a wrong byte")
    }

    #[test]
    fn a_file_is_written_and_read() {
        let mut file = [0xaa; 35];
        assert_eq!(write(&COUNTS, &TREES, &mut file), Ok(()));
        assert_eq!(file, FILE);
        for (mark, last) in [(1, b'1'), (2, b'2')] {
            let mut file = FILE;
            file[3] = last;
            assert_eq!(unchecked(mark, &COUNTS, &TREES), file);
            for (entry, (letters, part)) in [(6, 32..34), (0, 34..34), (2, 34..35)]
                .into_iter()
                .enumerate()
            {
                let body = Body {
                    mark,
                    letters,
                    part,
                };
                assert_eq!(read(&file, entry), Ok(body));
            }
            assert_eq!(read(&file, 3), Err(5));
            assert_eq!(read(&unchecked(mark, &[], &[]), 0), Err(5));
        }
    }

    #[test]
    fn wrong_files_are_refused() {
        assert_eq!(read(&FILE[..7], 0), Err(9));
        assert_eq!(refusal(3, b'0'), 9);
        assert_eq!(refusal(3, b'3'), 9);
        assert_eq!(refusal(0, b'l'), 9);
        assert_eq!(refusal(4, 65), 10);
        assert_eq!(read(&FILE[..31], 0), Err(11));
        assert_eq!(read(&FILE[..34], 0), Err(11));
        assert_eq!(read(&[FILE.as_slice(), &[0]].concat(), 0), Err(11));
        assert_eq!(refusal(8, 33), 11);
        assert_eq!(refusal(31, 1), 11);
        assert_eq!(refusal(34, 0x15), 6);
        assert_eq!(refusal(34, 0x02), 7);
        assert_eq!(refusal(34, 0x0f), 8);
    }

    #[test]
    fn wrong_requests_are_refused_and_write_nothing() {
        let mut file = [0xaa; 35];
        assert_eq!(write(&[0; 65], &[], &mut file), Err(10));
        assert_eq!(write(&[6, 0, 1_000_001], &TREES, &mut file), Err(1));
        assert_eq!(write(&COUNTS, &TREES[1..], &mut file), Err(3));
        assert_eq!(write(&COUNTS, &TREES, &mut file[1..]), Err(3));
        assert_eq!(write(&COUNTS, &[0xcd, 0x04, 0x15], &mut file), Err(6));
        assert_eq!(write(&COUNTS, &[0xcd, 0x04, 0x02], &mut file), Err(7));
        assert_eq!(write(&COUNTS, &[0xcd, 0x04, 0x0f], &mut file), Err(8));
        assert_eq!(file, [0xaa; 35]);
    }
}
