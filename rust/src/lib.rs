//! The Lyndon structure of a string: for each position the nearest smaller suffix before and after
//! it, the letters they share, and the bracket tree of the previous smaller suffixes. Many trees fit in
//! one cabinet file, written by [`cabinet_write`] and read by [`cabinet_read`]. [`runs()`] gives all tandem
//! repeats, and [`check`] says whether a next table that others made is right. Letters are bytes, or numbers of
//! 32 bits, such as allele lengths. [`tree_string`] gives a string for a tree that is held without its letters,
//! and [`all_trees`] gives all trees of a small size.
//!
//! This is a safe wrapper of `liblyndon.a`. Nothing has to be tested before a call: every input is
//! answered, by a value or by a [`Refusal`], and a refusal writes nothing to the lent memory, but for
//! [`Refusal::TooManyRuns`], which clears the work memory of [`runs_into`] and [`runs32_into`].
//!
//! A string has at most [`MAX_LETTERS`] letters of one byte, which compare by their unsigned value, but
//! small letters, bytes 97 to 122, as the capitals, 65 to 90: a masked letter counts as the same letter.
//! So `A` and `a` are equal, and the answers for a string are those for the same string in capitals. A
//! proper prefix is smaller than the longer string. Positions count from 0. 'None' is written n, the number
//! of letters. The match of two positions is the number of leading letters that the suffixes there share.
//!
//! [`Structure::of_symbols`], and the functions with 32 in their names, take symbols of 32 bits for letters.
//! Symbols compare as numbers, with no masking, and every value may occur. All else that is said of letters
//! holds of symbols, and positions and lengths count them.
//!
//! A question ([`previous()`], [`next()`], [`place`]) judges the whole tree each time, which takes some 0.2
//! to 0.5 ms at 1,000,000 positions; [`read`] gives all entries in 1 to 6 ms. For one position ask; for
//! some dozens or more read once, or build.
//!
//! ```
//! use lyndon::Structure;
//!
//! let banana = Structure::of(b"banana")?;
//! assert_eq!(banana.previous, [6, 6, 1, 6, 3, 6]);
//! assert_eq!(banana.next, [1, 3, 3, 5, 5, 6]);
//! assert_eq!(banana.next_match, [0, 3, 0, 1, 0, 0]);
//! assert_eq!(banana.tree, [0xcd, 0x04]);
//! assert_eq!((banana.built.equal, banana.built.unequal, banana.built.reach), (3, 3, 6));
//!
//! // The tree alone gives the tables back, and answers for one position.
//! let (mut previous, mut next) = (vec![0; 6], vec![0; 6]);
//! lyndon::read(6, &banana.tree, &mut previous, &mut next)?;
//! assert_eq!((&previous, &next), (&banana.previous, &banana.next));
//! assert_eq!(lyndon::next(6, &banana.tree, 1)?, 3);
//!
//! assert_eq!(lyndon::longest_word(b"banana", 1)?, b"an");
//! assert_eq!(lyndon::runs(b"banana")?, [lyndon::Run { start: 1, end: 6, period: 2 }]);
//!
//! // A next table that others made.
//! assert_eq!(lyndon::check(b"banana", &[1, 3, 3, 5, 5, 6])?, lyndon::Checked::Right);
//! assert_eq!(lyndon::check(b"banana", &[1, 3, 4, 5, 5, 0])?, lyndon::Checked::WrongAt(2));
//!
//! // Masked letters count as the same, and a word is a part of the string as it stands.
//! assert_eq!(Structure::of(b"baNAna")?, Structure::of(b"banana")?);
//! assert_eq!(lyndon::longest_word(b"baNAna", 1)?, b"aN");
//!
//! // Of symbols of 32 bits no value counts as another.
//! assert_eq!(Structure::of_symbols(&[98, 97, 110, 97, 110, 97])?, banana);
//! assert_ne!(Structure::of_symbols(&[98, 97, 78, 65, 110, 97])?, banana);
//!
//! // A string for the tree, whose letters need not be known.
//! let string = lyndon::tree_string(6, &banana.tree)?;
//! assert_eq!(string, [5, 3, 4, 1, 2, 0]);
//! assert_eq!(Structure::of_symbols(&string)?.tree, banana.tree);
//!
//! // All trees of size 3, from ((())) to ()()().
//! let trees: Vec<Vec<u8>> = lyndon::all_trees(3)?.collect();
//! assert_eq!(trees, [[0x07], [0x0b], [0x13], [0x0d], [0x15]]);
//! # Ok::<(), lyndon::Refusal>(())
//! ```

#![warn(missing_docs)]

use std::error::Error;
use std::fmt;
use std::iter::FusedIterator;

pub mod raw;

/// The version of `liblyndon.a`: it rises when a function is added, and with every change of an exported
/// structure or function, of what it answers too. This wrapper is made for [`raw::VERSION`]; no call compares the two, so a program
/// that is linked with an archive from elsewhere asserts it once:
///
/// ```
/// assert_eq!(lyndon::version(), lyndon::raw::VERSION);
/// ```
pub fn version() -> u32 {
    // SAFETY: it takes nothing and may always be called.
    unsafe { raw::lyndon_version() }
}

/// The greatest number of letters, bytes or symbols, that is taken.
pub const MAX_LETTERS: usize = 1_000_000;

/// The greatest number of entries that a cabinet has.
pub const MAX_ENTRIES: usize = 64;

/// The greatest size whose trees [`first_tree`], [`next_tree`] and [`all_trees`] give.
pub const MAX_TREE_SIZE: usize = 12;

/// Why an input is refused. Where several apply, the one with the lowest number is returned;
/// [`cabinet_write`], [`cabinet_read`], [`first_tree_into`] and [`next_tree`] test in an order of their own,
/// which is given there.
#[derive(Debug, Clone, Copy, PartialEq, Eq, Hash)]
#[repr(u32)]
pub enum Refusal {
    /// 1: n above 1,000,000. Writing a cabinet: a letter count above 1,000,000.
    TooLong = 1,
    /// 2: a lent table not exactly n entries of 32 bits long (four tables for the build, previous and
    /// next for reading a tree, the symbols for the string of a tree, six work tables for the runs, the claimed
    /// table and four work tables for a check). [`runs_into`], [`runs32_into`]: work memory of fewer than
    /// [`runs_work_length`]`(n)` entries.
    TableLength = 2,
    /// 3: the tree not exactly ceil(n/4) bytes. Writing a cabinet: the trees or the buffer not exactly
    /// as many bytes as the letter counts ask for.
    TreeLength = 3,
    /// 4: more rows asked than n.
    TooManyRows = 4,
    /// 5: a position not below n. Reading a cabinet: an entry not below the count.
    PositionOutside = 5,
    /// 6: a spare bit is 1.
    SpareBitSet = 6,
    /// 7: some first bits of the 2n hold more closings than openings.
    ClosedTooEarly = 7,
    /// 8: no such place, but not all are closed.
    LeftOpen = 8,
    /// 9: a cabinet file under 8 bytes or with neither of the marks `LYN1` and `LYN2`.
    NotMarked = 9,
    /// 10: a cabinet with a count above 64.
    TooManyEntries = 10,
    /// 11: a cabinet file whose contents are cut short, with a place that is not the end of what comes
    /// before it, with bytes missing or left over at the end, or with a letter count above 1,000,000.
    WrongContents = 11,
    /// 12: the three lists for runs differ in length.
    ListLengths = 12,
    /// 13: more runs than entries in each of the three lists.
    TooManyRuns = 13,
    /// 14: a size outside 1 to 12.
    SizeOutside = 14,
}

impl Refusal {
    /// All refusals, by their numbers.
    pub const ALL: [Refusal; 14] = [
        Refusal::TooLong,
        Refusal::TableLength,
        Refusal::TreeLength,
        Refusal::TooManyRows,
        Refusal::PositionOutside,
        Refusal::SpareBitSet,
        Refusal::ClosedTooEarly,
        Refusal::LeftOpen,
        Refusal::NotMarked,
        Refusal::TooManyEntries,
        Refusal::WrongContents,
        Refusal::ListLengths,
        Refusal::TooManyRuns,
        Refusal::SizeOutside,
    ];

    /// The refusal's number, 1 to 14.
    pub fn number(self) -> u32 {
        self as u32
    }

    /// The answer that a reply's number stands for.
    fn check(number: u32) -> Result<(), Refusal> {
        if number == 0 {
            return Ok(());
        }
        let refusal = Refusal::ALL
            .into_iter()
            .find(|refusal| refusal.number() == number);
        Err(refusal.unwrap_or_else(|| panic!("liblyndon.a returned the unknown refusal {number}")))
    }
}

impl fmt::Display for Refusal {
    fn fmt(&self, f: &mut fmt::Formatter<'_>) -> fmt::Result {
        let text = match self {
            Refusal::TooLong => "more than 1,000,000 letters",
            Refusal::TableLength => {
                "a lent table, or the buffer for the string of a tree, is not exactly n entries long, \
                or the work memory for runs has fewer than 6 n entries"
            }
            Refusal::TreeLength => {
                "the tree is not exactly ceil(n/4) bytes long, \
                or a cabinet's trees or buffer have another length than its letter counts ask for"
            }
            Refusal::TooManyRows => "more rows asked than letters",
            Refusal::PositionOutside => {
                "the position is not below n, or a cabinet's entry is not below its count"
            }
            Refusal::SpareBitSet => "a spare bit of the tree is 1",
            Refusal::ClosedTooEarly => "the tree closes a bracket that is not open",
            Refusal::LeftOpen => "the tree leaves a bracket open",
            Refusal::NotMarked => {
                "the file has under 8 bytes or neither of the marks LYN1 and LYN2"
            }
            Refusal::TooManyEntries => "more than 64 entries",
            Refusal::WrongContents => {
                "the file's contents are cut short, do not fit its length or each other, \
                or hold a letter count above 1,000,000"
            }
            Refusal::ListLengths => "the three lists for runs differ in length",
            Refusal::TooManyRuns => "more runs than entries in the lists",
            Refusal::SizeOutside => "the size is outside 1 to 12",
        };
        write!(f, "refused {}: {text}", self.number())
    }
}

impl Error for Refusal {}

/// What a build says of itself. The comparisons are those of the reuse steps: row by row from position
/// 0 on, two letters are compared only where a match cannot be copied from one that an earlier row
/// recorded. `docs/STEPS.md` of the repository has them step by step.
#[derive(Debug, Clone, Copy, PartialEq, Eq, Hash)]
pub struct Built {
    /// Whether all rows are done; else the build is halted.
    pub finished: bool,
    /// The rows done: always the rows asked.
    pub rows: usize,
    /// How often the reuse steps compare two letters in these rows and find them equal: at most
    /// `reach` - 1; 0 where no rows are asked.
    pub equal: usize,
    /// How often they find them unequal: at most 2 (`rows` - 1); 0 where no rows are asked.
    pub unequal: usize,
    /// The greatest of 1 and r + match(l, r) over the pairs l < r < rows with next\[l\] = r or
    /// previous\[r\] = l, never above n; 0 where no rows are asked. match(l, r) is the number of
    /// leading letters that the suffixes at l and r share.
    pub reach: usize,
}

/// What a reply to a build says.
fn built(reply: raw::BuildReply) -> Result<Built, Refusal> {
    Refusal::check(reply.refusal)?;
    Ok(Built {
        finished: reply.finished != 0,
        rows: reply.rows,
        equal: reply.equal,
        unequal: reply.unequal,
        reach: reply.reach,
    })
}

/// The number of letters or positions that memory is taken for. Too many are refused whatever is lent, so
/// none is taken for them.
fn lent_entries(n: usize) -> usize {
    if n > MAX_LETTERS {
        0
    } else {
        n
    }
}

/// The length in bytes of the tree of `n` positions: ceil(n/4).
pub fn tree_length(n: usize) -> usize {
    n.div_ceil(4)
}

/// Builds the first `rows` rows of the structure of `letters` into lent memory.
///
/// With n letters, each table has n entries and the tree [`tree_length`]`(n)` bytes. All of them are
/// written, whatever they held before:
///
/// - `previous` and `previous_match` are exact below `rows`;
/// - `next` and `next_match` are exact below `rows` where the entry of `next` is below `rows`, else n
///   and 0;
/// - from `rows` on, `previous` and `next` hold n, and both match tables 0;
/// - the first 2 `rows` bits of the tree are the tree of the positions below `rows`, all else is 0.
///
/// # Errors
///
/// Refusals 1 to 4. Nothing is written then.
pub fn build(
    letters: &[u8],
    rows: usize,
    previous: &mut [u32],
    next: &mut [u32],
    previous_match: &mut [u32],
    next_match: &mut [u32],
    tree: &mut [u8],
) -> Result<Built, Refusal> {
    built(raw::build(
        letters,
        rows,
        previous,
        next,
        previous_match,
        next_match,
        tree,
    ))
}

/// Builds the first `rows` rows of the structure of symbols of 32 bits into lent memory, as [`build`] does of
/// letters. With n symbols, each table has n entries and the tree [`tree_length`]`(n)` bytes.
///
/// # Errors
///
/// Refusals 1 to 4. Nothing is written then.
pub fn build32(
    symbols: &[u32],
    rows: usize,
    previous: &mut [u32],
    next: &mut [u32],
    previous_match: &mut [u32],
    next_match: &mut [u32],
    tree: &mut [u8],
) -> Result<Built, Refusal> {
    built(raw::build32(
        symbols,
        rows,
        previous,
        next,
        previous_match,
        next_match,
        tree,
    ))
}

/// Reads the tree of `n` positions back into the two tables. All their entries are written.
///
/// # Errors
///
/// Refusals 1, 2, 3, 6, 7, 8. Nothing is written then.
pub fn read(n: usize, tree: &[u8], previous: &mut [u32], next: &mut [u32]) -> Result<(), Refusal> {
    // SAFETY: each pointer comes from a slice with its length, and exclusive slices do not overlap.
    let number = unsafe {
        raw::lyndon_read(
            n,
            tree.as_ptr(),
            tree.len(),
            previous.as_mut_ptr(),
            previous.len(),
            next.as_mut_ptr(),
            next.len(),
        )
    };
    Refusal::check(number)
}

/// The previous entry of `position` in the tree of `n` positions, `n` for none.
///
/// # Errors
///
/// Refusals 1, 3, 5, 6, 7, 8.
pub fn previous(n: usize, tree: &[u8], position: usize) -> Result<usize, Refusal> {
    // SAFETY: the pointer comes from a slice with its length.
    let reply = unsafe { raw::lyndon_previous(n, tree.as_ptr(), tree.len(), position) };
    Refusal::check(reply.refusal).map(|()| reply.value)
}

/// The next entry of `position` in the tree of `n` positions, `n` for none.
///
/// # Errors
///
/// Refusals 1, 3, 5, 6, 7, 8.
pub fn next(n: usize, tree: &[u8], position: usize) -> Result<usize, Refusal> {
    // SAFETY: the pointer comes from a slice with its length.
    let reply = unsafe { raw::lyndon_next(n, tree.as_ptr(), tree.len(), position) };
    Refusal::check(reply.refusal).map(|()| reply.value)
}

/// The bit place of the opening of `position` in the tree of `n` positions.
///
/// # Errors
///
/// Refusals 1, 3, 5, 6, 7, 8.
pub fn place(n: usize, tree: &[u8], position: usize) -> Result<usize, Refusal> {
    // SAFETY: the pointer comes from a slice with its length.
    let reply = unsafe { raw::lyndon_place(n, tree.as_ptr(), tree.len(), position) };
    Refusal::check(reply.refusal).map(|()| reply.value)
}

/// A string for the tree of `n` positions, of symbols of 32 bits: a specimen to test a reader with, and as a
/// rule another string than the one that the tree was built of.
///
/// The symbol of a position is its number, where the positions are numbered thus: roots from last to first, each
/// followed by all that hangs below it before the next root, children likewise from last to first, counting
/// from 0. So the symbols are 0 to n - 1, and all of them differ. [`Structure::of_symbols`] of the string has
/// `tree`, and the tables that [`read`] gives; every match in it is 0.
///
/// ```
/// use lyndon::Structure;
///
/// // Two roots, and one root with the other position under it.
/// assert_eq!(lyndon::tree_string(2, &[0x05])?, [1, 0]);
/// assert_eq!(lyndon::tree_string(2, &[0x03])?, [0, 1]);
///
/// // Building the string gives back the tree, and the tables that go with it.
/// let gattaca = Structure::of(b"gattaca")?;
/// let string = lyndon::tree_string(7, &gattaca.tree)?;
/// assert_eq!(string, [6, 3, 5, 4, 1, 2, 0]);
/// let built = Structure::of_symbols(&string)?;
/// assert_eq!(built.tree, gattaca.tree);
/// assert_eq!((built.previous, built.next), (gattaca.previous, gattaca.next));
/// # Ok::<(), lyndon::Refusal>(())
/// ```
///
/// Whoever asks often lends the memory by [`tree_string_into`].
///
/// # Errors
///
/// Refusals 1, 3, 6, 7, 8.
pub fn tree_string(n: usize, tree: &[u8]) -> Result<Vec<u32>, Refusal> {
    let mut symbols = vec![0; lent_entries(n)];
    tree_string_into(n, tree, &mut symbols)?;
    Ok(symbols)
}

/// Writes the string of the tree of `n` positions, as [`tree_string`] gives it, into lent memory. `symbols` has
/// `n` entries. All of them are written, whatever they held before.
///
/// ```
/// let mut symbols = [7; 6];
/// lyndon::tree_string_into(6, &[0xcd, 0x04], &mut symbols)?;
/// assert_eq!(symbols, [5, 3, 4, 1, 2, 0]);
/// # Ok::<(), lyndon::Refusal>(())
/// ```
///
/// # Errors
///
/// Refusals 1, 2, 3, 6, 7, 8. Nothing is written then.
pub fn tree_string_into(n: usize, tree: &[u8], symbols: &mut [u32]) -> Result<(), Refusal> {
    // SAFETY: each pointer comes from a slice with its length, and exclusive slices do not overlap.
    let number = unsafe {
        raw::lyndon_tree_string(
            n,
            tree.as_ptr(),
            tree.len(),
            symbols.as_mut_ptr(),
            symbols.len(),
        )
    };
    Refusal::check(number)
}

/// The first tree of `size` positions, `size` from 1 to 12: all openings, and then all closings.
///
/// The trees of a size are all its balanced trees, ordered by their first differing bracket, an opening before a
/// closing. [`next_tree`] goes on from one to the next, and [`all_trees`] gives all of them.
///
/// ```
/// assert_eq!(lyndon::first_tree(3)?, [0b000111]);
/// assert_eq!(lyndon::first_tree(13), Err(lyndon::Refusal::SizeOutside));
/// # Ok::<(), lyndon::Refusal>(())
/// ```
///
/// # Errors
///
/// Refusal 14.
pub fn first_tree(size: usize) -> Result<Vec<u8>, Refusal> {
    // A greater size is refused whatever is lent, so no more memory is taken for it.
    let mut tree = vec![0; tree_length(size.min(MAX_TREE_SIZE))];
    first_tree_into(size, &mut tree)?;
    Ok(tree)
}

/// Writes the first tree of `size` positions, as [`first_tree`] gives it, into lent memory. `tree` has
/// [`tree_length`]`(size)` bytes. All of them are written, whatever they held before.
///
/// # Errors
///
/// Refusals 14, 3, tested in this order. Nothing is written then.
pub fn first_tree_into(size: usize, tree: &mut [u8]) -> Result<(), Refusal> {
    // SAFETY: the pointer comes from an exclusive slice with its length.
    Refusal::check(unsafe { raw::lyndon_first_tree(size, tree.as_mut_ptr(), tree.len()) })
}

/// What comes of going on from a tree.
#[derive(Debug, Clone, Copy, PartialEq, Eq, Hash)]
pub enum Step {
    /// The next tree is written in its place.
    Next,
    /// It is the last of its size, and is left as it was.
    Last,
}

/// Writes the tree after `tree` in its place, in the order of [`first_tree`], or says that it is the last.
///
/// Starting from the first tree and going on to the last reaches each tree of the size exactly once. The trees
/// of sizes 1 to 12 are 1, 2, 5, 14, 42, 132, 429, 1,430, 4,862, 16,796, 58,786 and 208,012.
///
/// ```
/// use lyndon::Step;
///
/// let mut tree = lyndon::first_tree(12)?;
/// let mut number = 1;
/// while lyndon::next_tree(12, &mut tree)? == Step::Next {
///     number += 1;
/// }
/// assert_eq!(number, 208_012);
/// assert_eq!(tree, [0x55, 0x55, 0x55]);
/// # Ok::<(), lyndon::Refusal>(())
/// ```
///
/// # Errors
///
/// Refusals 14, 3, 6, 7, 8, tested in this order. Nothing is written then.
pub fn next_tree(size: usize, tree: &mut [u8]) -> Result<Step, Refusal> {
    // SAFETY: the pointer comes from an exclusive slice with its length.
    let reply = unsafe { raw::lyndon_next_tree(size, tree.as_mut_ptr(), tree.len()) };
    Refusal::check(reply.refusal)?;
    Ok(if reply.last != 0 {
        Step::Last
    } else {
        Step::Next
    })
}

/// All trees of `size` positions, `size` from 1 to 12, each once, in the order of [`first_tree`].
///
/// ```
/// // The string for each tree of size 3.
/// for tree in lyndon::all_trees(3)? {
///     let string = lyndon::tree_string(3, &tree)?;
///     assert_eq!(lyndon::Structure::of_symbols(&string)?.tree, tree);
/// }
/// assert_eq!(lyndon::all_trees(3)?.count(), 5);
/// # Ok::<(), lyndon::Refusal>(())
/// ```
///
/// Each tree is in memory of its own; whoever wants them in one buffer uses [`first_tree_into`] and
/// [`next_tree`].
///
/// # Errors
///
/// Refusal 14.
pub fn all_trees(size: usize) -> Result<AllTrees, Refusal> {
    let tree = Some(first_tree(size)?);
    Ok(AllTrees { size, tree })
}

/// The trees that [`all_trees`] gives.
#[derive(Debug, Clone)]
pub struct AllTrees {
    size: usize,
    /// The tree that comes next, none behind the last.
    tree: Option<Vec<u8>>,
}

impl Iterator for AllTrees {
    type Item = Vec<u8>;

    fn next(&mut self) -> Option<Vec<u8>> {
        let tree = self.tree.take()?;
        let mut after = tree.clone();
        if next_tree(self.size, &mut after).expect("a tree of its size") == Step::Next {
            self.tree = Some(after);
        }
        Some(tree)
    }
}

impl FusedIterator for AllTrees {}

/// The longest Lyndon word that starts at `position`, as a part of `letters` itself, its small letters and
/// capitals as they stand.
///
/// # Errors
///
/// Refusals 1 and 5.
pub fn longest_word(letters: &[u8], position: usize) -> Result<&[u8], Refusal> {
    part(letters, raw::word(letters, position))
}

/// The longest Lyndon word of symbols of 32 bits that starts at `position`, as a part of `symbols` itself.
///
/// ```
/// assert_eq!(lyndon::longest_word32(&[12, 9, 300, 9, 300, 9], 1)?, [9, 300]);
/// # Ok::<(), lyndon::Refusal>(())
/// ```
///
/// # Errors
///
/// Refusals 1 and 5.
pub fn longest_word32(symbols: &[u32], position: usize) -> Result<&[u32], Refusal> {
    part(symbols, raw::word32(symbols, position))
}

/// The part of `letters` that a reply says.
fn part<L>(letters: &[L], reply: raw::PartReply) -> Result<&[L], Refusal> {
    Refusal::check(reply.refusal).map(|()| &letters[reply.start..][..reply.length])
}

/// A run, or tandem repeat: a stretch of a string from `start` to `end` with the period p of `period`. It
/// has at least 2 p letters, those p apart in it are equal, p is its least period, and neither end can be
/// moved out by one letter with p kept.
#[derive(Debug, Clone, Copy, PartialEq, Eq, Hash)]
pub struct Run {
    /// The position of its first letter.
    pub start: usize,
    /// The position behind its last letter.
    pub end: usize,
    /// Its least period, at least 1.
    pub period: usize,
}

/// All runs of `letters`, each once, by start and then by period. A string of n letters, n at least 1,
/// has fewer than n.
///
/// ```
/// let word = b"mississippi";
/// let runs = lyndon::runs(word)?;
/// let stretches: Vec<&[u8]> = runs.iter().map(|run| &word[run.start..run.end]).collect();
/// assert_eq!(stretches, [&b"ississi"[..], b"ss", b"ss", b"pp"]);
/// assert_eq!(runs[0], lyndon::Run { start: 1, end: 8, period: 3 });
/// # Ok::<(), lyndon::Refusal>(())
/// ```
///
/// Beside what it returns this takes memory for 9 n numbers of 32 bits, and gives it back; whoever asks
/// often lends it once by [`runs_into`].
///
/// # Errors
///
/// Refusal 1.
pub fn runs(letters: &[u8]) -> Result<Vec<Run>, Refusal> {
    runs_by(runs_into, letters)
}

/// All runs of symbols of 32 bits, each once, by start and then by period, as [`runs()`] gives those of
/// letters. Whoever asks often lends the memory by [`runs32_into`].
///
/// ```
/// let run = lyndon::Run { start: 1, end: 6, period: 2 };
/// assert_eq!(lyndon::runs32(&[12, 9, 300, 9, 300, 9])?, [run]);
/// // 65 and 97 are two symbols.
/// assert_eq!(lyndon::runs32(&[65, 97])?, []);
/// # Ok::<(), lyndon::Refusal>(())
/// ```
///
/// # Errors
///
/// Refusal 1.
pub fn runs32(symbols: &[u32]) -> Result<Vec<Run>, Refusal> {
    runs_by(runs32_into, symbols)
}

/// A function that reports runs in starts, ends, periods and work memory.
type RunsInto<L> =
    fn(&[L], &mut [u32], &mut [u32], &mut [u32], &mut [u32]) -> Result<usize, Refusal>;

/// The runs that `runs_into` reports.
fn runs_by<L>(runs_into: RunsInto<L>, letters: &[L]) -> Result<Vec<Run>, Refusal> {
    let n = lent_entries(letters.len());
    let [mut starts, mut ends, mut periods] = std::array::from_fn(|_| vec![0; n.saturating_sub(1)]);
    let mut work = vec![0; runs_work_length(n)];
    let number = runs_into(letters, &mut starts, &mut ends, &mut periods, &mut work)?;
    let found = starts.iter().zip(&ends).zip(&periods).take(number);
    Ok(found
        .map(|((&start, &end), &period)| Run {
            start: start as usize,
            end: end as usize,
            period: period as usize,
        })
        .collect())
}

/// The entries of the work memory that [`runs_into`] uses for `n` letters, and [`runs32_into`] for `n`
/// symbols: 6 n, for six tables.
pub fn runs_work_length(n: usize) -> usize {
    n.saturating_mul(6)
}

/// Reports all runs of `letters` in lent memory, each once, by start and then by period, and returns
/// their number.
///
/// Run k is `starts[k]`, `ends[k]`, `periods[k]`, which are a [`Run`]'s members. The three lists have one
/// length, whatever it is; n - 1 entries suffice for every string of n letters, n at least 1. All their
/// entries are written: those beyond the number of runs hold 0.
///
/// `work` has [`runs_work_length`]`(n)` entries or more. So many of its first entries are used, may hold
/// anything before, and hold 0 afterwards; those behind them are left alone. So lists and work memory for
/// the longest string serve for every string:
///
/// ```
/// let [mut starts, mut ends, mut periods] = [[0; 7]; 3];
/// let mut work = vec![0; lyndon::runs_work_length(8)];
/// let number = lyndon::runs_into(b"aabaabab", &mut starts, &mut ends, &mut periods, &mut work)?;
/// assert_eq!(number, 4);
/// assert_eq!(starts, [0, 0, 3, 4, 0, 0, 0]);
/// assert_eq!(ends, [2, 7, 5, 8, 0, 0, 0]);
/// assert_eq!(periods, [1, 3, 1, 2, 0, 0, 0]);
///
/// let number = lyndon::runs_into(b"banana", &mut starts, &mut ends, &mut periods, &mut work)?;
/// assert_eq!((number, starts[0], ends[0], periods[0]), (1, 1, 6, 2));
/// # Ok::<(), lyndon::Refusal>(())
/// ```
///
/// # Errors
///
/// Refusals 1, 2, 12, 13, tested in this order; 13 exactly where there are more runs than entries in the
/// lists. The lists are then left as they were. So is the work memory, but for 13: what is used of it
/// holds 0 then.
pub fn runs_into(
    letters: &[u8],
    starts: &mut [u32],
    ends: &mut [u32],
    periods: &mut [u32],
    work: &mut [u32],
) -> Result<usize, Refusal> {
    let tables = work_tables(letters.len(), work);
    let reply = raw::runs(letters, [starts, ends, periods], tables);
    Refusal::check(reply.refusal).map(|()| reply.value)
}

/// Reports all runs of symbols of 32 bits in lent memory, and returns their number, as [`runs_into`] does of
/// letters. With n symbols, `work` has [`runs_work_length`]`(n)` entries or more.
///
/// # Errors
///
/// Refusals 1, 2, 12, 13, with the memory left as by [`runs_into`].
pub fn runs32_into(
    symbols: &[u32],
    starts: &mut [u32],
    ends: &mut [u32],
    periods: &mut [u32],
    work: &mut [u32],
) -> Result<usize, Refusal> {
    let tables = work_tables(symbols.len(), work);
    let reply = raw::runs32(symbols, [starts, ends, periods], tables);
    Refusal::check(reply.refusal).map(|()| reply.value)
}

/// The first six tables of n entries in the work memory. Too little of it makes tables that are too short,
/// which are refused.
fn work_tables(n: usize, work: &mut [u32]) -> [&mut [u32]; 6] {
    let entries = n.min(work.len() / 6);
    let mut rest = work;
    std::array::from_fn(|_| {
        let (table, behind) = std::mem::take(&mut rest).split_at_mut(entries);
        rest = behind;
        table
    })
}

/// What is found in a claimed next table.
#[derive(Debug, Clone, Copy, PartialEq, Eq, Hash)]
pub enum Checked {
    /// Every entry is the defined one.
    Right,
    /// The least position whose entry is wrong.
    WrongAt(usize),
}

/// Says whether `claimed` is the next table of `letters`, whoever made it and by whatever method: every
/// entry is the defined one, n for none. Else it gives the least position whose entry is wrong.
///
/// An entry of `claimed` may be any number.
///
/// ```
/// use lyndon::Checked;
///
/// let next = lyndon::Structure::of(b"mississippi")?.next;
/// assert_eq!(lyndon::check(b"mississippi", &next)?, Checked::Right);
/// assert_eq!(lyndon::check(b"MissIssippi", &next)?, Checked::Right);
/// assert_eq!(lyndon::check(b"mississippo", &next)?, Checked::WrongAt(7));
/// # Ok::<(), lyndon::Refusal>(())
/// ```
///
/// This takes memory for 4 n numbers of 32 bits, and gives it back; whoever checks often, or wants the
/// tables that the check builds, lends it by [`check_into`].
///
/// # Errors
///
/// Refusals 1 and 2, the latter where `claimed` has not exactly n entries.
pub fn check(letters: &[u8], claimed: &[u32]) -> Result<Checked, Refusal> {
    check_by(check_into, letters, claimed)
}

/// Says whether `claimed` is the next table of symbols of 32 bits, as [`check`] does of letters. Whoever
/// checks often lends the memory by [`check32_into`].
///
/// ```
/// use lyndon::Checked;
///
/// let symbols = [12, 9, 300, 9, 300, 9];
/// assert_eq!(lyndon::check32(&symbols, &[1, 3, 3, 5, 5, 6])?, Checked::Right);
/// assert_eq!(lyndon::check32(&symbols, &[1, 3, 4, 5, 5, 0])?, Checked::WrongAt(2));
/// # Ok::<(), lyndon::Refusal>(())
/// ```
///
/// # Errors
///
/// Refusals 1 and 2, the latter where `claimed` has not exactly n entries.
pub fn check32(symbols: &[u32], claimed: &[u32]) -> Result<Checked, Refusal> {
    check_by(check32_into, symbols, claimed)
}

/// A function that checks a claimed table in previous, next and their matches.
type CheckInto<L> =
    fn(&[L], &[u32], &mut [u32], &mut [u32], &mut [u32], &mut [u32]) -> Result<Checked, Refusal>;

/// What `check_into` finds.
fn check_by<L>(
    check_into: CheckInto<L>,
    letters: &[L],
    claimed: &[u32],
) -> Result<Checked, Refusal> {
    let n = lent_entries(letters.len());
    let [mut previous, mut next, mut previous_match, mut next_match] =
        std::array::from_fn(|_| vec![0; n]);
    check_into(
        letters,
        claimed,
        &mut previous,
        &mut next,
        &mut previous_match,
        &mut next_match,
    )
}

/// Checks a claimed next table as [`check`] does, in lent memory.
///
/// With n letters, each of the four work tables has n entries. All of them are written, whatever they held
/// before and whichever the answer: they hold the four tables that [`build`] leaves after n rows.
///
/// # Errors
///
/// Refusals 1 and 2, the latter for `claimed` or any work table. Nothing is written then.
pub fn check_into(
    letters: &[u8],
    claimed: &[u32],
    previous: &mut [u32],
    next: &mut [u32],
    previous_match: &mut [u32],
    next_match: &mut [u32],
) -> Result<Checked, Refusal> {
    checked(raw::check(
        letters,
        claimed,
        previous,
        next,
        previous_match,
        next_match,
    ))
}

/// Checks a claimed next table of symbols of 32 bits as [`check32`] does, in lent memory.
///
/// With n symbols, each of the four work tables has n entries. All of them are written, whatever they held
/// before and whichever the answer: they hold the four tables that [`build32`] leaves after n rows.
///
/// # Errors
///
/// Refusals 1 and 2, the latter for `claimed` or any work table. Nothing is written then.
pub fn check32_into(
    symbols: &[u32],
    claimed: &[u32],
    previous: &mut [u32],
    next: &mut [u32],
    previous_match: &mut [u32],
    next_match: &mut [u32],
) -> Result<Checked, Refusal> {
    checked(raw::check32(
        symbols,
        claimed,
        previous,
        next,
        previous_match,
        next_match,
    ))
}

/// What a reply to a check says.
fn checked(reply: raw::CheckReply) -> Result<Checked, Refusal> {
    Refusal::check(reply.refusal)?;
    Ok(if reply.right != 0 {
        Checked::Right
    } else {
        Checked::WrongAt(reply.position)
    })
}

/// The length in bytes of the cabinet file of trees with these letter counts: 8, and for each count n
/// 8 and [`tree_length`]`(n)`.
///
/// This is the length of the buffer that [`cabinet_write`] fills. Counts that it refuses are answered
/// too, with the greatest `usize` where the sum is above it.
pub fn cabinet_length(counts: &[u32]) -> usize {
    counts.iter().fold(8_usize, |length, &n| {
        length.saturating_add(8 + tree_length(n as usize))
    })
}

/// Writes a cabinet file, which holds many trees, into lent memory.
///
/// `trees` holds the trees end to end, in the order of their letter counts. `file` has
/// [`cabinet_length`]`(counts)` bytes. All of them are written, whatever they held before:
///
/// - the four bytes `LYN2`;
/// - the number of entries; each number in the file has 32 bits, the lowest byte first;
/// - for each entry the place of its tree from the file's first byte, and its letter count;
/// - the trees.
///
/// ```
/// let counts = [6, 2];
/// let trees = [lyndon::Structure::of(b"banana")?.tree, lyndon::Structure::of(b"ba")?.tree].concat();
/// let mut file = vec![0; lyndon::cabinet_length(&counts)];
/// lyndon::cabinet_write(&counts, &trees, &mut file)?;
/// assert_eq!(file[..16], *b"LYN2\x02\0\0\0\x18\0\0\0\x06\0\0\0");
/// assert_eq!(file[16..], *b"\x1a\0\0\0\x02\0\0\0\xcd\x04\x05");
///
/// let banana = lyndon::cabinet_read(&file, 0)?;
/// assert_eq!((banana.letters, banana.tree), (6, &file[24..26]));
/// assert_eq!(banana.mark, lyndon::Mark::Lyn2);
/// assert_eq!(lyndon::next(banana.letters, banana.tree, 1)?, 3);
/// # Ok::<(), lyndon::Refusal>(())
/// ```
///
/// Nothing can test by which order of letters a tree was built. One that was built before version 3 of
/// the library, as those of a file marked [`Mark::Lyn1`] were, is to be written here only where its string
/// has no small letter, or has none of the bytes 65 to 96: of any other string the mark would tell the wrong
/// order, so it is built anew, or its file, marked [`Mark::Lyn1`], is kept as it is.
///
/// # Errors
///
/// Refusals 10, 1, 3, tested in this order, then 6, 7, 8 tree by tree: the first faulty tree decides.
/// Nothing is written then.
pub fn cabinet_write(counts: &[u32], trees: &[u8], file: &mut [u8]) -> Result<(), Refusal> {
    // SAFETY: each pointer comes from a slice with its length, and exclusive slices do not overlap.
    let number = unsafe {
        raw::lyndon_cabinet_write(
            counts.as_ptr(),
            counts.len(),
            trees.as_ptr(),
            trees.len(),
            file.as_mut_ptr(),
            file.len(),
        )
    };
    Refusal::check(number)
}

/// The four bytes that a cabinet file begins with. They say by which order of letters its trees were built.
///
/// The two orders give a string other trees only where it has both a small letter and a byte from 65 to 96,
/// which is a capital or one of ``[ \ ] ^ _ ` ``. `docs/FORMAT.md` of the repository says more.
#[derive(Debug, Clone, Copy, PartialEq, Eq, Hash)]
#[repr(u32)]
pub enum Mark {
    /// 1: `LYN1`, of files written before version 3 of the library. Letters compared by their unsigned value,
    /// so that `A` was smaller than `a`.
    Lyn1 = 1,
    /// 2: `LYN2`, which [`cabinet_write`] writes. Small letters compare as capitals.
    Lyn2 = 2,
}

impl Mark {
    /// The mark's number, 1 or 2.
    pub fn number(self) -> u32 {
        self as u32
    }

    /// The mark that a reply's number stands for.
    fn of(number: u32) -> Mark {
        match number {
            1 => Mark::Lyn1,
            2 => Mark::Lyn2,
            _ => panic!("liblyndon.a returned the unknown mark {number}"),
        }
    }
}

/// One tree of a cabinet file.
#[derive(Debug, Clone, Copy, PartialEq, Eq, Hash)]
pub struct CabinetEntry<'a> {
    /// The mark of the file, which says by which order of letters the tree was built.
    pub mark: Mark,
    /// The letter count: the n that [`read`] and the questions take beside the tree.
    pub letters: usize,
    /// The tree, as a part of the file itself.
    pub tree: &'a [u8],
}

/// Checks a whole cabinet file, whichever entry is asked for, and gives the tree of `entry`, which
/// starts at the place that the contents give. Entries count from 0. Files of both marks are read; what is
/// read from a `LYN2` file, written again, is the same file.
///
/// # Errors
///
/// Refusals 9, 10, 11, 5, tested in this order, then 6, 7, 8 tree by tree: the first faulty tree
/// decides.
pub fn cabinet_read(file: &[u8], entry: usize) -> Result<CabinetEntry<'_>, Refusal> {
    // SAFETY: the pointer comes from a slice with its length.
    let reply = unsafe { raw::lyndon_cabinet_read(file.as_ptr(), file.len(), entry) };
    Refusal::check(reply.refusal).map(|()| CabinetEntry {
        mark: Mark::of(reply.mark),
        letters: reply.letters as usize,
        tree: &file[reply.start..][..reply.length],
    })
}

/// A function that builds rows into previous, next, their matches and the tree.
type Build<L> = fn(
    &[L],
    usize,
    &mut [u32],
    &mut [u32],
    &mut [u32],
    &mut [u32],
    &mut [u8],
) -> Result<Built, Refusal>;

/// The tables and the tree of a string, in memory of their own. See [`build`].
#[derive(Debug, Clone, PartialEq, Eq)]
pub struct Structure {
    /// What the build says of itself.
    pub built: Built,
    /// For each position the nearest smaller suffix before it.
    pub previous: Vec<u32>,
    /// For each position the nearest smaller suffix after it.
    pub next: Vec<u32>,
    /// The letters shared with the previous smaller suffix.
    pub previous_match: Vec<u32>,
    /// The letters shared with the next smaller suffix.
    pub next_match: Vec<u32>,
    /// The bracket tree.
    pub tree: Vec<u8>,
}

impl Structure {
    /// The whole structure of `letters`.
    ///
    /// # Errors
    ///
    /// Refusal 1.
    pub fn of(letters: &[u8]) -> Result<Structure, Refusal> {
        Structure::halted(letters, letters.len())
    }

    /// The structure of `letters` after `rows` rows.
    ///
    /// # Errors
    ///
    /// Refusals 1 and 4.
    pub fn halted(letters: &[u8], rows: usize) -> Result<Structure, Refusal> {
        Structure::by(build, letters, rows)
    }

    /// The whole structure of symbols of 32 bits, which compare as numbers, with no masking. Every value may
    /// occur, and the tables and the tree count symbols.
    ///
    /// ```
    /// use lyndon::Structure;
    ///
    /// // Allele lengths. In the order of their numbers they stand as the letters of banana do.
    /// let lengths = [12, 9, 300, 9, 300, 9];
    /// let structure = Structure::of_symbols(&lengths)?;
    /// assert_eq!(structure.next, [1, 3, 3, 5, 5, 6]);
    /// assert_eq!(structure, Structure::of(b"banana")?);
    ///
    /// // As letters a and A are the same, as symbols 97 and 65 are not.
    /// assert_eq!(Structure::of(b"aA")?.next_match, [1, 0]);
    /// assert_eq!(Structure::of_symbols(&[97, 65])?.next_match, [0, 0]);
    /// # Ok::<(), lyndon::Refusal>(())
    /// ```
    ///
    /// # Errors
    ///
    /// Refusal 1.
    pub fn of_symbols(symbols: &[u32]) -> Result<Structure, Refusal> {
        Structure::halted_symbols(symbols, symbols.len())
    }

    /// The structure of symbols of 32 bits after `rows` rows.
    ///
    /// # Errors
    ///
    /// Refusals 1 and 4.
    pub fn halted_symbols(symbols: &[u32], rows: usize) -> Result<Structure, Refusal> {
        Structure::by(build32, symbols, rows)
    }

    /// The structure that `build` leaves after `rows` rows.
    fn by<L>(build: Build<L>, letters: &[L], rows: usize) -> Result<Structure, Refusal> {
        let n = lent_entries(letters.len());
        let [mut previous, mut next, mut previous_match, mut next_match] =
            std::array::from_fn(|_| vec![0; n]);
        let mut tree = vec![0; tree_length(n)];
        let built = build(
            letters,
            rows,
            &mut previous,
            &mut next,
            &mut previous_match,
            &mut next_match,
            &mut tree,
        )?;
        Ok(Structure {
            built,
            previous,
            next,
            previous_match,
            next_match,
            tree,
        })
    }
}

/// The example of README.md runs too.
#[cfg(doctest)]
#[doc = include_str!("../../README.md")]
struct Readme;
