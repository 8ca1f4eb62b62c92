//! The functions of `liblyndon.a` as they are exported, and the build, the word, the runs and the check over slices. A slice passes
//! as a pointer and a length. `include/lyndon.h` declares the same.

/// The version of these declarations, `LYNDON_VERSION` in the header. [`lyndon_version`] returns that of the archive.
pub const VERSION: u32 = 7;

/// The answer of [`lyndon_build`] and [`lyndon_build32`].
#[repr(C)]
#[derive(Debug, Clone, Copy, PartialEq, Eq)]
pub struct BuildReply {
    /// The refusal's number, 0 where not refused.
    pub refusal: u32,
    /// 1 where all rows are done, else 0.
    pub finished: u32,
    /// The rows done.
    pub rows: usize,
    /// The comparisons of the reuse steps (`docs/STEPS.md` of the repository) that find two letters equal.
    pub equal: usize,
    /// Those that find them unequal.
    pub unequal: usize,
    /// The reach after these rows: see [`Built`](crate::Built).
    pub reach: usize,
}

/// The answer to a question put to a tree, and that of [`lyndon_runs`] and [`lyndon_runs32`].
#[repr(C)]
#[derive(Debug, Clone, Copy, PartialEq, Eq)]
pub struct Reply {
    /// The refusal's number, 0 where not refused.
    pub refusal: u32,
    /// The answer, 0 where refused.
    pub value: usize,
}

/// The answer of [`lyndon_check`] and [`lyndon_check32`].
#[repr(C)]
#[derive(Debug, Clone, Copy, PartialEq, Eq)]
pub struct CheckReply {
    /// The refusal's number, 0 where not refused.
    pub refusal: u32,
    /// 1 where every entry of the claimed table is the defined one, else 0; 0 where refused.
    pub right: u32,
    /// The least position whose entry is wrong, 0 where none is and where refused.
    pub position: usize,
}

/// The answer of [`lyndon_next_tree`].
#[repr(C)]
#[derive(Debug, Clone, Copy, PartialEq, Eq)]
pub struct NextReply {
    /// The refusal's number, 0 where not refused.
    pub refusal: u32,
    /// 1 where the tree is the last of its size, else 0; 0 where refused.
    pub last: u32,
}

/// A part of the caller's string, counted in letters.
#[repr(C)]
#[derive(Debug, Clone, Copy, PartialEq, Eq)]
pub struct PartReply {
    /// The refusal's number, 0 where not refused.
    pub refusal: u32,
    /// Where the part starts, 0 where refused.
    pub start: usize,
    /// The part's length, 0 where refused.
    pub length: usize,
}

/// A tree in a cabinet file.
#[repr(C)]
#[derive(Debug, Clone, Copy, PartialEq, Eq)]
pub struct CabinetReply {
    /// The refusal's number, 0 where not refused.
    pub refusal: u32,
    /// The mark that the file begins with: 1 for `LYN1`, 2 for `LYN2`, 0 where refused. See [`Mark`](crate::Mark).
    pub mark: u32,
    /// The tree's letter count, 0 where refused.
    pub letters: u32,
    /// Where the tree starts in the file, 0 where refused.
    pub start: usize,
    /// The tree's length in bytes, 0 where refused.
    pub length: usize,
}

/// The functions for letters of one type over slices, each by the exported one.
macro_rules! over_slices {
    ($letter:ty: $build:ident by $lyndon_build:ident, $word:ident by $lyndon_word:ident,
     $runs:ident by $lyndon_runs:ident, $check:ident by $lyndon_check:ident) => {
        #[doc = concat!("[`", stringify!($lyndon_build), "`] over slices.")]
        pub fn $build(
            letters: &[$letter],
            rows: usize,
            previous: &mut [u32],
            next: &mut [u32],
            previous_match: &mut [u32],
            next_match: &mut [u32],
            tree: &mut [u8],
        ) -> BuildReply {
            // SAFETY: each pointer comes from a slice with its length, and exclusive slices do not overlap.
            unsafe {
                $lyndon_build(
                    letters.as_ptr(),
                    letters.len(),
                    rows,
                    previous.as_mut_ptr(),
                    previous.len(),
                    next.as_mut_ptr(),
                    next.len(),
                    previous_match.as_mut_ptr(),
                    previous_match.len(),
                    next_match.as_mut_ptr(),
                    next_match.len(),
                    tree.as_mut_ptr(),
                    tree.len(),
                )
            }
        }

        #[doc = concat!("[`", stringify!($lyndon_word), "`] over slices.")]
        pub fn $word(letters: &[$letter], position: usize) -> PartReply {
            // SAFETY: the pointer comes from a slice with its length.
            unsafe { $lyndon_word(letters.as_ptr(), letters.len(), position) }
        }

        #[doc = concat!("[`", stringify!($lyndon_runs), "`] over slices.")]
        /// `lists` are the starts, the ends and the periods.
        pub fn $runs(letters: &[$letter], lists: [&mut [u32]; 3], work: [&mut [u32]; 6]) -> Reply {
            let [starts, ends, periods] = lists;
            let [work_1, work_2, work_3, work_4, work_5, work_6] = work;
            // SAFETY: each pointer comes from a slice with its length, and exclusive slices do not overlap.
            unsafe {
                $lyndon_runs(
                    letters.as_ptr(),
                    letters.len(),
                    starts.as_mut_ptr(),
                    starts.len(),
                    ends.as_mut_ptr(),
                    ends.len(),
                    periods.as_mut_ptr(),
                    periods.len(),
                    work_1.as_mut_ptr(),
                    work_1.len(),
                    work_2.as_mut_ptr(),
                    work_2.len(),
                    work_3.as_mut_ptr(),
                    work_3.len(),
                    work_4.as_mut_ptr(),
                    work_4.len(),
                    work_5.as_mut_ptr(),
                    work_5.len(),
                    work_6.as_mut_ptr(),
                    work_6.len(),
                )
            }
        }

        #[doc = concat!("[`", stringify!($lyndon_check), "`] over slices.")]
        pub fn $check(
            letters: &[$letter],
            claimed: &[u32],
            previous: &mut [u32],
            next: &mut [u32],
            previous_match: &mut [u32],
            next_match: &mut [u32],
        ) -> CheckReply {
            // SAFETY: each pointer comes from a slice with its length, and exclusive slices do not overlap.
            unsafe {
                $lyndon_check(
                    letters.as_ptr(),
                    letters.len(),
                    claimed.as_ptr(),
                    claimed.len(),
                    previous.as_mut_ptr(),
                    previous.len(),
                    next.as_mut_ptr(),
                    next.len(),
                    previous_match.as_mut_ptr(),
                    previous_match.len(),
                    next_match.as_mut_ptr(),
                    next_match.len(),
                )
            }
        }
    };
}

over_slices! {
    u8: build by lyndon_build, word by lyndon_word, runs by lyndon_runs, check by lyndon_check
}
over_slices! {
    u32: build32 by lyndon_build32, word32 by lyndon_word32,
    runs32 by lyndon_runs32, check32 by lyndon_check32
}

extern "C" {
    /// The version of the archive's structures and functions.
    ///
    /// # Safety
    ///
    /// It may always be called.
    pub fn lyndon_version() -> u32;

    /// Builds the first `rows` rows.
    ///
    /// # Safety
    ///
    /// Each pointer is not null and points to as many entries as the length after it says. The lists
    /// that are written do not overlap any other list of the call.
    pub fn lyndon_build(
        letters: *const u8,
        letters_length: usize,
        rows: usize,
        previous: *mut u32,
        previous_length: usize,
        next: *mut u32,
        next_length: usize,
        previous_match: *mut u32,
        previous_match_length: usize,
        next_match: *mut u32,
        next_match_length: usize,
        tree: *mut u8,
        tree_length: usize,
    ) -> BuildReply;

    /// As [`lyndon_build`], of symbols of 32 bits. They compare as numbers, with no masking, and lengths count
    /// symbols and not bytes.
    ///
    /// # Safety
    ///
    /// As for [`lyndon_build`].
    pub fn lyndon_build32(
        symbols: *const u32,
        symbols_length: usize,
        rows: usize,
        previous: *mut u32,
        previous_length: usize,
        next: *mut u32,
        next_length: usize,
        previous_match: *mut u32,
        previous_match_length: usize,
        next_match: *mut u32,
        next_match_length: usize,
        tree: *mut u8,
        tree_length: usize,
    ) -> BuildReply;

    /// Reads a tree back into two tables. Returns the refusal's number, 0 where read.
    ///
    /// # Safety
    ///
    /// As for [`lyndon_build`].
    pub fn lyndon_read(
        n: usize,
        tree: *const u8,
        tree_length: usize,
        previous: *mut u32,
        previous_length: usize,
        next: *mut u32,
        next_length: usize,
    ) -> u32;

    /// The previous entry of a position.
    ///
    /// # Safety
    ///
    /// `tree` is not null and points to `tree_length` bytes.
    pub fn lyndon_previous(n: usize, tree: *const u8, tree_length: usize, position: usize)
        -> Reply;

    /// The next entry of a position.
    ///
    /// # Safety
    ///
    /// As for [`lyndon_previous`].
    pub fn lyndon_next(n: usize, tree: *const u8, tree_length: usize, position: usize) -> Reply;

    /// The bit place of a position's opening.
    ///
    /// # Safety
    ///
    /// As for [`lyndon_previous`].
    pub fn lyndon_place(n: usize, tree: *const u8, tree_length: usize, position: usize) -> Reply;

    /// Writes a string for a tree, of symbols of 32 bits. Returns the refusal's number, 0 where written.
    ///
    /// # Safety
    ///
    /// As for [`lyndon_build`].
    pub fn lyndon_tree_string(
        n: usize,
        tree: *const u8,
        tree_length: usize,
        symbols: *mut u32,
        symbols_length: usize,
    ) -> u32;

    /// Writes the first tree of a size. Returns the refusal's number, 0 where written.
    ///
    /// # Safety
    ///
    /// `tree` is not null and points to `tree_length` bytes.
    pub fn lyndon_first_tree(size: usize, tree: *mut u8, tree_length: usize) -> u32;

    /// Writes the tree after a tree in its place. Where it is the last of its size, nothing is written.
    ///
    /// # Safety
    ///
    /// As for [`lyndon_first_tree`].
    pub fn lyndon_next_tree(size: usize, tree: *mut u8, tree_length: usize) -> NextReply;

    /// The longest Lyndon word at a position, as a part of the caller's own letters.
    ///
    /// # Safety
    ///
    /// `letters` is not null and points to `letters_length` bytes.
    pub fn lyndon_word(letters: *const u8, letters_length: usize, position: usize) -> PartReply;

    /// As [`lyndon_word`], of symbols of 32 bits: see [`lyndon_build32`].
    ///
    /// # Safety
    ///
    /// `symbols` is not null, aligned, and points to `symbols_length` symbols.
    pub fn lyndon_word32(symbols: *const u32, symbols_length: usize, position: usize) -> PartReply;

    /// Reports all runs. The value is their number. The work tables have `letters_length` entries each.
    ///
    /// # Safety
    ///
    /// As for [`lyndon_build`].
    pub fn lyndon_runs(
        letters: *const u8,
        letters_length: usize,
        starts: *mut u32,
        starts_length: usize,
        ends: *mut u32,
        ends_length: usize,
        periods: *mut u32,
        periods_length: usize,
        work_1: *mut u32,
        work_1_length: usize,
        work_2: *mut u32,
        work_2_length: usize,
        work_3: *mut u32,
        work_3_length: usize,
        work_4: *mut u32,
        work_4_length: usize,
        work_5: *mut u32,
        work_5_length: usize,
        work_6: *mut u32,
        work_6_length: usize,
    ) -> Reply;

    /// As [`lyndon_runs`], of symbols of 32 bits: see [`lyndon_build32`].
    ///
    /// # Safety
    ///
    /// As for [`lyndon_build`].
    pub fn lyndon_runs32(
        symbols: *const u32,
        symbols_length: usize,
        starts: *mut u32,
        starts_length: usize,
        ends: *mut u32,
        ends_length: usize,
        periods: *mut u32,
        periods_length: usize,
        work_1: *mut u32,
        work_1_length: usize,
        work_2: *mut u32,
        work_2_length: usize,
        work_3: *mut u32,
        work_3_length: usize,
        work_4: *mut u32,
        work_4_length: usize,
        work_5: *mut u32,
        work_5_length: usize,
        work_6: *mut u32,
        work_6_length: usize,
    ) -> Reply;

    /// Checks a claimed next table. Where it is not refused, the work tables are left as by a finished build.
    ///
    /// # Safety
    ///
    /// As for [`lyndon_build`].
    pub fn lyndon_check(
        letters: *const u8,
        letters_length: usize,
        claimed: *const u32,
        claimed_length: usize,
        previous: *mut u32,
        previous_length: usize,
        next: *mut u32,
        next_length: usize,
        previous_match: *mut u32,
        previous_match_length: usize,
        next_match: *mut u32,
        next_match_length: usize,
    ) -> CheckReply;

    /// As [`lyndon_check`], of symbols of 32 bits: see [`lyndon_build32`].
    ///
    /// # Safety
    ///
    /// As for [`lyndon_build`].
    pub fn lyndon_check32(
        symbols: *const u32,
        symbols_length: usize,
        claimed: *const u32,
        claimed_length: usize,
        previous: *mut u32,
        previous_length: usize,
        next: *mut u32,
        next_length: usize,
        previous_match: *mut u32,
        previous_match_length: usize,
        next_match: *mut u32,
        next_match_length: usize,
    ) -> CheckReply;

    /// Writes a cabinet file, with the mark `LYN2`. Returns the refusal's number, 0 where written.
    ///
    /// # Safety
    ///
    /// As for [`lyndon_build`].
    pub fn lyndon_cabinet_write(
        counts: *const u32,
        counts_length: usize,
        trees: *const u8,
        trees_length: usize,
        file: *mut u8,
        file_length: usize,
    ) -> u32;

    /// Checks a whole cabinet file, of either mark, and finds the tree of one entry.
    ///
    /// # Safety
    ///
    /// `file` is not null and points to `file_length` bytes.
    pub fn lyndon_cabinet_read(file: *const u8, file_length: usize, entry: usize) -> CabinetReply;
}
