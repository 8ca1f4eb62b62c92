//! Lent memory with guards around it, and the checks that several tests make.

// Each test file uses a part of this module.
#![allow(dead_code)]

use std::fmt::Debug;

use lyndon::{raw, Built, Checked, Refusal, Step};
use reference::fast::{self, Scanned};
use reference::runs::{self, Run};
use reference::samples::Random;
use reference::{definitions, fast_brackets, Structure, Tables};

/// A build: the letters, the rows, the four tables and the tree.
pub type Build<L, A> =
    fn(&[L], usize, &mut [u32], &mut [u32], &mut [u32], &mut [u32], &mut [u8]) -> A;

/// A check: the letters, the claimed table and the four work tables.
pub type Check<L, A> = fn(&[L], &[u32], &mut [u32], &mut [u32], &mut [u32], &mut [u32]) -> A;

/// A report of runs: the letters, the three lists and the six work tables.
pub type Report<L> = fn(&[L], [&mut [u32]; 3], [&mut [u32]; 6]) -> raw::Reply;

/// A report of runs by the wrapper: the letters, the three lists and the work memory.
pub type RunsInto<L> =
    fn(&[L], &mut [u32], &mut [u32], &mut [u32], &mut [u32]) -> Result<usize, Refusal>;

/// A letter of one byte or a symbol of 32 bits, with the library's functions for it.
pub trait Letter: Scanned {
    const BUILD: Build<Self, Result<Built, Refusal>>;
    const BUILD_RAW: Build<Self, raw::BuildReply>;
    const WORD: fn(&[Self], usize) -> Result<&[Self], Refusal>;
    const WORD_RAW: fn(&[Self], usize) -> raw::PartReply;
    const RUNS: RunsInto<Self>;
    const RUNS_RAW: Report<Self>;
    const CHECK: Check<Self, Result<Checked, Refusal>>;
    const CHECK_RAW: Check<Self, raw::CheckReply>;
}

impl Letter for u8 {
    const BUILD: Build<u8, Result<Built, Refusal>> = lyndon::build;
    const BUILD_RAW: Build<u8, raw::BuildReply> = raw::build;
    const WORD: fn(&[u8], usize) -> Result<&[u8], Refusal> = lyndon::longest_word;
    const WORD_RAW: fn(&[u8], usize) -> raw::PartReply = raw::word;
    const RUNS: RunsInto<u8> = lyndon::runs_into;
    const RUNS_RAW: Report<u8> = raw::runs;
    const CHECK: Check<u8, Result<Checked, Refusal>> = lyndon::check_into;
    const CHECK_RAW: Check<u8, raw::CheckReply> = raw::check;
}

impl Letter for u32 {
    const BUILD: Build<u32, Result<Built, Refusal>> = lyndon::build32;
    const BUILD_RAW: Build<u32, raw::BuildReply> = raw::build32;
    const WORD: fn(&[u32], usize) -> Result<&[u32], Refusal> = lyndon::longest_word32;
    const WORD_RAW: fn(&[u32], usize) -> raw::PartReply = raw::word32;
    const RUNS: RunsInto<u32> = lyndon::runs32_into;
    const RUNS_RAW: Report<u32> = raw::runs32;
    const CHECK: Check<u32, Result<Checked, Refusal>> = lyndon::check32_into;
    const CHECK_RAW: Check<u32, raw::CheckReply> = raw::check32;
}

/// A question put to a tree: n, the tree's bytes and a position. A refusal is its number.
pub type Question = fn(usize, &[u8], usize) -> Result<usize, u32>;

/// The three questions as the library answers them: place, previous, next.
pub const LIBRARY: [Question; 3] = [
    |n, tree, position| lyndon::place(n, tree, position).map_err(Refusal::number),
    |n, tree, position| lyndon::previous(n, tree, position).map_err(Refusal::number),
    |n, tree, position| lyndon::next(n, tree, position).map_err(Refusal::number),
];

/// The three questions as the fast reference answers them.
pub const FAST: [Question; 3] = [
    fast_brackets::place,
    fast_brackets::previous,
    fast_brackets::next,
];

/// The entries before and after a lent list that must stay as they are.
const GUARD: usize = 5;

/// What lent memory holds before a call. The two differ at every entry, so that a write of whatever
/// value changes one of them.
pub const FILLS: [Fill; 2] = [Fill(false), Fill(true)];

/// One of the two patterns.
#[derive(Debug, Clone, Copy)]
pub struct Fill(bool);

/// An entry of a lent list.
pub trait Entry: Copy + PartialEq + Debug {
    /// The entry with the low bits of `bits`.
    fn from_bits(bits: u64) -> Self;
}

impl Entry for u32 {
    fn from_bits(bits: u64) -> u32 {
        bits as u32
    }
}

impl Entry for u8 {
    fn from_bits(bits: u64) -> u8 {
        bits as u8
    }
}

impl Fill {
    fn entry<T: Entry>(self, index: usize) -> T {
        let bits = (index as u64 + 1).wrapping_mul(0x9e37_79b9_7f4a_7c15) >> 29;
        T::from_bits(if self.0 { !bits } else { bits })
    }
}

/// A list to be lent, filled with a pattern, with guard entries on both sides.
pub struct Guarded<T> {
    entries: Vec<T>,
    fill: Fill,
}

impl<T: Entry> Guarded<T> {
    pub fn new(length: usize, fill: Fill) -> Guarded<T> {
        Guarded {
            entries: (0..length + 2 * GUARD).map(|i| fill.entry(i)).collect(),
            fill,
        }
    }

    /// A list to be lent that holds these entries.
    pub fn holding(entries: &[T], fill: Fill) -> Guarded<T> {
        let mut list = Guarded::new(entries.len(), fill);
        list.lent().copy_from_slice(entries);
        list
    }

    /// The list without its guards, to be lent.
    pub fn lent(&mut self) -> &mut [T] {
        let end = self.entries.len() - GUARD;
        &mut self.entries[GUARD..end]
    }

    /// The list after a call, which has left the guards as they were.
    pub fn contents(&self) -> &[T] {
        let end = self.entries.len() - GUARD;
        let guards = (0..GUARD).chain(end..self.entries.len());
        for i in guards {
            assert_eq!(
                self.entries[i],
                self.fill.entry(i),
                "a guard at {i} has changed"
            );
        }
        &self.entries[GUARD..end]
    }

    /// Asserts that nothing has been written.
    pub fn assert_untouched(&self) {
        for (i, entry) in self.entries.iter().enumerate() {
            assert_eq!(
                *entry,
                self.fill.entry(i),
                "entry {i}, guards included, has changed"
            );
        }
    }
}

/// The memory that a build is lent.
pub struct Lent {
    pub previous: Guarded<u32>,
    pub next: Guarded<u32>,
    pub previous_match: Guarded<u32>,
    pub next_match: Guarded<u32>,
    pub tree: Guarded<u8>,
}

impl Lent {
    /// Tables and a tree of the given lengths.
    pub fn new(tables: [usize; 4], tree: usize, fill: Fill) -> Lent {
        let [previous, next, previous_match, next_match] = tables.map(|n| Guarded::new(n, fill));
        Lent {
            previous,
            next,
            previous_match,
            next_match,
            tree: Guarded::new(tree, fill),
        }
    }

    /// Builds through the safe wrapper.
    pub fn build<L: Letter>(&mut self, letters: &[L], rows: usize) -> Result<Built, Refusal> {
        self.build_by(L::BUILD, letters, rows)
    }

    /// Builds through the exported function.
    pub fn build_raw<L: Letter>(&mut self, letters: &[L], rows: usize) -> raw::BuildReply {
        self.build_by(L::BUILD_RAW, letters, rows)
    }

    fn build_by<L, A>(&mut self, build: Build<L, A>, letters: &[L], rows: usize) -> A {
        build(
            letters,
            rows,
            self.previous.lent(),
            self.next.lent(),
            self.previous_match.lent(),
            self.next_match.lent(),
            self.tree.lent(),
        )
    }

    /// Asserts that nothing has been written.
    pub fn assert_untouched(&self) {
        self.previous.assert_untouched();
        self.next.assert_untouched();
        self.previous_match.assert_untouched();
        self.next_match.assert_untouched();
        self.tree.assert_untouched();
    }
}

/// The memory that a check is lent: previous, next, previous-match and next-match.
pub struct LentForCheck(pub [Guarded<u32>; 4]);

impl LentForCheck {
    /// Work tables of the given lengths.
    pub fn new(work: [usize; 4], fill: Fill) -> LentForCheck {
        LentForCheck(work.map(|length| Guarded::new(length, fill)))
    }

    /// Checks through the exported function.
    pub fn check_raw<L: Letter>(&mut self, letters: &[L], claimed: &[u32]) -> raw::CheckReply {
        self.check_by(L::CHECK_RAW, letters, claimed)
    }

    /// Checks through the safe wrapper.
    pub fn check<L: Letter>(&mut self, letters: &[L], claimed: &[u32]) -> Result<Checked, Refusal> {
        self.check_by(L::CHECK, letters, claimed)
    }

    fn check_by<L, A>(&mut self, check: Check<L, A>, letters: &[L], claimed: &[u32]) -> A {
        let [previous, next, previous_match, next_match] = self.0.each_mut().map(Guarded::lent);
        check(letters, claimed, previous, next, previous_match, next_match)
    }

    /// Asserts that the work tables hold these tables.
    pub fn assert_tables(&self, tables: &Tables) {
        let names = ["previous", "next", "previous-match", "next-match"];
        let expected = [
            &tables.previous,
            &tables.next,
            &tables.previous_match,
            &tables.next_match,
        ];
        for (k, name) in names.into_iter().enumerate() {
            assert_list(name, self.0[k].contents(), expected[k]);
        }
    }
}

/// Asserts that a check finds what is expected, the least wrong position or none, and that the work tables
/// hold the tables of the whole string then: by the exported function, and by the wrapper's.
pub fn assert_check<L: Letter>(
    letters: &[L],
    claimed: &[u32],
    expected: Option<usize>,
    tables: &Tables,
    fill: Fill,
) {
    let mut lent = LentForCheck::new([letters.len(); 4], fill);
    let reply = raw::CheckReply {
        refusal: 0,
        right: u32::from(expected.is_none()),
        position: expected.unwrap_or(0),
    };
    assert_eq!(lent.check_raw(letters, claimed), reply);
    lent.assert_tables(tables);
    let mut lent = LentForCheck::new([letters.len(); 4], fill);
    let found = expected.map_or(Checked::Right, Checked::WrongAt);
    assert_eq!(lent.check(letters, claimed), Ok(found));
    lent.assert_tables(tables);
}

/// The memory that a report of runs is lent.
pub struct LentForRuns {
    /// The starts, the ends and the periods.
    pub lists: [Guarded<u32>; 3],
    pub work: [Guarded<u32>; 6],
}

impl LentForRuns {
    /// Lists and work tables of the given lengths.
    pub fn new(lists: [usize; 3], work: [usize; 6], fill: Fill) -> LentForRuns {
        LentForRuns {
            lists: lists.map(|length| Guarded::new(length, fill)),
            work: work.map(|length| Guarded::new(length, fill)),
        }
    }

    /// Reports through the exported function.
    pub fn report_raw<L: Letter>(&mut self, letters: &[L]) -> raw::Reply {
        L::RUNS_RAW(
            letters,
            self.lists.each_mut().map(Guarded::lent),
            self.work.each_mut().map(Guarded::lent),
        )
    }

    /// Asserts that every work table holds 0.
    pub fn assert_cleared(&self) {
        for (k, table) in self.work.iter().enumerate() {
            let zeros = vec![0; table.contents().len()];
            assert_list(&format!("work table {}", k + 1), table.contents(), &zeros);
        }
    }
}

/// Asserts that the report is `expected`, in lists of so many entries, and that the work tables hold 0
/// then.
pub fn assert_runs<L: Letter>(letters: &[L], entries: usize, expected: &[Run], fill: Fill) {
    let mut lent = LentForRuns::new([entries; 3], [letters.len(); 6], fill);
    let reply = lent.report_raw(letters);
    let value = expected.len();
    assert_eq!(reply, raw::Reply { refusal: 0, value }, "the reply");
    let lists = runs::lists(expected, entries);
    for (k, name) in ["starts", "ends", "periods"].into_iter().enumerate() {
        assert_list(name, lent.lists[k].contents(), &lists[k]);
    }
    lent.assert_cleared();
}

/// Asserts that the report over memory of these lengths is refused, and that it leaves all of it; or, for
/// 13, the lists, and clears the work tables.
pub fn assert_runs_refused<L: Letter>(
    letters: &[L],
    lists: [usize; 3],
    work: [usize; 6],
    number: u32,
    fill: Fill,
) {
    let mut lent = LentForRuns::new(lists, work, fill);
    let reply = lent.report_raw(letters);
    let refused = raw::Reply {
        refusal: number,
        value: 0,
    };
    assert_eq!(
        reply, refused,
        "lists of {lists:?}, work tables of {work:?}"
    );
    lent.lists.iter().for_each(Guarded::assert_untouched);
    if number == 13 {
        lent.assert_cleared();
    } else {
        lent.work.iter().for_each(Guarded::assert_untouched);
    }
}

/// Asserts that a build of `rows` rows gives the expected answer and leaves the expected memory.
pub fn assert_build<L: Letter>(letters: &[L], rows: usize, expected: &Structure) {
    let n = letters.len();
    let mut lent = Lent::new([n; 4], lyndon::tree_length(n), FILLS[rows % 2]);
    let built = lent
        .build(letters, rows)
        .expect("a build that no refusal applies to");
    let figures = &expected.figures;
    assert_eq!(
        (built.finished, built.rows, built.reach),
        (figures.finished, figures.rows, figures.reach),
        "finished, rows, reach"
    );
    assert_eq!(
        (built.equal, built.unequal),
        (figures.equal, figures.unequal),
        "equal comparisons, unequal ones"
    );
    assert_list(
        "previous",
        lent.previous.contents(),
        &expected.tables.previous,
    );
    assert_list("next", lent.next.contents(), &expected.tables.next);
    assert_list(
        "previous-match",
        lent.previous_match.contents(),
        &expected.tables.previous_match,
    );
    assert_list(
        "next-match",
        lent.next_match.contents(),
        &expected.tables.next_match,
    );
    assert_list("tree", lent.tree.contents(), &expected.tree);
    if rows > 0 {
        assert!(built.equal < built.reach, "equal comparisons");
        assert!(built.unequal <= 2 * (rows - 1), "unequal comparisons");
        assert!(built.reach <= n, "the reach");
    }
}

/// Asserts that two lists are equal, naming the first place where they are not.
pub fn assert_list<T: Entry>(name: &str, list: &[T], expected: &[T]) {
    assert_eq!(list.len(), expected.len(), "the length of {name}");
    if list != expected {
        let i = (0..list.len())
            .find(|&i| list[i] != expected[i])
            .expect("a differing entry");
        panic!("{name}[{i}] is {:?}, expected {:?}", list[i], expected[i]);
    }
}

/// Asserts that a tree of `n` positions is read into the expected tables.
pub fn assert_read(n: usize, tree: &[u8], previous: &[u32], next: &[u32]) {
    let [mut previous_read, mut next_read] = FILLS.map(|fill| Guarded::new(n, fill));
    let outcome = lyndon::read(n, tree, previous_read.lent(), next_read.lent());
    assert_eq!(outcome, Ok(()));
    assert_list("previous as read", previous_read.contents(), previous);
    assert_list("next as read", next_read.contents(), next);
}

/// Asserts that reading into tables of the given lengths is refused and writes nothing.
pub fn assert_read_refused(n: usize, tree: &[u8], tables: [usize; 2], number: u32) {
    for fill in FILLS {
        let [mut previous, mut next] = tables.map(|length| Guarded::new(length, fill));
        let outcome = lyndon::read(n, tree, previous.lent(), next.lent());
        assert_eq!(
            outcome.map_err(Refusal::number),
            Err(number),
            "reading at n = {n}"
        );
        previous.assert_untouched();
        next.assert_untouched();
    }
}

/// Writes the string of a tree into lent memory of so many symbols, which it returns, and asserts that the
/// tree is only read.
fn tree_string(
    n: usize,
    tree: &[u8],
    symbols: usize,
    fill: Fill,
) -> (Result<(), Refusal>, Guarded<u32>) {
    let mut lent_tree = Guarded::holding(tree, fill);
    let mut symbols = Guarded::new(symbols, fill);
    let outcome = lyndon::tree_string_into(n, lent_tree.lent(), symbols.lent());
    assert_list("the tree", lent_tree.contents(), tree);
    (outcome, symbols)
}

/// Asserts that the string of a tree of `n` positions is the expected one, in lent memory and in memory of its
/// own.
pub fn assert_tree_string(n: usize, tree: &[u8], expected: &[u32]) {
    for fill in FILLS {
        let (outcome, symbols) = tree_string(n, tree, n, fill);
        assert_eq!(outcome, Ok(()), "the string at n = {n}");
        assert_list("the string", symbols.contents(), expected);
    }
    let symbols = lyndon::tree_string(n, tree).expect("a balanced tree");
    assert_list("the string", &symbols, expected);
}

/// Asserts that the string of a tree is refused in a buffer of so many symbols, and that nothing is written.
pub fn assert_tree_string_refused(n: usize, tree: &[u8], symbols: usize, number: u32) {
    for fill in FILLS {
        let (outcome, symbols) = tree_string(n, tree, symbols, fill);
        assert_eq!(
            outcome.map_err(Refusal::number),
            Err(number),
            "the string at n = {n}"
        );
        symbols.assert_untouched();
    }
    // In memory of its own there is no refusal 2.
    if number != 2 {
        let refused = lyndon::tree_string(n, tree).map(drop);
        assert_eq!(refused.map_err(Refusal::number), Err(number));
    }
}

/// Asserts that the first tree of a size is the expected one, in lent memory and in memory of its own.
pub fn assert_first_tree(size: usize, expected: &[u8]) {
    for fill in FILLS {
        let mut tree = Guarded::new(expected.len(), fill);
        assert_eq!(lyndon::first_tree_into(size, tree.lent()), Ok(()));
        assert_list("the first tree", tree.contents(), expected);
    }
    let tree = lyndon::first_tree(size).expect("a size that is taken");
    assert_list("the first tree", &tree, expected);
}

/// Asserts that the first tree of a size is refused in a buffer of so many bytes, and that nothing is written.
pub fn assert_first_tree_refused(size: usize, length: usize, number: u32) {
    for fill in FILLS {
        let mut tree = Guarded::new(length, fill);
        let outcome = lyndon::first_tree_into(size, tree.lent());
        assert_eq!(
            outcome.map_err(Refusal::number),
            Err(number),
            "the first tree of size {size} in {length} bytes"
        );
        tree.assert_untouched();
    }
    // In memory of its own there is no refusal 3.
    if number != 3 {
        let refused = lyndon::first_tree(size).map(drop);
        assert_eq!(refused.map_err(Refusal::number), Err(number));
        let refused = lyndon::all_trees(size).map(drop);
        assert_eq!(refused.map_err(Refusal::number), Err(number));
    }
}

/// Goes on from a tree in lent memory, by the exported function and by the wrapper's, and returns both answers.
/// Asserts that the memory holds `left` afterwards.
fn next_tree(size: usize, tree: &[u8], left: &[u8]) -> (raw::NextReply, Result<Step, Refusal>) {
    let [mut by_export, mut by_wrapper] = FILLS.map(|fill| Guarded::holding(tree, fill));
    let lent = by_export.lent();
    // SAFETY: the pointer comes from an exclusive slice with its length.
    let reply = unsafe { raw::lyndon_next_tree(size, lent.as_mut_ptr(), lent.len()) };
    let outcome = lyndon::next_tree(size, by_wrapper.lent());
    assert_list("the tree", by_export.contents(), left);
    assert_list("the tree", by_wrapper.contents(), left);
    (reply, outcome)
}

/// Asserts that the tree after a tree is the expected one; or, for none, that it is the last and left as it was.
pub fn assert_next_tree(size: usize, tree: &[u8], expected: Option<&[u8]>) {
    let (reply, outcome) = next_tree(size, tree, expected.unwrap_or(tree));
    let (last, step) = match expected {
        Some(_) => (0, Step::Next),
        None => (1, Step::Last),
    };
    assert_eq!(reply, raw::NextReply { refusal: 0, last });
    assert_eq!(outcome, Ok(step));
}

/// Asserts that going on from a tree is refused, and that nothing is written.
pub fn assert_next_tree_refused(size: usize, tree: &[u8], number: u32) {
    let (reply, outcome) = next_tree(size, tree, tree);
    let refused = raw::NextReply {
        refusal: number,
        last: 0,
    };
    assert_eq!(reply, refused, "size {size}");
    assert_eq!(outcome.map_err(Refusal::number), Err(number));
}

/// Asserts what the tree of `rows` rows of an `n`-letter string gives: read at n the whole tables, or
/// refusal 7 where halted; and its first bytes, read with `rows` for n, the entries below `rows`.
pub fn assert_tree_of_build(n: usize, structure: &Structure) {
    let (tables, rows) = (&structure.tables, structure.figures.rows);
    if rows == n {
        assert_read(n, &structure.tree, &tables.previous, &tables.next);
        return;
    }
    assert_read_refused(n, &structure.tree, [n, n], 7);
    let first_bytes = &structure.tree[..lyndon::tree_length(rows)];
    let none_as_rows = |table: &[u32]| -> Vec<u32> {
        table[..rows]
            .iter()
            .map(|&e| if e == n as u32 { rows as u32 } else { e })
            .collect()
    };
    assert_read(
        rows,
        first_bytes,
        &none_as_rows(&tables.previous),
        &none_as_rows(&tables.next),
    );
}

/// Asserts that the library answers the three questions as `expected` does.
pub fn assert_questions(n: usize, tree: &[u8], position: usize, expected: [Question; 3]) {
    for (k, name) in ["place", "previous", "next"].into_iter().enumerate() {
        assert_eq!(
            LIBRARY[k](n, tree, position),
            expected[k](n, tree, position),
            "{name} of {position} in a tree of {n} positions"
        );
    }
}

/// Asserts that the longest word at `position` is the expected part of `letters` itself, as they stand.
pub fn assert_word<L: Letter>(letters: &[L], position: usize, expected: &[L]) {
    let word = L::WORD(letters, position).expect("a position inside the string");
    assert_eq!(
        word.as_ptr_range(),
        expected.as_ptr_range(),
        "the longest word at {position}"
    );
}

/// Compares the answers for the string with the definitions: the build at every number of rows, the tree,
/// the longest word at every position, and the runs.
pub fn check_by_definitions<L: Letter>(letters: &[L]) {
    let n = letters.len();
    for rows in 0..=n {
        let expected = definitions::build(letters, rows);
        assert_build(letters, rows, &expected);
        assert_tree_of_build(n, &expected);
    }
    for position in 0..n {
        assert_word(
            letters,
            position,
            definitions::longest_word(letters, position),
        );
    }
    let expected = runs::by_definition(letters);
    assert_runs(letters, n, &expected, FILLS[n % 2]);
}

/// Builds the string whole and with `halts` random numbers of rows, and asks at random positions.
pub fn check_builds<L: Letter>(random: &mut Random, letters: &[L], halts: usize) {
    let n = letters.len();
    let whole = fast::structure(letters, n);
    assert_build(letters, n, &whole);
    assert_tree_of_build(n, &whole);
    for position in [0, n / 2, n - 1]
        .into_iter()
        .chain((0..5).map(|_| random.below(n)))
    {
        let word = fast::longest_word(letters, position);
        assert_eq!(word.len(), whole.tables.next[position] as usize - position);
        assert_word(letters, position, word);
        assert_questions(n, &whole.tree, position, FAST);
    }
    for _ in 0..halts {
        let rows = random.below(n);
        let halted = fast::structure(letters, rows);
        assert_build(letters, rows, &halted);
        assert_tree_of_build(n, &halted);
    }
}

/// Asserts that lists with one entry too few are refused, and that the runs are reported in lists with
/// just enough entries, with one more, and with one fewer than letters.
pub fn check_runs<L: Letter>(letters: &[L], expected: &[Run]) {
    let (n, number) = (letters.len(), expected.len());
    assert!(number < n.max(1), "fewer runs than letters");
    for (k, entries) in [number, number + 1, n.saturating_sub(1)]
        .into_iter()
        .enumerate()
    {
        assert_runs(letters, entries, expected, FILLS[k % 2]);
    }
    if number > 0 {
        let fill = FILLS[number % 2];
        assert_runs_refused(letters, [number - 1; 3], [n; 6], 13, fill);
    }
}

/// The entries that are tried at a position whose right entry is this one.
pub fn tried(n: usize, right: u32) -> impl Iterator<Item = u32> {
    let n = n as u32;
    let tried = [0, n, n + 1, u32::MAX, right.wrapping_sub(1), right + 1];
    tried.into_iter().filter(move |&entry| entry != right)
}

/// Asserts that the next table is right, and that each single wrong entry of those tried is found.
pub fn check_every_entry<L: Letter>(letters: &[L], tables: &Tables) {
    let n = letters.len();
    let mut claimed = tables.next.clone();
    assert_check(letters, &claimed, None, tables, FILLS[n % 2]);
    for i in 0..n {
        let right = claimed[i];
        for (k, entry) in tried(n, right).enumerate() {
            claimed[i] = entry;
            assert_check(letters, &claimed, Some(i), tables, FILLS[k % 2]);
        }
        claimed[i] = right;
    }
}

/// Asserts what is found in the right table, and where the first, a random, the last or two entries are
/// wrong.
pub fn check_some_entries<L: Letter>(random: &mut Random, letters: &[L]) {
    let n = letters.len();
    let tables = fast::structure(letters, n).tables;
    let mut claimed = tables.next.clone();
    assert_check(letters, &claimed, None, &tables, FILLS[0]);
    let middle = random.below(n);
    for (k, i) in [0, middle, n - 1].into_iter().enumerate() {
        let right = claimed[i];
        claimed[i] = tried(n, right).nth(k).expect("three are tried");
        assert_check(letters, &claimed, Some(i), &tables, FILLS[k % 2]);
        claimed[i] = right;
    }
    claimed[n - 1] = 0;
    claimed[middle] = u32::MAX;
    assert_check(letters, &claimed, Some(middle), &tables, FILLS[1]);
}
