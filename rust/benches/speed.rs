//! Times the library beside plain Rust: builds, checks and runs of 1,000,000 letters, how their cost grows,
//! trees, strings for them, all small trees, and cabinets of trees; and builds, checks and runs of 1,000,000
//! symbols of 32 bits. `cargo bench -- runs` measures the runs of letters alone, and so for `builds`, `checks`,
//! `trees`, `strings`, `small_trees`, `cabinets` and `symbols`.
//!
//! Both sides take turns in one run, on the same input and the same buffers, which are not cleared
//! between. Each answer is compared with the first one, outside the measured time. The time is that which
//! the thread has on a processor.

use std::fmt::Debug;
use std::hint::black_box;

use lyndon::{raw, Built, Checked, Refusal, Step};
use reference::fast::{self, Scanned};
use reference::samples::{self, Random};
use reference::small_trees::MAX_SIZE;
use reference::{cabinet, fast_brackets, fast_runs, fast_small_trees, fast_tree_string, Figures};

const LETTERS: usize = 1_000_000;
const BUILD_ROUNDS: usize = 31;
const RUNS_ROUNDS: usize = 31;
const TREE_ROUNDS: usize = 101;
const CABINET_ROUNDS: usize = 31;
const SMALL_CALLS: usize = 10_000;

/// Linux's `struct timespec` on x86-64.
#[repr(C)]
struct TimeSpec {
    seconds: i64,
    nanoseconds: i64,
}

extern "C" {
    fn clock_gettime(clock: i32, time: *mut TimeSpec) -> i32;
}

/// The milliseconds that this thread has been on a processor.
fn thread_time() -> f64 {
    const CLOCK_THREAD_CPUTIME_ID: i32 = 3;
    let mut time = TimeSpec {
        seconds: 0,
        nanoseconds: 0,
    };
    // SAFETY: the pointer is that of a structure as C has it.
    let failed = unsafe { clock_gettime(CLOCK_THREAD_CPUTIME_ID, &mut time) };
    assert_eq!(failed, 0, "the thread's time");
    time.seconds as f64 * 1e3 + time.nanoseconds as f64 / 1e6
}

/// Measured times, or ratios of them.
struct Times(Vec<f64>);

impl Times {
    /// The time below which the given part of the times lies.
    fn quantile(&self, part: f64) -> f64 {
        let mut sorted = self.0.clone();
        sorted.sort_by(f64::total_cmp);
        sorted[(part * (sorted.len() - 1) as f64).round() as usize]
    }

    fn median(&self) -> f64 {
        self.quantile(0.5)
    }

    fn minimum(&self) -> f64 {
        self.quantile(0.0)
    }

    /// The times of every second round, from the given one on.
    fn every_second(&self, from: usize) -> Times {
        Times(self.0.iter().copied().skip(from).step_by(2).collect())
    }

    /// The distance of the quartiles as a part of the median.
    fn spread(&self) -> f64 {
        (self.quantile(0.75) - self.quantile(0.25)) / self.median()
    }
}

/// The times of the library and of plain Rust.
struct Comparison {
    library: Times,
    plain: Times,
}

impl Comparison {
    const COLUMNS: &'static str =
        "library ms | plain Rust ms | ratio of medians | ratio of minima | \
        median of ratios | plain against itself | spread of plain";

    /// Runs both sides in turn on the same state.
    fn run<S, A>(
        rounds: usize,
        state: &mut S,
        library: impl Fn(&mut S) -> A,
        plain: impl Fn(&mut S) -> A,
    ) -> Self
    where
        S: Clone + PartialEq,
        A: PartialEq + Debug,
    {
        // Once each from the same memory, which holds something else, so that every entry is written.
        let mut left = state.clone();
        let answer = library(&mut left);
        assert_eq!(plain(state), answer, "both sides give the same answer");
        assert!(*state == left, "both sides leave the same memory");
        let mut time = |side: &dyn Fn(&mut S) -> A| {
            let start = thread_time();
            let given = side(black_box(state));
            let time = thread_time() - start;
            assert_eq!(given, answer, "both sides give the same answer");
            assert!(*state == left, "both sides leave the same memory");
            time
        };
        let rounds = (0..rounds).map(|_| (time(&library), time(&plain)));
        let (library_times, plain_times) = rounds.unzip();
        Comparison {
            library: Times(library_times),
            plain: Times(plain_times),
        }
    }

    fn row(&self) -> String {
        let Comparison { library, plain } = self;
        let ratios = Times(library.0.iter().zip(&plain.0).map(|(l, p)| l / p).collect());
        let [even, odd] = [0, 1].map(|from| plain.every_second(from));
        format!(
            "{:.3} | {:.3} | {:.2} | {:.2} | {:.2} | {:.2} | {:.0} %",
            library.median(),
            plain.median(),
            library.median() / plain.median(),
            library.minimum() / plain.minimum(),
            ratios.median(),
            even.median() / odd.median(),
            100.0 * plain.spread(),
        )
    }
}

type Build<L> = fn(
    &[L],
    usize,
    &mut [u32],
    &mut [u32],
    &mut [u32],
    &mut [u32],
    &mut [u8],
) -> Result<Built, Refusal>;
type Check<L> =
    fn(&[L], &[u32], &mut [u32], &mut [u32], &mut [u32], &mut [u32]) -> Result<Checked, Refusal>;
type Report<L> = fn(&[L], [&mut [u32]; 3], [&mut [u32]; 6]) -> raw::Reply;

/// A letter of one byte or a symbol of 32 bits, with the library's functions for it.
trait Letter: Scanned {
    const NAMES: &'static str;
    const BUILD: Build<Self>;
    const CHECK: Check<Self>;
    const REPORT: Report<Self>;
}

impl Letter for u8 {
    const NAMES: &'static str = "letters";
    const BUILD: Build<u8> = lyndon::build;
    const CHECK: Check<u8> = lyndon::check_into;
    const REPORT: Report<u8> = raw::runs;
}

impl Letter for u32 {
    const NAMES: &'static str = "symbols of 32 bits";
    const BUILD: Build<u32> = lyndon::build32;
    const CHECK: Check<u32> = lyndon::check32_into;
    const REPORT: Report<u32> = raw::runs32;
}

/// Strings of the same kind of letters, each with its name.
type Kinds<L> = Vec<(&'static str, Vec<L>)>;

/// The memory that a build is lent: previous, next and their matches, and the tree.
#[derive(Clone, PartialEq)]
struct Buffers {
    tables: [Vec<u32>; 4],
    tree: Vec<u8>,
}

impl Buffers {
    fn new(n: usize) -> Buffers {
        let tables = std::array::from_fn(|_| vec![0; n]);
        Buffers {
            tables,
            tree: vec![0; n.div_ceil(4)],
        }
    }

    fn build_by_library<L: Letter>(&mut self, letters: &[L]) -> Figures {
        let ([a, b, c, d], tree) = (&mut self.tables, &mut self.tree);
        let built = L::BUILD(letters, letters.len(), a, b, c, d, tree).expect("not refused");
        Figures {
            finished: built.finished,
            rows: built.rows,
            equal: built.equal,
            unequal: built.unequal,
            reach: built.reach,
        }
    }

    fn build_by_plain_rust<L: Letter>(&mut self, letters: &[L]) -> Figures {
        let ([a, b, c, d], tree) = (&mut self.tables, &mut self.tree);
        fast::build(letters, letters.len(), a, b, c, d, tree).expect("not refused")
    }
}

/// Prints the title line of a table and the line below it.
fn print_head(columns: &str) {
    let line = "---|".repeat(columns.split('|').count());
    println!("\n| {columns} |\n|{line}");
}

/// The kinds of strings, and bases with and without masked ones.
fn kinds_for_builds(random: &mut Random, n: usize) -> Kinds<u8> {
    let mut kinds = samples::kinds(random, n);
    kinds.extend(samples::bases(random, n));
    kinds
}

fn compare_builds<L: Letter>(kinds: &Kinds<L>) {
    let letters = L::NAMES;
    println!("\nBuilds of {LETTERS} {letters}, {BUILD_ROUNDS} rounds.");
    print_head(&format!("{letters} | {}", Comparison::COLUMNS));
    let mut buffers = Buffers::new(LETTERS);
    for (kind, letters) in kinds {
        let comparison = Comparison::run(
            BUILD_ROUNDS,
            &mut buffers,
            |buffers| buffers.build_by_library(black_box(letters)),
            |buffers| buffers.build_by_plain_rust(black_box(letters)),
        );
        println!("| {kind} | {} |", comparison.row());
    }
}

/// The library's median nanoseconds a letter, and equal and unequal comparisons a letter, for each kind
/// of string.
fn costs(n: usize) -> Vec<(&'static str, String)> {
    let mut buffers = Buffers::new(n);
    let mut cost = |letters: &[u8]| {
        let mut counts = [0; 2];
        let times = (0..BUILD_ROUNDS).map(|_| {
            let start = thread_time();
            let built = buffers.build_by_library(black_box(letters));
            let time = thread_time() - start;
            counts = [built.equal, built.unequal];
            time * 1e6 / n as f64
        });
        let times = Times(times.collect());
        let [equal, unequal] = counts.map(|count| count as f64 / n as f64);
        format!("{:.1} | {equal:.2} | {unequal:.2}", times.median())
    };
    let kinds = kinds_for_builds(&mut Random::new(42), n).into_iter();
    kinds
        .map(|(kind, letters)| (kind, cost(&letters)))
        .collect()
}

fn measure_growth_of_builds() {
    println!("\nHow the library's build grows: median nanoseconds, equal and unequal comparisons a letter.");
    let lengths = [10_000, 100_000, LETTERS];
    let heads = lengths.map(|n| format!("{n} letters: ns | equal | unequal"));
    print_head(&format!("letters | {}", heads.join(" | ")));
    let columns = lengths.map(costs);
    for (k, (kind, _)) in columns[0].iter().enumerate() {
        let cells = columns.each_ref().map(|column| column[k].1.as_str());
        println!("| {kind} | {} |", cells.join(" | "));
    }
}

/// Checks of right next tables, which look at every entry.
fn compare_checks<L: Letter>(kinds: &Kinds<L>) {
    let letters = L::NAMES;
    println!("\nChecks of right next tables of {LETTERS} {letters}, {BUILD_ROUNDS} rounds.");
    print_head(&format!("{letters} | {}", Comparison::COLUMNS));
    let mut work: [Vec<u32>; 4] = std::array::from_fn(|_| vec![0; LETTERS]);
    for (kind, letters) in kinds {
        let claimed = fast::structure(letters, LETTERS).tables.next;
        let comparison = Comparison::run(
            BUILD_ROUNDS,
            &mut work,
            |[a, b, c, d]| {
                let found = L::CHECK(black_box(letters), &claimed, a, b, c, d);
                found.expect("not refused") == Checked::Right
            },
            |[a, b, c, d]| {
                let wrong = fast::check(black_box(letters), &claimed, a, b, c, d);
                wrong.expect("not refused").is_none()
            },
        );
        println!("| {kind} | {} |", comparison.row());
    }
}

/// The memory that a report of runs is lent: starts, ends and periods, and the work tables.
#[derive(Clone, PartialEq)]
struct RunsBuffers {
    lists: [Vec<u32>; 3],
    work: [Vec<u32>; 6],
}

impl RunsBuffers {
    /// For `n` letters, holding something else than what a report leaves.
    fn new(n: usize) -> RunsBuffers {
        RunsBuffers {
            lists: std::array::from_fn(|_| vec![7; n - 1]),
            work: std::array::from_fn(|_| vec![7; n]),
        }
    }

    fn report_by_library<L: Letter>(&mut self, letters: &[L]) -> usize {
        let reply = L::REPORT(
            letters,
            self.lists.each_mut().map(Vec::as_mut_slice),
            self.work.each_mut().map(Vec::as_mut_slice),
        );
        assert_eq!(reply.refusal, 0, "not refused");
        reply.value
    }

    fn report_by_plain_rust<L: Letter>(&mut self, letters: &[L]) -> usize {
        fast_runs::report(
            letters,
            self.lists.each_mut().map(Vec::as_mut_slice),
            self.work.each_mut().map(Vec::as_mut_slice),
        )
        .expect("not refused")
    }
}

/// The kinds of strings, and more for the runs: on squares the report moves the most entries, on the ruler
/// it compares the most letters for no run at all. Fibonacci has the most comparisons. The last are bases in
/// mixed case at random.
fn kinds_for_runs(random: &mut Random, n: usize) -> Kinds<u8> {
    let mut kinds = samples::kinds(random, n);
    kinds.extend([
        ("period doubling", samples::period_doubling(n)),
        ("squares", samples::squares(n)),
        ("ruler", samples::ruler(n)),
    ]);
    kinds.extend(samples::bases(random, n).pop());
    kinds
}

fn compare_runs<L: Letter>(kinds: &Kinds<L>) {
    let letters = L::NAMES;
    println!("\nRuns of {LETTERS} {letters}, {RUNS_ROUNDS} rounds.");
    print_head(&format!("{letters} | runs | {}", Comparison::COLUMNS));
    for (kind, letters) in kinds {
        let mut buffers = RunsBuffers::new(LETTERS);
        let comparison = Comparison::run(
            RUNS_ROUNDS,
            &mut buffers,
            |buffers| buffers.report_by_library(black_box(letters)),
            |buffers| buffers.report_by_plain_rust(black_box(letters)),
        );
        let number = buffers.report_by_library(letters);
        println!("| {kind} | {number} | {} |", comparison.row());
    }
}

fn measure_growth_of_runs() {
    println!(
        "\nHow the library's report of runs grows: median nanoseconds a letter, and runs a letter."
    );
    let lengths = [10_000, 100_000, LETTERS];
    let heads = lengths.map(|n| format!("{n} letters: ns | runs"));
    print_head(&format!("letters | {}", heads.join(" | ")));
    let columns = lengths.map(|n| {
        let mut buffers = RunsBuffers::new(n);
        let mut cost = |letters: &[u8]| {
            let mut number = 0;
            let times = (0..RUNS_ROUNDS).map(|_| {
                let start = thread_time();
                number = buffers.report_by_library(black_box(letters));
                (thread_time() - start) * 1e6 / n as f64
            });
            let times = Times(times.collect());
            format!("{:.1} | {:.2}", times.median(), number as f64 / n as f64)
        };
        let kinds = kinds_for_runs(&mut Random::new(45), n).into_iter();
        kinds
            .map(|(kind, letters)| (kind, cost(&letters)))
            .collect::<Vec<_>>()
    });
    for (k, (kind, _)) in columns[0].iter().enumerate() {
        let cells = columns.each_ref().map(|column| column[k].1.as_str());
        println!("| {kind} | {} |", cells.join(" | "));
    }
}

fn compare_readings(trees: &[(&str, Vec<u8>)]) {
    println!("\nTrees of {LETTERS} positions read into tables, {TREE_ROUNDS} rounds.");
    print_head(&format!("tree | {}", Comparison::COLUMNS));
    for (name, tree) in trees {
        let mut tables = (vec![0; LETTERS], vec![0; LETTERS]);
        let comparison = Comparison::run(
            TREE_ROUNDS,
            &mut tables,
            |(previous, next)| lyndon::read(LETTERS, black_box(tree), previous, next).is_ok(),
            |(previous, next)| {
                fast_brackets::read(LETTERS, black_box(tree), previous, next).is_ok()
            },
        );
        println!("| {name} | {} |", comparison.row());
    }
}

type Library = fn(usize, &[u8], usize) -> Result<usize, lyndon::Refusal>;
type Plain = fn(usize, &[u8], usize) -> Result<usize, u32>;

fn compare_questions(trees: &[(&str, Vec<u8>)]) {
    let (middle, last) = (LETTERS / 2, LETTERS - 1);
    let questions: [(&str, usize, Library, Plain); 6] = [
        ("place", 0, lyndon::place, fast_brackets::place),
        ("place", middle, lyndon::place, fast_brackets::place),
        ("place", last, lyndon::place, fast_brackets::place),
        ("previous", last, lyndon::previous, fast_brackets::previous),
        ("next", 0, lyndon::next, fast_brackets::next),
        ("next", middle, lyndon::next, fast_brackets::next),
    ];
    println!("\nQuestions to trees of {LETTERS} positions, {TREE_ROUNDS} rounds.");
    print_head(&format!("tree | question | {}", Comparison::COLUMNS));
    for (name, tree) in trees {
        for (question, position, library, plain) in questions {
            let comparison = Comparison::run(
                TREE_ROUNDS,
                &mut (),
                |()| library(LETTERS, black_box(tree), black_box(position)).ok(),
                |()| plain(LETTERS, black_box(tree), black_box(position)).ok(),
            );
            println!(
                "| {name} | {question} of {position} | {} |",
                comparison.row()
            );
        }
    }
}

/// Each question put to every position of small trees in turn, and the trees read.
fn compare_small_trees() {
    let questions: [(&str, Library, Plain); 3] = [
        ("place", lyndon::place, fast_brackets::place),
        ("previous", lyndon::previous, fast_brackets::previous),
        ("next", lyndon::next, fast_brackets::next),
    ];
    let mut random = Random::new(46);
    let trees = [
        (6, fast::structure(b"banana", 6).tree),
        (40, samples::random_tree(&mut random, 40, 5)),
        (1_000, samples::random_tree(&mut random, 1_000, 5)),
    ];
    println!("\nSmall trees, {SMALL_CALLS} calls a round, {TREE_ROUNDS} rounds.");
    print_head(&format!("positions | call | {}", Comparison::COLUMNS));
    for (n, tree) in trees {
        for (question, library, plain) in questions {
            let positions = || (0..n).cycle().take(SMALL_CALLS);
            let ask = |i: usize| library(n, black_box(&tree), i).unwrap_or(n);
            let ask_plain = |i: usize| plain(n, black_box(&tree), i).unwrap_or(n);
            let comparison = Comparison::run(
                TREE_ROUNDS,
                &mut (),
                |()| positions().map(ask).sum::<usize>(),
                |()| positions().map(ask_plain).sum::<usize>(),
            );
            println!("| {n} | {question} | {} |", comparison.row());
        }
        let calls = || 0..SMALL_CALLS;
        let comparison = Comparison::run(
            TREE_ROUNDS,
            &mut (vec![0; n], vec![0; n]),
            |(previous, next)| {
                calls().all(|_| lyndon::read(n, black_box(&tree), previous, next).is_ok())
            },
            |(previous, next)| {
                calls().all(|_| fast_brackets::read(n, black_box(&tree), previous, next).is_ok())
            },
        );
        println!("| {n} | read | {} |", comparison.row());
    }
}

/// Plain Rust that writes the string for a tree.
type Write = fn(usize, &[u8], &mut [u32]) -> Result<(), u32>;

/// Prints rows of the strings for these trees of `n` positions, each written once a round: beside plain Rust
/// without a branch that depends on a bracket, and with one at each bracket. Either is faster for some trees.
fn print_strings(name: &str, n: usize, trees: &[Vec<u8>]) {
    let ways: [(&str, Write); 2] = [
        ("without branches", fast_tree_string::write),
        ("with branches", fast_tree_string::write_with_branches),
    ];
    let trees = || black_box(trees).iter();
    for (way, plain) in ways {
        let comparison = Comparison::run(
            TREE_ROUNDS,
            &mut vec![7; n],
            |symbols| trees().all(|tree| lyndon::tree_string_into(n, tree, symbols).is_ok()),
            |symbols| trees().all(|tree| plain(n, tree, symbols).is_ok()),
        );
        println!("| {name} | {way} | {} |", comparison.row());
    }
}

fn compare_strings(trees: &[(&str, Vec<u8>)]) {
    println!("\nStrings for trees of {LETTERS} positions, {TREE_ROUNDS} rounds.");
    print_head(&format!("tree | plain Rust | {}", Comparison::COLUMNS));
    for (name, tree) in trees {
        print_strings(name, LETTERS, std::slice::from_ref(tree));
    }
}

/// Many small trees, since a processor learns the brackets of a few that it meets again and again.
fn compare_strings_of_small_trees() {
    println!("\nStrings for {SMALL_CALLS} random trees a round, {TREE_ROUNDS} rounds.");
    print_head(&format!("positions | plain Rust | {}", Comparison::COLUMNS));
    let mut random = Random::new(49);
    for n in [6, 40, 1_000] {
        let tree = |_| samples::random_tree(&mut random, n, 5);
        let trees: Vec<_> = (0..SMALL_CALLS).map(tree).collect();
        print_strings(&n.to_string(), n, &trees);
    }
}

/// All trees of the greatest size, one after the other in one buffer. The answer is their number.
fn compare_all_trees() {
    let size = black_box(MAX_SIZE);
    println!("\nAll trees of size {size}, {TREE_ROUNDS} rounds.");
    print_head(&format!("trees | {}", Comparison::COLUMNS));
    let count = |tree: &mut Vec<u8>| {
        lyndon::first_tree_into(size, tree).expect("not refused");
        let steps = std::iter::repeat_with(|| lyndon::next_tree(size, tree));
        1 + steps.take_while(|step| *step == Ok(Step::Next)).count()
    };
    let count_plain = |tree: &mut Vec<u8>| {
        fast_small_trees::first(size, tree).expect("not refused");
        let steps = std::iter::repeat_with(|| fast_small_trees::next(size, tree));
        1 + steps.take_while(|step| *step == Ok(true)).count()
    };
    let mut tree = vec![7; size.div_ceil(4)];
    let comparison = Comparison::run(TREE_ROUNDS, &mut tree, count, count_plain);
    println!("| {} | {} |", count(&mut tree), comparison.row());
}

fn compare_cabinets(trees: &[(&str, Vec<u8>)]) {
    let entries = lyndon::MAX_ENTRIES;
    println!("\nCabinets of {entries} trees of {LETTERS} positions, {CABINET_ROUNDS} rounds.");
    print_head(&format!("trees | operation | {}", Comparison::COLUMNS));
    let counts = vec![LETTERS as u32; entries];
    for (name, tree) in trees {
        let bodies = tree.repeat(entries);
        let mut file = vec![0; lyndon::cabinet_length(&counts)];
        let writing = Comparison::run(
            CABINET_ROUNDS,
            &mut file,
            |file| lyndon::cabinet_write(black_box(&counts), black_box(&bodies), file).is_ok(),
            |file| cabinet::write(black_box(&counts), black_box(&bodies), file).is_ok(),
        );
        println!("| {name} | write | {} |", writing.row());

        let last = entries - 1;
        let reading = Comparison::run(
            CABINET_ROUNDS,
            &mut (),
            |()| {
                let entry = lyndon::cabinet_read(black_box(&file), black_box(last)).ok();
                entry.map(|entry| (entry.mark.number(), entry.letters, entry.tree))
            },
            |()| {
                let entry = cabinet::read(black_box(&file), black_box(last)).ok();
                entry.map(|body| (body.mark, body.letters as usize, &file[body.part]))
            },
        );
        println!("| {name} | read | {} |", reading.row());
    }
}

/// Printed first.
const LEGEND: &str = "\
Times are those of the thread on a processor. Ratios are library / plain Rust. 'Median of ratios' is over
the rounds, each with its own ratio. The noise: 'plain against itself' is the median of plain Rust's even
rounds by that of its odd rounds, 'spread of plain' the distance of its quartiles as a part of its median.";

/// Trees of different shapes.
fn trees() -> [(&'static str, Vec<u8>); 4] {
    let mut random = Random::new(43);
    let letters = samples::random_string(&mut random, LETTERS, 4);
    [
        (
            "of 4 random letters",
            fast::structure(&letters, LETTERS).tree,
        ),
        ("random", samples::random_tree(&mut random, LETTERS, 5)),
        ("one path", samples::random_tree(&mut random, LETTERS, 10)),
        (
            "one root over leaves",
            samples::one_root_over_leaves(LETTERS),
        ),
    ]
}

fn main() {
    // Cargo hands on an option of its own.
    let wanted: Vec<String> = std::env::args()
        .skip(1)
        .filter(|argument| !argument.starts_with('-'))
        .collect();
    let asked = |part: &str| wanted.is_empty() || wanted.iter().any(|name| name == part);
    println!("{LEGEND}");
    if asked("builds") {
        compare_builds(&kinds_for_builds(&mut Random::new(41), LETTERS));
        measure_growth_of_builds();
    }
    if asked("checks") {
        compare_checks(&kinds_for_builds(&mut Random::new(47), LETTERS));
    }
    if asked("runs") {
        compare_runs(&kinds_for_runs(&mut Random::new(44), LETTERS));
        measure_growth_of_runs();
    }
    if asked("trees") {
        let trees = trees();
        compare_readings(&trees);
        compare_questions(&trees);
        compare_small_trees();
    }
    if asked("strings") {
        compare_strings(&trees());
        compare_strings_of_small_trees();
    }
    if asked("small_trees") {
        compare_all_trees();
    }
    if asked("cabinets") {
        compare_cabinets(&trees());
    }
    if asked("symbols") {
        let kinds = samples::symbol_kinds(&mut Random::new(48), LETTERS);
        compare_builds(&kinds);
        compare_checks(&kinds);
        compare_runs(&kinds);
    }
}
