//! C and C++ programs that include the header and link the archive.

use std::fmt::Write;
use std::mem::{offset_of, size_of};
use std::path::{Path, PathBuf};
use std::process::{Command, Output};

use lyndon::{raw, Refusal};

/// What the tables program prints for banana.
const TABLES: &str = include_str!("../../crates/tables/stdout");

/// Each published standard of the two languages, by the names that older compilers know too.
const C_STANDARDS: [&str; 5] = ["c89", "c99", "c11", "c17", "c2x"];
const CPP_STANDARDS: [&str; 7] = [
    "c++98", "c++03", "c++11", "c++14", "c++17", "c++20", "c++2b",
];

/// Runs a command to its end and asserts that it succeeds.
fn run(command: &mut Command) -> Output {
    let output = command
        .output()
        .unwrap_or_else(|error| panic!("{command:?}: {error}"));
    let errors = String::from_utf8_lossy(&output.stderr);
    assert!(
        output.status.success(),
        "{command:?}: {}\n{errors}",
        output.status
    );
    output
}

/// Compiles tests/`source`, with every warning an error, and links the archive. Returns the program.
fn compile(source: &str, standard: &str) -> PathBuf {
    let package = Path::new(env!("CARGO_MANIFEST_DIR"));
    let program = Path::new(env!("CARGO_TARGET_TMPDIR")).join(format!("{source}-{standard}"));
    let (variable, compiler, language) = if standard.starts_with("c++") {
        ("CXX", "c++", "c++")
    } else {
        ("CC", "cc", "c")
    };
    run(
        Command::new(std::env::var_os(variable).unwrap_or_else(|| compiler.into()))
            .arg(format!("-std={standard}"))
            .args(["-pedantic", "-Wall", "-Wextra", "-Werror", "-x", language])
            .arg("-I")
            .arg(package.join("../include"))
            .arg(package.join("tests").join(source))
            .args(["-x", "none", env!("LYNDON_ARCHIVE"), "-o"])
            .arg(&program),
    );
    program
}

/// What the program prints.
fn printed(program: PathBuf) -> String {
    String::from_utf8(run(&mut Command::new(program)).stdout).expect("text")
}

#[test]
fn the_program_prints_the_tables_of_banana_in_every_c() {
    for standard in C_STANDARDS {
        assert_eq!(printed(compile("banana.c", standard)), TABLES, "{standard}");
    }
}

#[test]
fn the_program_prints_the_tables_of_banana_in_every_cpp() {
    for standard in CPP_STANDARDS {
        assert_eq!(printed(compile("banana.c", standard)), TABLES, "{standard}");
    }
}

/// A refusal's name as C has it: LYNDON_TOO_LONG for TooLong. Three would read there as the lengths
/// themselves.
fn c_name(refusal: Refusal) -> String {
    let mut name = String::from("LYNDON");
    match refusal {
        Refusal::TableLength | Refusal::TreeLength => name.push_str("_WRONG"),
        Refusal::ListLengths => name.push_str("_UNEQUAL"),
        _ => (),
    }
    for letter in format!("{refusal:?}").chars() {
        if letter.is_uppercase() {
            name.push('_');
        }
        name.push(letter.to_ascii_uppercase());
    }
    name
}

/// The lines that tests/header.c prints of a structure of the wrapper: where its members are, and its size.
macro_rules! layout {
    ($structure:ident: $($member:ident)*) => {{
        let name = concat!("Lyndon", stringify!($structure));
        let mut lines = String::new();
        $(
            let at = offset_of!(raw::$structure, $member);
            let member = stringify!($member);
            writeln!(lines, "offsetof({name}, {member}) {at}").expect("a string");
        )*
        writeln!(lines, "sizeof({name}) {}", size_of::<raw::$structure>()).expect("a string");
        lines
    }};
}

#[test]
fn the_constants_and_structures_are_those_of_the_wrapper() {
    let mut expected = format!(
        "LYNDON_VERSION {}\nLYNDON_MAX_LETTERS {}\nLYNDON_MAX_ENTRIES {}\nLYNDON_MAX_TREE_SIZE {}\n\
        LYNDON_NOT_REFUSED 0\n",
        raw::VERSION,
        lyndon::MAX_LETTERS,
        lyndon::MAX_ENTRIES,
        lyndon::MAX_TREE_SIZE
    );
    for refusal in Refusal::ALL {
        writeln!(expected, "{} {}", c_name(refusal), refusal.number()).expect("a string");
    }
    for n in [0, 1, 4, 5, 1_000_000] {
        let length = lyndon::tree_length(n);
        writeln!(expected, "LYNDON_TREE_BYTES({n}) {length}").expect("a string");
    }
    let buffers = lyndon::tree_length(7) + lyndon::cabinet_length(&[6, 2]);
    writeln!(expected, "sizeof(struct buffers) {buffers}").expect("a string");
    expected += &layout!(BuildReply: refusal finished rows equal unequal reach);
    expected += &layout!(Reply: refusal value);
    expected += &layout!(CheckReply: refusal right position);
    expected += &layout!(NextReply: refusal last);
    expected += &layout!(PartReply: refusal start length);
    expected += &layout!(CabinetReply: refusal mark letters start length);
    assert_eq!(printed(compile("header.c", "c99")), expected);
    assert_eq!(printed(compile("header.c", "c++98")), expected);
}

#[test]
fn the_archive_has_the_version_of_the_wrapper() {
    assert_eq!(lyndon::version(), raw::VERSION);
}
