//! The programs `tables` and `trees`, which `tools/build` makes, run with inputs and held to their outputs.

use std::io::Write;
use std::path::{Path, PathBuf};
use std::process::{Command, Stdio};
use std::thread;
use std::time::Duration;

use reference::small_trees;

/// The folder of the programs. A relative one starts at the package's.
const DIRECTORY: &str = "LYNDON_BIN_DIR";

const PACKAGE: &str = env!("CARGO_MANIFEST_DIR");

/// The numbers of trees of the sizes 1 to 12.
const CATALAN_NUMBERS: [usize; 12] = [1, 2, 5, 14, 42, 132, 429, 1430, 4862, 16796, 58786, 208_012];

/// The file of a program.
fn path_of(program: &str) -> PathBuf {
    let directory = std::env::var_os(DIRECTORY).unwrap_or_else(|| "../target/bin".into());
    let path = Path::new(PACKAGE).join(directory).join(program);
    assert!(
        path.is_file(),
        "{} is missing: run `tools/build {program}` at the repository's root, which writes target/bin/{program}, \
        or set {DIRECTORY} to the directory that holds it",
        path.display()
    );
    path
}

/// Asserts that a program prints exactly this for the input, which comes in these parts, and nothing on standard
/// error, and that it succeeds.
fn assert_prints_for_parts(program: &str, parts: Vec<Vec<u8>>, expected: &[u8]) {
    let input = String::from_utf8_lossy(&parts.concat())
        .chars()
        .take(20)
        .collect::<String>();
    let mut child = Command::new(path_of(program))
        .stdin(Stdio::piped())
        .stdout(Stdio::piped())
        .stderr(Stdio::piped())
        .spawn()
        .unwrap_or_else(|error| panic!("{program}: {error}"));
    let mut pipe = child.stdin.take().expect("standard input");
    let writer = thread::spawn(move || {
        for (k, part) in parts.iter().enumerate() {
            if k > 0 {
                thread::sleep(Duration::from_millis(20));
            }
            // A program that has read enough may have ended, and what it prints is compared below.
            if pipe.write_all(part).is_err() {
                return;
            }
        }
    });
    let output = child.wait_with_output().expect("a program that ends");
    writer.join().expect("the input is written");

    assert_eq!(
        String::from_utf8_lossy(&output.stderr),
        "",
        "{program}, {input:?}"
    );
    assert!(
        output.status.success(),
        "{program}, {input:?}: {}",
        output.status
    );
    if output.stdout != expected {
        let lines = |text| {
            String::from_utf8_lossy(text)
                .lines()
                .map(String::from)
                .collect()
        };
        let [printed, expected]: [Vec<String>; 2] = [&output.stdout[..], expected].map(lines);
        let same = printed.iter().zip(&expected).take_while(|(a, b)| a == b);
        let k = same.count();
        panic!(
            "{program}, {input:?}: line {k} of {} is {:?}, expected {:?} of {}",
            printed.len(),
            printed.get(k),
            expected.get(k),
            expected.len()
        );
    }
}

fn assert_prints(program: &str, input: &[u8], expected: &[u8]) {
    assert_prints_for_parts(program, vec![input.to_vec()], expected);
}

/// An input that comes byte by byte, with a pause before each but the first.
fn assert_prints_for_slow(program: &str, input: &[u8], expected: &[u8]) {
    let parts = input.iter().map(|&byte| vec![byte]).collect();
    assert_prints_for_parts(program, parts, expected);
}

/// A file below the package.
fn bytes_of(path: &str) -> Vec<u8> {
    std::fs::read(Path::new(PACKAGE).join(path)).unwrap_or_else(|error| panic!("{path}: {error}"))
}

/// Runs `tables` with an input of tests/tables.
fn check_tables(name: &str) {
    let [input, expected] =
        ["stdin", "stdout"].map(|kind| bytes_of(&format!("tests/tables/{name}.{kind}")));
    assert_prints("tables", &input, &expected);
}

#[test]
fn tables_of_no_letters() {
    check_tables("empty");
}

/// Byte 10.
#[test]
fn tables_of_one_letter() {
    check_tables("one_letter");
}

#[test]
fn tables_of_all_256_byte_values_in_order() {
    check_tables("all_bytes");
}

/// A Fibonacci word, runs that fall and rise, a square and powers.
#[test]
fn tables_of_2048_letters() {
    check_tables("longest");
}

#[test]
fn tables_of_2049_letters_which_are_too_many() {
    check_tables("too_long");
}

#[test]
fn tables_of_letters_that_come_one_by_one() {
    let [input, expected] =
        ["stdin", "stdout"].map(|kind| bytes_of(&format!("../crates/tables/{kind}")));
    assert_prints_for_slow("tables", &input, &expected);
}

#[test]
fn trees_of_sizes_1_to_3() {
    let three = "07 0 1 2\n0b 0 2 1\n13 1 2 0\n0d 2 0 1\n15 2 1 0\n";
    assert_prints("trees", b"1", b"01 0\n");
    assert_prints("trees", b"2", b"03 0 1\n05 1 0\n");
    assert_prints("trees", b"3", three.as_bytes());
}

/// The inputs for a size: with two digits, and with one where it has one; alone, and with a byte 10 behind it.
fn inputs_for(size: usize) -> Vec<String> {
    let mut inputs = vec![format!("{size}"), format!("{size:02}")];
    inputs.dedup();
    let with_byte_10: Vec<String> = inputs.iter().map(|input| format!("{input}\n")).collect();
    inputs.extend(with_byte_10);
    inputs
}

#[test]
fn trees_of_every_size() {
    for (size, number) in (1..).zip(CATALAN_NUMBERS) {
        let expected = small_trees::text(size.to_string().as_bytes());
        assert_eq!(expected.lines().count(), number, "lines for size {size}");
        for input in inputs_for(size) {
            assert_prints("trees", input.as_bytes(), expected.as_bytes());
        }
    }
}

#[test]
fn trees_of_a_size_that_comes_byte_by_byte() {
    let expected = small_trees::text(b"12");
    assert_prints_for_slow("trees", b"12\n", expected.as_bytes());
    assert_prints_for_slow("trees", b"2\n\n", b"no size\n");
    assert_prints_for_slow("trees", b"123", b"no size\n");
}

fn assert_no_size(input: &[u8]) {
    assert_eq!(small_trees::text(input), "no size\n");
    assert_prints("trees", input, b"no size\n");
}

#[test]
fn sizes_outside_1_to_12_are_no_size() {
    for size in [0].into_iter().chain(13..=99) {
        for input in inputs_for(size) {
            assert_no_size(input.as_bytes());
        }
    }
}

#[test]
fn other_inputs_are_no_size() {
    for input in [
        "", "\n", "\n\n", "2\n\n", "12\n\n", "\n2", "1\n2", "12\nX", "12X", "002", "012", "123",
        "2\r", "2\r\n", "\r2", " 2", "2 ", "2 \n", "\t2", "+2", "-2", "a", "1a", "a1", "0x2", "2.",
        "2,", "/", ":", "1:", "/1", "2\0", "\0", "٢", "２",
    ] {
        assert_no_size(input.as_bytes());
    }
    // Every byte but a digit and byte 10, behind a digit.
    for byte in (0..=255).filter(|byte: &u8| !byte.is_ascii_digit() && *byte != 10) {
        assert_no_size(&[b'1', byte]);
    }
}

#[test]
fn long_inputs_are_no_size() {
    for length in [3, 4, 5, 100, 4_096, 4_097, 100_000] {
        assert_no_size(&vec![b'1'; length]);
        assert_no_size(&vec![b'0'; length]);
        assert_no_size(&[b"2", &vec![b'\n'; length][..]].concat());
    }
}
