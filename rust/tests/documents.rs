//! What the pages say: the programs of docs/LINKING.md, made and run by the commands that the page gives; the output that
//! README shows; the files that docs/FORMAT.md shows; the edits and files that docs/GUARANTEES.md names.

use std::collections::BTreeSet;
use std::path::Path;
use std::process::Command;

use lyndon::{Mark, Structure};

/// The repository's root.
const ROOT: &str = concat!(env!("CARGO_MANIFEST_DIR"), "/..");

/// A file of the repository.
fn text_of(path: &str) -> String {
    std::fs::read_to_string(Path::new(ROOT).join(path))
        .unwrap_or_else(|error| panic!("{path}: {error}"))
}

/// What stands between the fence that opens with ` ```language ` and the next one, in this text.
fn fenced<'a>(text: &'a str, language: &str) -> &'a str {
    let opening = format!("\n```{language}\n");
    let (_, behind) = text
        .split_once(&opening)
        .unwrap_or_else(|| panic!("no block of {language}"));
    let (block, _) = behind.split_once("```").expect("a fence that closes");
    block
}

/// Asserts that the commands under this heading of the page print what the page says.
fn assert_prints_the_tables(heading: &str) {
    let page = text_of("docs/LINKING.md");
    let (_, section) = page
        .split_once(&format!("\n## {heading}\n"))
        .unwrap_or_else(|| panic!("no section {heading}"));
    let section = section.split("\n## ").next().expect("a first part");
    let output = Command::new("sh")
        .args(["-e", "-c", fenced(section, "sh")])
        .current_dir(ROOT)
        .output()
        .expect("a shell");
    assert!(
        output.status.success(),
        "{}\n{}",
        output.status,
        String::from_utf8_lossy(&output.stderr)
    );
    assert_eq!(
        String::from_utf8_lossy(&output.stdout),
        fenced(&page, "text")
    );
}

#[test]
fn the_c_program_prints_the_tables() {
    assert_prints_the_tables("C");
}

#[test]
fn the_rust_program_prints_the_tables() {
    assert_prints_the_tables("Rust");
}

#[test]
fn the_python_program_prints_the_tables() {
    assert_prints_the_tables("Python");
}

#[test]
fn the_readme_shows_the_output_that_the_program_is_held_to() {
    assert_eq!(
        fenced(&text_of("README.md"), "text"),
        text_of("crates/tables/stdout")
    );
}

/// The bytes that a text begins with, each of two hexadecimal digits.
fn bytes(text: &str) -> impl Iterator<Item = u8> + '_ {
    let byte = |word: &str| match word.len() {
        2 => u8::from_str_radix(word, 16).ok(),
        _ => None,
    };
    text.split_whitespace().map_while(byte)
}

/// The cabinet file of the trees of these strings.
fn file_of(strings: &[&[u8]]) -> Vec<u8> {
    let counts: Vec<u32> = strings.iter().map(|string| string.len() as u32).collect();
    let tree = |string: &&[u8]| Structure::of(string).expect("a short string").tree;
    let trees: Vec<u8> = strings.iter().flat_map(tree).collect();
    let mut file = vec![0; lyndon::cabinet_length(&counts)];
    lyndon::cabinet_write(&counts, &trees, &mut file).expect("trees of strings");
    file
}

#[test]
fn the_format_shows_a_file_as_it_is_written() {
    let page = text_of("docs/FORMAT.md");
    let (_, example) = page.split_once("\nThe file of banana").expect("the file");
    let mut shown = Vec::new();
    for line in fenced(example, "").lines() {
        let (place, behind) = line.trim_start().split_once("  ").expect("a place");
        assert_eq!(place.parse(), Ok(shown.len()), "{line}");
        shown.extend(bytes(behind));
    }
    assert_eq!(shown, file_of(&[b"banana", b"", b"ab"]));
}

#[test]
fn the_format_shows_a_file_of_each_mark() {
    let page = text_of("docs/FORMAT.md");
    let (_, example) = page
        .split_once("the file of `aB` alone:\n\n")
        .expect("the file");
    let (table, _) = example.split_once("\n\n").expect("the end of the table");
    let column = |k: usize| -> Vec<u8> {
        let rows = table.lines().skip(2).map(|row| row.split('|'));
        rows.flat_map(|mut cells| bytes(cells.nth(k).expect("a cell")))
            .collect()
    };
    let (since, before) = (column(2), column(3));
    assert_eq!(since, file_of(&[b"aB"]));
    for (file, mark, tree) in [(since, Mark::Lyn2, 0x03), (before, Mark::Lyn1, 0x05)] {
        let entry = lyndon::cabinet_read(&file, 0).expect("a file with a mark");
        assert_eq!((entry.mark, entry.letters), (mark, 2));
        assert_eq!(entry.tree, [tree]);
    }
}

/// What stands between single backquotes, in order.
fn quoted(text: &str) -> impl Iterator<Item = &str> {
    text.split('`').skip(1).step_by(2)
}

/// The edits that must fail, each as its crate's name, a slash and its own.
fn edits() -> BTreeSet<String> {
    let inside = |path: &Path| std::fs::read_dir(path).into_iter().flatten().flatten();
    let mut edits = BTreeSet::new();
    for folder in inside(&Path::new(ROOT).join("crates")) {
        let name = folder.file_name();
        for edit in inside(&folder.path().join("must-fail")) {
            let label = Path::new(&name).join(edit.file_name()).with_extension("");
            edits.insert(label.display().to_string());
        }
    }
    edits
}

#[test]
fn the_guarantees_name_every_edit_and_only_what_is_there() {
    let page = text_of("docs/GUARANTEES.md");
    let edits = edits();
    assert!(!edits.is_empty(), "no edits found");
    let paths: BTreeSet<String> = quoted(&page)
        .filter(|name| name.contains('/') || name.ends_with(".antt"))
        .filter(|name| !name.contains(' '))
        .map(String::from)
        .collect();
    let unnamed: Vec<_> = edits.difference(&paths).collect();
    assert!(unnamed.is_empty(), "edits that are not named: {unnamed:?}");
    for path in paths.difference(&edits) {
        let found = [ROOT.into(), Path::new(ROOT).join("crates")]
            .iter()
            .any(|folder| folder.join(path).exists());
        assert!(found, "{path} is not there");
    }
}

#[test]
fn the_guarantees_name_each_statement_beside_its_file() {
    let page = text_of("docs/GUARANTEES.md");
    let mut statements = 0;
    for row in page.lines().filter(|line| line.starts_with('|')) {
        let files: Vec<String> = quoted(row)
            .filter(|name| name.ends_with(".antt"))
            .map(|name| text_of(&format!("crates/{name}")))
            .collect();
        // The names of records and claims begin with a capital letter.
        let is_statement = |name: &&str| name.starts_with(|c: char| c.is_ascii_uppercase());
        for name in quoted(row)
            .filter(is_statement)
            .filter(|_| !files.is_empty())
        {
            let name = name.split('.').next().expect("a first part");
            assert!(
                files.iter().any(|file| file.contains(name)),
                "{name}: {row}"
            );
            statements += 1;
        }
    }
    assert!(statements > 0, "no statement found");
}
