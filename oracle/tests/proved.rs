//! docs/PROVED.md cites what is there: statements in the files that its table names, edits, and files of definitions.

use std::fs;
use std::path::{Path, PathBuf};

const DOCUMENT: &str = include_str!("../../docs/PROVED.md");

fn crates() -> PathBuf {
    Path::new(env!("CARGO_MANIFEST_DIR")).join("../crates")
}

/// What stands in code.
fn quoted(text: &str) -> Vec<&str> {
    text.split('`').skip(1).step_by(2).collect()
}

/// The rows of the table with this head: the cells of its two columns.
fn rows(head: &str) -> Vec<(&'static str, &'static str)> {
    let (_, table) = DOCUMENT.split_once(head).expect("the table");
    let lines = table.trim_start().lines().skip(1);
    let rows = lines.take_while(|line| line.starts_with('|'));
    rows.map(|line| line.trim_matches('|').split_once(" | ").expect("two cells"))
        .collect()
}

#[test]
fn statements_stand_in_their_files() {
    let rows = rows("| File | Statements |");
    assert!(rows.len() > 20);
    for (file, statements) in rows {
        let path = crates().join(quoted(file)[0]).with_extension("antt");
        let text = fs::read_to_string(&path).expect("a file of proofs");
        for statement in quoted(statements) {
            let stands = |line: &str| {
                let line = line.trim_start().trim_start_matches("pub ");
                line.starts_with(&format!("{statement} :"))
            };
            assert!(text.lines().any(stands), "{file}: {statement}");
        }
    }
}

#[test]
fn definitions_stand_in_their_files() {
    let mut files = 0;
    for (_, cell) in rows("| What is defined | Files |") {
        for list in cell.trim().split("; ") {
            let (name, modules) = list.split_once(": ").expect("a crate and its files");
            for module in modules.split(", ") {
                let path = crates().join(quoted(name)[0]).join("specs").join(module);
                assert!(path.with_extension("antt").is_file(), "{path:?}");
                files += 1;
            }
        }
    }
    let told = format!("these {files} files");
    assert!(DOCUMENT.replace('\n', " ").contains(&told), "{told}");
}

/// Every edit of the repository, as `crate/name`.
fn edits() -> Vec<String> {
    let folders = fs::read_dir(crates()).expect("the crates").flatten();
    let mut edits = Vec::new();
    for folder in folders {
        let Ok(files) = fs::read_dir(folder.path().join("must-fail")) else {
            continue;
        };
        for file in files.flatten() {
            let name = file.path().with_extension("");
            let name = name.file_name().expect("a file's name").to_string_lossy();
            edits.push(format!("{}/{name}", folder.file_name().to_string_lossy()));
        }
    }
    edits
}

/// Whether code of the document names an edit: a crate, and a name in small letters that is none of its folders.
fn names_edit(code: &str) -> bool {
    let Some((name, edit)) = code.split_once('/') else {
        return false;
    };
    let is_small = edit
        .bytes()
        .all(|byte| b"abcdefghijklmnopqrstuvwxyz_".contains(&byte));
    is_small && crates().join(name).is_dir() && !crates().join(code).is_dir()
}

#[test]
fn edits_that_are_told_are_those_that_are_there() {
    let mut told = quoted(DOCUMENT);
    told.retain(|code| names_edit(code));
    told.sort();
    told.dedup();
    let mut edits = edits();
    edits.sort();
    assert_eq!(told, edits);
}
