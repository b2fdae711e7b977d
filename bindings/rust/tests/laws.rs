//! The laws that the sources cite are stated in the library's proofs: on them rests what is unsafe there, and what is
//! said of two pages that are one query, of the function table and of server generations.

use std::fs;
use std::path::Path;

const SOURCES: [&str; 5] = [
    include_str!("../src/call.rs"),
    include_str!("../src/generations.rs"),
    include_str!("../src/same_query.rs"),
    include_str!("../src/signature.rs"),
    include_str!("../src/text.rs"),
];

/// A law's name is of words with hyphens between them; a word that names a definition has low lines.
fn is_law(code: &str) -> bool {
    let is_letter = |letter: char| letter.is_alphanumeric() || letter == '_';
    let is_word = |word: &str| !word.is_empty() && word.chars().all(is_letter);
    code.contains('-') && code.split('-').all(is_word)
}

/// The laws in the comments of the sources.
fn cited() -> Vec<&'static str> {
    let lines = SOURCES.into_iter().flat_map(str::lines);
    let comments = lines.filter(|line| line.trim_start().starts_with("//"));
    let codes = comments.flat_map(|line| line.split('`').skip(1).step_by(2));
    codes.filter(|code| is_law(code)).collect()
}

/// All files of proofs that hold laws.
fn proofs() -> String {
    let crates = Path::new(env!("CARGO_MANIFEST_DIR")).join("../../crates");
    let folders = fs::read_dir(crates).expect("the crates").flatten();
    let proofs = folders.filter_map(|folder| fs::read_dir(folder.path().join("proofs")).ok());
    let files = proofs.flat_map(Iterator::flatten);
    files
        .filter_map(|file| fs::read_to_string(file.path()).ok())
        .collect()
}

#[test]
fn cited_laws_are_stated() {
    let cited = cited();
    assert!(!cited.is_empty());
    let proofs = proofs();
    let is_stated = |law: &&str| {
        let begins = format!("pub {law} :");
        let mut lines = proofs.lines();
        lines.any(|line| line.trim_start().starts_with(&begins))
    };
    let missing: Vec<_> = cited.into_iter().filter(|law| !is_stated(law)).collect();
    assert!(missing.is_empty(), "no proof states {missing:?}");
}
