//! The definitions of the two generations (`crates/generations/specs`, document 02, No. 13): every row of their tables
//! is what was read out of the documents, with its line, and their pages have the oracle's answers.

#[path = "definitions/bytes.rs"]
mod bytes;
#[path = "definitions/table.rs"]
mod table;

use oracle::answer::{self, Answer, Outcome};
use oracle::generations::{Generation, Generations};
use oracle::hex;
use oracle::page::record::Signature;
use std::fs;

const FOLDER: &str = concat!(env!("CARGO_MANIFEST_DIR"), "/../crates/generations/specs");

fn definitions(generation: &str) -> String {
    let path = format!("{FOLDER}/{generation}.antt");
    fs::read_to_string(&path).unwrap_or_else(|error| panic!("{path}: {error}"))
}

/// The rows of a table, and what is told behind each: `function "abs" (vector ∷ []) fixed vector  -- 30`.
fn defined(generation: Generation) -> Vec<(Signature<'static>, String)> {
    let text = definitions(&format!("{generation:?}"));
    let row = |line: &str| {
        let (row, told) = line.split_once("  -- ")?;
        Some((table::row(row)?, told.trim().to_string()))
    };
    text.lines().filter_map(row).collect()
}

/// The line of a signature in the generation's own document, or in the other one: `3.5.3, line 504`.
fn read(generation: Generation) -> Vec<(Signature<'static>, String)> {
    let rows = generation.table().iter().map(|(name, signature)| {
        let described = &generation.functions()[*name];
        let (version, line) = (described.version, described.line);
        let told = match version == generation.document().version {
            true => line.to_string(),
            false => format!("{version}, line {line}"),
        };
        (signature.clone(), told)
    });
    rows.collect()
}

#[test]
fn the_definitions_have_what_was_read() {
    for generation in Generation::ALL {
        assert_eq!(defined(generation), read(generation), "{generation:?}");
    }
}

fn answer(page: &[u8]) -> Answer {
    answer::answer(page).expect("the Rust is foreseen")
}

fn no_name(part: &str) -> Vec<u8> {
    panic!("{part} is no list")
}

/// `answer vector 0`, `refusal 37 4`.
fn outcome(words: &str) -> Outcome {
    let words: Vec<&str> = words.split(' ').collect();
    match words.as_slice() {
        ["answer", kind, "0"] => Outcome::Accepted(table::kind(kind)),
        ["refusal", number, record] => Outcome::Refused {
            number: number.parse().expect("a number"),
            record: record.parse().expect("a record"),
        },
        _ => panic!("no outcome: {words:?}"),
    }
}

fn generations(word: &str) -> Generations {
    let named = Generations::ALL.into_iter();
    let mut found = named.filter(|answer| format!("{answer:?}") == word);
    found.next().unwrap_or_else(|| panic!("no answer: {word}"))
}

/// A row of the pages: `row "0202757000" (answer vector 0) (answer vector 0) Both`.
fn row(line: &str) -> Option<(Vec<u8>, [Outcome; 2], Generations)> {
    let row = line
        .trim()
        .trim_start_matches("∷ ")
        .strip_prefix("row \"")?;
    let (digits, rest) = row.split_once("\" (")?;
    let (older, rest) = rest.split_once(") (")?;
    let (newer, word) = rest.split_once(") ")?;
    let outcomes = [older, newer].map(outcome);
    Some((hex::bytes(digits), outcomes, generations(word)))
}

/// Every page of the definitions, with both outcomes and the answer.
#[test]
fn the_definitions_pages_have_the_oracles_answers() {
    let text = definitions("GenerationPages");
    let rows: Vec<_> = text.lines().filter_map(row).collect();
    assert!(rows.len() > 40, "{} pages", rows.len());
    for (page, outcomes, generations) in rows {
        let answer = answer(&page);
        let words = hex::text(&page);
        assert_eq!([answer.older, answer.newer], outcomes, "{words}");
        assert_eq!(answer.generations(), generations, "{words}");
    }
}

/// Behind a word on a line: an answer, and a page.
fn answers(text: &str, word: &str) -> Vec<(Generations, Vec<u8>)> {
    let answer = |line: &str| {
        let (_, rest) = line.split_once(&format!("{word} "))?;
        let (word, page) = rest.split_once(' ')?;
        let is_page = page.starts_with('"') || page.starts_with("(hex \"");
        is_page.then(|| (generations(word), list(page)))
    };
    text.lines().filter_map(answer).collect()
}

/// `"63"`, or a list with bytes that are repeated.
fn list(words: &str) -> Vec<u8> {
    match words.strip_prefix('"') {
        Some(digits) => hex::bytes(digits.trim_end_matches('"')),
        None => bytes::list(words, no_name),
    }
}

/// The page whose 257th record is not read, and the wrong answers, none of which is the oracle's.
#[test]
fn wrong_answers_are_not_the_oracles() {
    let text = definitions("GenerationPages");
    let right = answers(&text, "is_answer");
    assert_eq!(right.len(), 1);
    for (generations, page) in right {
        assert_eq!(answer(&page).generations(), generations);
    }
    let wrong = answers(&text, "is_other");
    assert!(wrong.len() > 10, "{} wrong answers", wrong.len());
    for (generations, page) in wrong {
        assert_ne!(answer(&page).generations(), generations);
    }
}
