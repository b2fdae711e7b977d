//! The definitions' tables of patterns (document 02, No. 7) tell the truth: each text is matched or missed by the Rust's
//! own matcher, and each pattern is covered and matches empty text as the oracle says.

use oracle::covered;
use promql_parser::label::Matcher;
use promql_parser::parser::token::T_EQL_REGEX;

const TEXTS: &str = include_str!("../../crates/patterns/specs/LanguageExamples.antt");
const PATTERNS: &str = include_str!("../../crates/patterns/specs/EmptyTextExamples.antt");

/// The lines of a table that have rows, without what joins them.
fn lines(table: &'static str) -> impl Iterator<Item = &'static str> {
    let lines = table.lines().skip_while(|line| *line != "examples =");
    let lines = lines.skip(1).take_while(|line| !line.is_empty());
    let lines = lines.map(|line| line.trim().trim_start_matches("∷ "));
    lines.filter(|line| !line.starts_with("--") && *line != "[]")
}

/// What stands in quotes first, and what follows it.
fn quoted(words: &str) -> (String, &str) {
    let words = words.trim_start().strip_prefix('"').expect("a quote");
    let (text, rest) = words.split_once('"').expect("another quote");
    (text.replace(r"\\", r"\"), rest)
}

/// A text by its characters' numbers, as `(97 ∷ 10 ∷ [])`; nothing where one is no character.
fn numbered(words: &str) -> Option<String> {
    let number = |word: &str| match word.strip_prefix("0x") {
        Some(digits) => u32::from_str_radix(digits, 16).expect("hexadecimal"),
        None => word.parse().expect("decimal"),
    };
    let words = words.trim().trim_matches(['(', ')', '[', ']']).split('∷');
    let words = words.map(str::trim).filter(|word| !word.is_empty());
    words.map(number).map(char::from_u32).collect()
}

/// Whether the Rust's `=~` with this pattern matches a label's value.
fn is_match(pattern: &str, text: &str) -> bool {
    let matcher = Matcher::new_matcher(T_EQL_REGEX, String::new(), pattern.to_string());
    matcher.expect("the pattern is taken").is_match(text)
}

#[test]
fn texts_are_matched_as_the_table_says() {
    let mut compared = [0; 2];
    for line in lines(TEXTS) {
        let (name, rest) = line.split_once(' ').expect("a row");
        let (pattern, rest) = quoted(rest);
        let (expected, text) = match name {
            "matches" => (true, Some(quoted(rest).0)),
            "misses" => (false, Some(quoted(rest).0)),
            "matches_numbers" => (true, numbered(rest)),
            "misses_numbers" => (false, numbered(rest)),
            _ => panic!("{line}"),
        };
        assert!(covered::is_covered(&pattern), "{line}");
        let matched = text.is_some_and(|text| is_match(&pattern, &text));
        assert_eq!(matched, expected, "{line}");
        compared[usize::from(matched)] += 1;
    }
    assert_eq!(compared, [20, 30]);
}

#[test]
fn patterns_are_covered_as_the_table_says() {
    let mut compared = [0; 3];
    for row in lines(PATTERNS).flat_map(|line| line.split(" ∷ ")) {
        let Some((name, rest)) = row.split_once(' ') else {
            assert_eq!(row, "[]");
            continue;
        };
        let expected = match name {
            "full" => 0,
            "empty" => 1,
            "uncovered" => 2,
            _ => panic!("{row}"),
        };
        let (pattern, _) = quoted(rest);
        assert_eq!(covered::word(pattern.as_bytes()), expected, "{row}");
        compared[expected as usize] += 1;
    }
    assert_eq!(compared, [13, 16, 25]);
}
