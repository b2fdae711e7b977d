//! The white characters that the Rust's `trim_start` takes: below 128 those that the definition names, and others
//! above.

use oracle::{answer::Outcome, kept};

const PRETTY: &str = include_str!("../../crates/text/specs/Pretty.antt");

/// White characters of two and three bytes. No text of a node begins with one, since a string begins with its quote.
#[rustfmt::skip]
const ABOVE_127: [char; 19] = [
    '\u{85}', '\u{a0}', '\u{1680}', '\u{2000}', '\u{2001}', '\u{2002}', '\u{2003}', '\u{2004}', '\u{2005}', '\u{2006}',
    '\u{2007}', '\u{2008}', '\u{2009}', '\u{200a}', '\u{2028}', '\u{2029}', '\u{202f}', '\u{205f}', '\u{3000}',
];

fn is_trimmed(character: &char) -> bool {
    character.to_string().trim_start().is_empty()
}

#[test]
fn white_characters_are_those_that_trim_start_takes() {
    let (_, list) = PRETTY
        .split_once("white_characters = ")
        .expect("the definition");
    let (list, _) = list.split_once(" ∷ []").expect("its end");
    let listed: Vec<char> = list
        .split(" ∷ ")
        .map(|digits| char::from(digits.parse::<u8>().expect("a number")))
        .collect();
    let rust: Vec<char> = ('\0'..'\u{80}').filter(is_trimmed).collect();
    assert_eq!(listed, rust);
}

#[test]
fn trim_start_takes_white_characters_above_127_too() {
    let rust: Vec<char> = ('\u{80}'..=char::MAX).filter(is_trimmed).collect();
    assert_eq!(rust, ABOVE_127);
    let white: Vec<char> = ('\u{80}'..=char::MAX)
        .filter(|c| c.is_whitespace())
        .collect();
    assert_eq!(rust, white);
}

/// So the Rust trims nothing but indentation: canonical texts of the kept list begin with no white character.
#[test]
fn no_text_begins_with_a_white_character() {
    let entries = kept::entries().expect("the Rust is foreseen");
    let mut seen = 0;
    for (page, answer) in entries {
        if let Outcome::Accepted(_) = answer.outcome {
            let text = String::from_utf8(answer.canonical).expect("the Rust's text is UTF-8");
            assert!(!text.starts_with(char::is_whitespace), "{page:02x?}");
            seen += 1;
        }
    }
    assert!(seen > 1000, "{seen} texts");
}
