//! Patterns of accepted pages that are not covered: in which way, where, with which flag, and whether the Rust's regex
//! says something else of empty text or does not take them.

use super::super::Coverage;
use super::OPERATIONS;
use crate::page::record::Matcher;
use crate::tree::{pattern, Pattern};
use crate::uncovered::{is_foreign, Found, Uncovered};

const PLACES: [&str; 3] = ["the first byte", "a byte inside", "the last byte"];

/// Of these the place is told too.
const PLACED: [Uncovered; 3] = [
    Uncovered::Unopened,
    Uncovered::Foreign,
    Uncovered::AboveAscii,
];

const DOMAINS: [&str; 3] = [
    "the flag is true",
    "the flag is untrue",
    "not taken by the regex",
];

pub(super) fn classes() -> Vec<String> {
    let mut classes: Vec<String> = Vec::new();
    for how in Uncovered::ALL {
        for operation in OPERATIONS {
            classes.extend([false, true].map(|flag| believed(how, operation, flag)));
        }
        classes.extend(domains(how).iter().map(|domain| said(how, domain)));
    }
    for how in PLACED {
        classes.extend(PLACES.map(|place| said(how, place)));
    }
    classes.extend((0..128).filter(|byte| is_foreign(*byte)).map(foreign));
    classes.extend((2..=4).map(longer));
    classes
}

/// The Rust puts brackets of its own around a pattern, so that it never takes one with a bracket that is not closed.
fn domains(how: Uncovered) -> &'static [&'static str] {
    match how {
        Uncovered::Unclosed => &DOMAINS[2..],
        Uncovered::RepeatTwice | Uncovered::AboveAscii => &DOMAINS[..2],
        _ => &DOMAINS,
    }
}

fn believed(how: Uncovered, operation: &str, flag: bool) -> String {
    format!(
        "patterns: not covered, {}, {operation}, flag {}",
        how.words(),
        u8::from(flag)
    )
}

fn said(how: Uncovered, words: &str) -> String {
    format!("patterns: not covered, {}, {words}", how.words())
}

fn foreign(byte: u8) -> String {
    format!("patterns: not covered, the byte {byte:02x}")
}

fn longer(bytes: usize) -> String {
    format!("patterns: not covered, a character of {bytes} bytes")
}

impl Coverage {
    pub(super) fn uncovered(
        &mut self,
        matcher: &Matcher,
        operation: &str,
        flag: bool,
        found: Found,
    ) {
        let Found { how, place } = found;
        self.hit(believed(how, operation, flag));
        let domain = DOMAINS[match pattern(matcher) {
            Pattern::FlagTrue => 0,
            Pattern::FlagUntrue => 1,
            Pattern::NotTaken => 2,
            Pattern::FlagWrong => panic!("a pattern that is not covered has no wrong flag"),
        }];
        self.hit_if(domains(how).contains(&domain), &said(how, domain));
        let text = matcher.value.text.as_ref();
        if PLACED.contains(&how) {
            let size = text[place..].chars().next().map_or(1, char::len_utf8);
            let words = match place {
                0 => PLACES[0],
                _ if place + size == text.len() => PLACES[2],
                _ => PLACES[1],
            };
            self.hit(said(how, words));
            self.hit_if(how == Uncovered::AboveAscii, &longer(size));
        }
        if how == Uncovered::Foreign {
            self.hit(foreign(text.as_bytes()[place]));
        }
    }
}
