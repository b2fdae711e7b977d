//! Selectors of matchers with patterns, and the outcome that No. 7 gives them. What is covered is decided by
//! `uncovered`, so that a page is made for what one reading says and answered by what another says.

use super::super::{Made, Records};
use crate::answer::Outcome;
use crate::page::record::*;
use crate::page::write;
use crate::refusal::WRONG_FLAG;
use crate::tree;
use crate::uncovered::Uncovered;

/// Both operations with a pattern.
#[derive(Debug, Clone, Copy, PartialEq, Eq)]
pub(super) enum Pattern {
    Regex,
    NotRegex,
}

impl Pattern {
    pub const BOTH: [Pattern; 2] = [Pattern::Regex, Pattern::NotRegex];

    /// `a=~".."` or `a!~".."` with this flag.
    pub fn matcher(self, pattern: &str, flag: bool) -> Matcher<'static> {
        Matcher {
            operation: match self {
                Pattern::Regex => Operation::Regex(flag),
                Pattern::NotRegex => Operation::NotRegex(flag),
            },
            name: Text::from("a"),
            value: Text::from(pattern),
        }
    }
}

/// What the Rust's regex says of empty text; 0 of a pattern that it does not take.
pub(super) fn true_flag(pattern: &str) -> bool {
    tree::matches_empty(pattern).unwrap_or(false)
}

fn is_wrong(matcher: &Matcher) -> bool {
    let pattern = &matcher.value.text;
    let is_untrue = |flag| flag != true_flag(pattern);
    let is_covered = Uncovered::find(pattern.as_bytes()).is_none();
    is_covered && matcher.operation.flag().is_some_and(is_untrue)
}

pub(super) fn selector(name: &str, matchers: Vec<Matcher<'static>>) -> Record<'static> {
    Record::Selector {
        name: Text::from(name),
        matchers,
    }
}

/// What a selector is refused with: 41, then 33, then 34.
fn refusal(name: &str, matchers: &[Matcher]) -> Option<u8> {
    let is_name = |matcher: &Matcher| matcher.name.text == "__name__";
    if matchers.iter().any(is_wrong) {
        return Some(WRONG_FLAG);
    }
    if !name.is_empty() && matchers.iter().any(is_name) {
        return Some(33);
    }
    let is_all = name.is_empty() && matchers.iter().all(Matcher::accepts_empty);
    is_all.then_some(34)
}

/// A selector after other records, which must leave nothing where it is accepted.
pub(super) fn after(before: Records, name: &str, matchers: Vec<Matcher<'static>>) -> Made {
    let expected = match refusal(name, &matchers) {
        Some(number) => Outcome::Refused {
            number,
            record: before.len(),
        },
        None if before.is_empty() => Outcome::Accepted(Kind::Vector),
        None => Outcome::Refused {
            number: 2,
            record: before.len() + 1,
        },
    };
    let mut records = before;
    records.push(selector(name, matchers));
    Made::new(write::page(&records), expected)
}

/// `up{..}`.
pub(super) fn up(matchers: Vec<Matcher<'static>>) -> Made {
    after(Vec::new(), "up", matchers)
}

/// `up{a=~".."}` or `up{a!~".."}`, with both flags.
pub(super) fn both_flags(operation: Pattern, pattern: &str) -> [Made; 2] {
    [false, true].map(|flag| up(vec![operation.matcher(pattern, flag)]))
}
