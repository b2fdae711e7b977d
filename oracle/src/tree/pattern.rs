//! Matchers and their patterns: whether the Rust's regex takes them, and whether the page's flag is true to it.

use crate::covered;
use crate::page::record::{Matcher, Operation, Record};
use promql_parser::label::{self, MatchOp};
use promql_parser::parser::token::{TokenId, T_EQL, T_EQL_REGEX, T_NEQ, T_NEQ_REGEX};
use std::cell::{OnceCell, RefCell};
use std::collections::HashMap;

/// Whether a pattern's flag is the Rust's own.
#[derive(Debug, Clone, Copy, PartialEq, Eq)]
pub enum Pattern {
    FlagTrue,
    /// It is not, and the pattern is covered: refused with 41 (document 02, No. 7).
    FlagWrong,
    /// It is not, and the pattern is not covered: the flag is believed.
    FlagUntrue,
    /// The Rust's regex does not take the pattern: the flag is believed.
    NotTaken,
}

pub fn pattern(matcher: &Matcher) -> Pattern {
    let Some(flag) = matcher.operation.flag() else {
        return Pattern::FlagTrue;
    };
    with_known(&matcher.value.text, |known| match known {
        None => Pattern::NotTaken,
        Some(known) if known.matches_empty == flag => Pattern::FlagTrue,
        Some(known) if known.is_covered => Pattern::FlagWrong,
        Some(_) => Pattern::FlagUntrue,
    })
}

/// Whether the flag of a covered pattern is wrong: 41, of a selector whose fields are all read, before 33 and 34.
pub fn has_wrong_flag(record: &Record) -> bool {
    let Record::Selector { matchers, .. } = record else {
        return false;
    };
    let is_wrong = |matcher: &Matcher| pattern(matcher) == Pattern::FlagWrong;
    matchers.iter().any(is_wrong)
}

/// Whether the pattern matches empty text; nothing if the Rust's regex does not take it.
pub fn matches_empty(pattern: &str) -> Option<bool> {
    with_known(pattern, |known| known.map(|known| known.matches_empty))
}

/// The operation with its pattern compiled, as `new_matcher` does it; nothing if the Rust's regex does not take it.
fn compiled(id: TokenId, pattern: &str) -> Option<MatchOp> {
    let matcher = label::Matcher::new_matcher(id, String::new(), pattern.to_string());
    matcher.ok().map(|matcher| matcher.op)
}

/// A pattern that the Rust's regex takes, compiled for `=~` and, once it is asked for, for `!~`.
struct Known {
    regex: MatchOp,
    not_regex: OnceCell<MatchOp>,
    matches_empty: bool,
    is_covered: bool,
}

impl Known {
    fn new(pattern: &str) -> Option<Self> {
        let is_covered = covered::is_covered(pattern);
        let regex = compiled(T_EQL_REGEX, pattern);
        assert!(regex.is_some() || !is_covered, "not taken: {pattern}");
        let regex = regex?;
        let matcher = label::Matcher::new(regex.clone(), "", pattern);
        Some(Self {
            regex,
            not_regex: OnceCell::new(),
            matches_empty: matcher.is_match(""),
            is_covered,
        })
    }

    fn operation(&self, is_equal: bool, pattern: &str) -> MatchOp {
        if is_equal {
            return self.regex.clone();
        }
        let compile = || compiled(T_NEQ_REGEX, pattern).expect("the pattern is taken");
        self.not_regex.get_or_init(compile).clone()
    }
}

/// Looks at a pattern; one that was compiled is remembered.
fn with_known<T>(pattern: &str, look: impl FnOnce(Option<&Known>) -> T) -> T {
    const MOST: usize = 10_000;
    thread_local! {
        static KNOWN: RefCell<HashMap<String, Option<Known>>> = RefCell::default();
    }
    KNOWN.with_borrow_mut(|known| {
        if let Some(known) = known.get(pattern) {
            return look(known.as_ref());
        }
        if known.len() >= MOST {
            known.clear();
        }
        let new = known.entry(pattern.to_string());
        look(new.or_insert_with(|| Known::new(pattern)).as_ref())
    })
}

/// The matcher as the Rust makes it: `new_matcher` compiles a pattern each time. Only for patterns that its regex takes.
pub fn compiled_matcher(matcher: &Matcher) -> label::Matcher {
    let name = matcher.name.text.to_string();
    let value = matcher.value.text.to_string();
    let id = match matcher.operation {
        Operation::Equal => T_EQL,
        Operation::NotEqual => T_NEQ,
        Operation::Regex(_) => T_EQL_REGEX,
        Operation::NotRegex(_) => T_NEQ_REGEX,
    };
    label::Matcher::new_matcher(id, name, value).expect("the pattern is taken")
}

/// The same matcher, its pattern taken from those that were compiled before.
pub fn matcher(matcher: &Matcher) -> label::Matcher {
    let name = matcher.name.text.as_ref();
    let value = matcher.value.text.as_ref();
    let (is_equal, flag) = match matcher.operation {
        Operation::Equal => return label::Matcher::new(MatchOp::Equal, name, value),
        Operation::NotEqual => return label::Matcher::new(MatchOp::NotEqual, name, value),
        Operation::Regex(flag) => (true, flag),
        Operation::NotRegex(flag) => (false, flag),
    };
    let inside = with_known(value, |known| {
        known
            .filter(|known| known.matches_empty == flag)
            .map(|known| known.operation(is_equal, value))
    });
    // Outside the domain the flag decides alone: a pattern that matches empty text just when the flag says so.
    let operation = inside.unwrap_or_else(|| {
        let judged = if flag { "" } else { "a" };
        let operation = |known: &Known| known.operation(is_equal, judged);
        with_known(judged, |known| known.map(operation)).expect("the pattern is taken")
    });
    label::Matcher::new(operation, name, value)
}
