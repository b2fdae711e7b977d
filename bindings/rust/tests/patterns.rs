//! Patterns and their flags: the call, the builder and the library agree on which patterns are covered and which of
//! these match empty text; 41 stands at its place. More of what is answered to such pages, the kept list has.

#[path = "patterns/pages.rs"]
mod pages;

use pages::{not_re, re, selector, unread, written};
use sandzguli::matches_empty;
use sandzguli::page::{Matcher, Page};
use sandzguli::{Refusal, Rule};

const MATCHES_EMPTY: [&str; 16] = [
    "", "a*", "a?", ".*", "a|", "|a", "|", "()", "()*", "()+", "(|)", "(a)*", "(a*)*", "(a*)+",
    "(a|b?)c*", "(a|)(b|)",
];

const MISSES_EMPTY: [&str; 12] = [
    "a", "Z", "a+", ".", ".+", "a|b", "(a|b)?c", "((a))", "5..", "a-b_C9", "x-y*", "(a+)+",
];

/// Two repeats of one item, repeats of none, brackets without their other one, other characters.
const NOT_COVERED: [&str; 32] = [
    "a**", "a*?", "a+?", "a?*", "(a)*+", "*a", "(*)", "|*", "?", "(", ")", "(a", "a)", "a)|(b",
    ")(", "(?:)", "(?:a)", "(?i)a", "^$", "[a]*", "[x]", "a{2}", r"\d*", r"a\.b", "a b", "a/b",
    "a:b", "a,b", "a\n", "\0", "é*", "a𝄞",
];

/// All patterns above, with what is known of each.
fn known() -> impl Iterator<Item = (&'static str, Option<bool>)> {
    let matches = MATCHES_EMPTY.map(|pattern| (pattern, Some(true)));
    let misses = MISSES_EMPTY.map(|pattern| (pattern, Some(false)));
    let not_covered = NOT_COVERED.map(|pattern| (pattern, None));
    matches.into_iter().chain(misses).chain(not_covered)
}

/// The longest patterns: what nests and what does not, each with what is known of it.
fn longest() -> [(String, Option<bool>); 7] {
    let nested = |inner: &str| format!("{}{inner}{}", "(".repeat(127), ")".repeat(127));
    [
        ("a".repeat(255), Some(false)),
        ("a?".repeat(127) + ".", Some(false)),
        (nested("*"), None),
        (nested("a"), Some(false)),
        (nested("|"), Some(true)),
        ("|".repeat(255), Some(true)),
        ("(".repeat(255), None),
    ]
}

/// Every call on a page answers so.
fn judged(page: &[u8], expected: Result<(), Refusal>) {
    assert_eq!(sandzguli::check(page).map(drop), expected, "{page:x?}");
    assert_eq!(sandzguli::copy(page).map(drop), expected, "{page:x?}");
    assert_eq!(sandzguli::canonical(page).map(drop), expected, "{page:x?}");
    assert_eq!(sandzguli::split(page).map(drop), expected, "{page:x?}");
}

/// Both operations with both flags: those of a covered pattern pass by its flag alone, those of any other by each.
fn judged_by_flag(pattern: &str, known: Option<bool>) {
    for flag in [false, true] {
        let is_right = known.is_none() || known == Some(flag);
        let refusal = Refusal::new(Rule::WrongFlag, 0);
        let expected = is_right.then_some(()).ok_or(refusal);
        for matcher in [re, not_re] {
            let page = selector("up", [matcher("a", pattern, flag)]);
            judged(&page.to_bytes(), expected);
            assert_eq!(Page::read(&page.to_bytes()), Ok(page));
        }
    }
}

#[test]
fn the_call_knows_covered_patterns() {
    for (pattern, known) in known() {
        assert_eq!(matches_empty(pattern), known, "{pattern}");
    }
}

#[test]
fn the_builder_sets_the_flag_of_covered_patterns() {
    for (pattern, known) in known() {
        for believed in [false, true] {
            let flag = known.unwrap_or(believed);
            let matcher = Matcher::re("a", pattern, believed);
            assert_eq!(matcher, re("a", pattern, flag));
            let matcher = Matcher::not_re("a", pattern, believed);
            assert_eq!(matcher, not_re("a", pattern, flag));
        }
    }
}

#[test]
fn the_library_tests_the_flag_of_covered_patterns() {
    for (pattern, known) in known() {
        judged_by_flag(pattern, known);
    }
}

/// Alone, as an item with each repeat, and in brackets.
#[test]
fn every_byte_is_an_item_or_none() {
    for byte in 0..=255u8 {
        let is_item = byte.is_ascii_alphanumeric() || b"_-.".contains(&byte);
        let item = |flag| is_item.then_some(flag);
        let alone = if byte == b'|' {
            Some(true)
        } else {
            item(false)
        };
        assert_eq!(matches_empty([byte]), alone, "{byte}");
        assert_eq!(matches_empty([b'(', byte, b')']), alone, "{byte}");
        assert_eq!(matches_empty([byte, b'+']), item(false), "{byte}");
        assert_eq!(matches_empty([byte, b'*']), item(true), "{byte}");
        assert_eq!(matches_empty([byte, b'?']), item(true), "{byte}");
    }
}

#[test]
fn the_longest_patterns_are_known() {
    for (pattern, known) in longest() {
        assert_eq!(pattern.len(), 255);
        assert_eq!(matches_empty(&pattern), known, "{pattern}");
        judged_by_flag(&pattern, known);
    }
}

/// With a byte more none is covered, and none is held by a page.
#[test]
fn longer_patterns_are_not_covered() {
    for more in ["a", "*", "|"] {
        for (pattern, _) in longest() {
            let longer = pattern + more;
            assert_eq!(matches_empty(&longer), None, "{longer}");
            let matcher = Matcher::re("a", &longer, true);
            assert_eq!(matcher, re("a", &longer, true));
            let page = selector("up", [matcher]);
            judged(&page.to_bytes(), Err(Refusal::new(Rule::PastLimit, 0)));
        }
    }
    assert_eq!(matches_empty(vec![b'a'; 1 << 20]), None);
}

#[test]
fn pages_are_written_read_and_answered() {
    for (page, bytes, rule) in written() {
        assert_eq!(page.to_bytes(), bytes);
        assert_eq!(Page::read(&bytes), Ok(page));
        let refusal = rule.map(|rule| Refusal::new(rule, 0));
        judged(&bytes, refusal.map_or(Ok(()), Err));
    }
}

#[test]
fn the_fields_of_a_record_come_first() {
    for (bytes, rule) in unread() {
        assert!(Page::read(&bytes).is_err());
        judged(&bytes, Err(Refusal::new(rule, 0)));
    }
}
