//! Rows 4a and 10, and what the document says of flags beside them.

use crate::answers::with_true_flags;
use crate::document::row;
use crate::search::worked;
use oracle::answer::{Domain, Outcome};
use oracle::page::record::*;
use oracle::page::write;
use oracle::{covered, hex, tree};

/// The Rust asks the pattern: it says of the page what it says of the one with a true flag.
fn asked(number: &str) -> (String, Outcome) {
    let page = row(number).page;
    let true_page = with_true_flags(&worked(&page).records).expect("the pattern is taken");
    let outcome = worked(&true_page).outcome;
    (hex::text(&true_page), outcome)
}

#[test]
fn rows_4a_and_10_the_rust_asks_the_pattern() {
    let refused = Outcome::Refused {
        number: 34,
        record: 0,
    };
    assert_eq!(asked("4a"), ("0200010200015e01".into(), refused));
    assert_eq!(asked("10"), ("02000102000001".into(), refused));
    assert_eq!(worked(&row("4a").page).domain, Domain::FlagUntrue);
    assert_eq!(worked(&row("10").page).domain, Domain::Inside);
}

/// `up{a=~".."}` with this flag.
fn page(pattern: &str, flag: bool) -> Vec<u8> {
    let matcher = Matcher {
        operation: Operation::Regex(flag),
        name: Text::from("a"),
        value: Text::from(pattern),
    };
    write::page(&[Record::Selector {
        name: Text::from("up"),
        matchers: vec![matcher],
    }])
}

#[test]
fn entry_10_patterns_that_keep_their_flag() {
    for pattern in ["[x]", "a**", "(?:a)", "\\d", "a:b", "é", "(a", "a)|(b"] {
        for flag in [false, true] {
            assert!(worked(&page(pattern, flag)).checked.is_some(), "{pattern}");
        }
        let is_taken = tree::matches_empty(pattern).is_some();
        assert_eq!(is_taken, pattern != "(a", "{pattern}");
        assert!(!covered::is_covered(pattern), "{pattern}");
    }
}

/// The counts of the document, and that the regex takes each.
#[test]
fn entry_10_short_patterns_that_are_covered() {
    let signs: [char; 8] = ['a', '.', '|', '(', ')', '*', '+', '?'];
    let (mut patterns, mut covered) = (0, 0);
    for length in 0..=7 {
        for number in 0..1usize << (3 * length) {
            let sign = |place: usize| signs[number >> (3 * place) & 7];
            let pattern: String = (0..length).map(sign).collect();
            patterns += 1;
            if covered::is_covered(&pattern) {
                covered += 1;
                assert!(tree::matches_empty(&pattern).is_some(), "{pattern}");
            }
        }
    }
    assert_eq!((patterns, covered), (2_396_745, 68_628));
}
