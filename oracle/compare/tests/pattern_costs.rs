//! Counts of single calls are read as callgrind writes them; the patterns and pages have what they are said to have.

use compare::callgrind::parse_each;
use compare::pattern_costs::{page, patterns, PAGES};
use oracle::answer::{self, Outcome};
use oracle::covered;
use oracle::page::record::{Matcher, Record};

/// Two calls, then the program's end, in callgrind's form; what stands between is not read here.
const WRITTEN: &str = "part: 1
desc: Trigger: --dump-after=sandzguli_pattern
summary: 50

fn=sandzguli_pattern
0 50

totals: 50
part: 2
desc: Trigger: --dump-after=sandzguli_pattern
summary: 290

fn=sandzguli_pattern
0 290

totals: 290
part: 3
desc: Trigger: Program termination
summary: 0
totals: 0
";

#[test]
fn calls_are_counted_one_by_one() {
    assert_eq!(parse_each(WRITTEN), Some(vec![50, 290]));
    for (line, other) in [
        ("totals: 290", "totals: many"),
        ("totals: 290", "totals: 0"),
        ("totals: 0", "totals: 7"),
        ("totals: 0", ""),
    ] {
        assert_eq!(parse_each(&WRITTEN.replace(line, other)), None, "{other}");
    }
    assert_eq!(parse_each(""), None);
}

#[test]
fn families_have_their_lengths() {
    let made = patterns("families").expect("families");
    for family in made.chunks(6) {
        let lengths: Vec<_> = family.iter().map(Vec::len).collect();
        assert_eq!(lengths, [0, 1, 16, 64, 128, 255]);
    }
    let words: Vec<u64> = made.iter().map(|pattern| covered::word(pattern)).collect();
    for word in 0..=2 {
        assert!(words.iter().filter(|each| **each == word).count() > 8);
    }
    assert_eq!(made.len(), 11 * 6);
    assert_eq!(patterns("short").map(|short| short.len()), Some(37_449));
    assert!(patterns("long").is_none());
}

#[test]
fn pages_have_their_patterns() {
    for name in &PAGES.pages[1..] {
        let page = page(name).expect("a page with these patterns");
        let worked = answer::work(&page).expect("the Rust is foreseen");
        assert!(matches!(worked.outcome, Outcome::Accepted(_)), "{name}");
        let [Record::Selector { matchers, .. }] = worked.records.as_slice() else {
            panic!("{name}: one selector");
        };
        let is_pattern = |matcher: &Matcher| {
            matcher.operation.flag().is_some() && matcher.value.text.len() == 255
        };
        assert_eq!(matchers.len(), 16);
        assert!(matchers.iter().all(is_pattern), "{name}");
    }
    assert!(page("16 of 255").is_none() && page("words, 16 of 255").is_none());
}
