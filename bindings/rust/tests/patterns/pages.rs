//! Pages with patterns: their records, the bytes that stand for them, and what is answered.

use sandzguli::page::{MatchOp, Matcher, Page, Record};
use sandzguli::Rule;

/// A page, and its bytes in hexadecimal.
type Row = (Page, &'static str);

/// The page of one selector.
pub fn selector(name: &str, matchers: impl IntoIterator<Item = Matcher>) -> Page {
    Page::from([Record::selector(name, matchers)])
}

/// A matcher `=~` with any flag.
pub fn re(name: &str, pattern: &str, matches_empty: bool) -> Matcher {
    Matcher::new(MatchOp::Re { matches_empty }, name, pattern)
}

/// A matcher `!~` with any flag.
pub fn not_re(name: &str, pattern: &str, matches_empty: bool) -> Matcher {
    Matcher::new(MatchOp::NotRe { matches_empty }, name, pattern)
}

fn matches(pattern: &str, flag: bool) -> Page {
    selector("up", [re("a", pattern, flag)])
}

fn matches_not(pattern: &str, flag: bool) -> Page {
    selector("up", [not_re("a", pattern, flag)])
}

/// A selector without a name.
fn nameless(pattern: &str, flag: bool) -> Page {
    selector("", [re("a", pattern, flag)])
}

/// Right flags of covered patterns, both flags of others, and a value that is no pattern.
fn passing() -> Vec<Row> {
    let value = selector("up", [Matcher::equal("a", "x*")]);
    vec![
        (matches("x", false), "0202757001020161017800"),
        (matches_not("x*", true), "020275700103016102782a01"),
        (matches("", true), "02027570010201610001"),
        (matches("[x]", true), "0202757001020161035b785d01"),
        (matches("[x]", false), "0202757001020161035b785d00"),
        (matches("a**", false), "020275700102016103612a2a00"),
        (matches("(a", true), "020275700102016102286101"),
        (matches("a)|(b", true), "02027570010201610561297c286201"),
        (value, "020275700100016102782a"),
    ]
}

/// Wrong flags, the last four beside what is refused with 34, with 33, with 33 again, and beside a right flag.
fn wrong() -> Vec<Row> {
    let name = Matcher::equal("__name__", "a");
    let named = selector("up", [name, re("b", "x", true)]);
    let named_by_pattern = selector("up", [re("__name__", "x", true)]);
    let first = re("a", "x", false);
    let second = selector("up", [first, not_re("b", "(y|z)?", false)]);
    vec![
        (matches("x", true), "0202757001020161017801"),
        (matches("x*", false), "020275700102016102782a00"),
        (matches_not("x*", false), "020275700103016102782a00"),
        (matches_not("x", true), "0202757001030161017801"),
        (matches("", false), "02027570010201610000"),
        (nameless("", false), "0200010201610000"),
        (nameless("x", true), "020001020161017801"),
        (named, "020275700200085f5f6e616d655f5f0161020162017801"),
        (named_by_pattern, "020275700102085f5f6e616d655f5f017801"),
        (second, "02027570020201610178000301620628797c7a293f00"),
    ]
}

/// Selectors of everything by right flags and by believed ones, and one before a record with a wrong flag.
fn empty() -> Vec<Row> {
    let everything = Page::from([Record::selector("", [])]);
    let wrong_behind = matches("x", true).records;
    let before = Page::from([everything.records, wrong_behind].concat());
    vec![
        (nameless("", true), "0200010201610001"),
        (nameless("[x]", true), "020001020161035b785d01"),
        (before, "0200000202757001020161017801"),
    ]
}

fn bytes(digits: &str) -> Vec<u8> {
    let byte = |place| u8::from_str_radix(&digits[place..place + 2], 16).expect("hexadecimal");
    (0..digits.len()).step_by(2).map(byte).collect()
}

/// Pages that can be read, and the rule that their first record breaks.
pub fn written() -> impl Iterator<Item = (Page, Vec<u8>, Option<Rule>)> {
    let answers = [
        (passing(), None),
        (wrong(), Some(Rule::WrongFlag)),
        (empty(), Some(Rule::EmptySelector)),
    ];
    answers.into_iter().flat_map(|(rows, rule)| {
        let rows = rows.into_iter();
        rows.map(move |(page, digits)| (page, bytes(digits), rule))
    })
}

/// Pages that cannot be read, and the rule that their first record breaks: after a wrong flag a byte 255 as a name, and
/// the page's end; a flag of 2; a wrong flag and a record that is none.
pub fn unread() -> [(Vec<u8>, Rule); 4] {
    [
        ("02027570020201610178010001ff00", Rule::BadText),
        ("020275700202016101780100016105", Rule::BadField),
        ("0202757001020161017802", Rule::BadField),
        ("020275700102016101780163", Rule::WrongFlag),
    ]
    .map(|(digits, rule)| (bytes(digits), rule))
}
