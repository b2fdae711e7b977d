//! Flags of patterns (document 02, No. 7): what is generated has the outcome that it was made for, and the sentences of
//! the request are true of the oracle's answers.

use oracle::answer::{self, Answer, Domain, Outcome};
use oracle::covered;
use oracle::generate::{good, patterns, Made, Scope};
use oracle::hex;
use oracle::page::record::{Matcher, Operation, Record};
use oracle::page::write;
use oracle::random::Random;
use oracle::tree::{self, Pattern};

fn answer(page: &[u8]) -> Answer {
    answer::answer(page).expect("the Rust is foreseen")
}

fn assert_made(made: &Made) {
    let page = &made.page;
    assert_eq!(answer(page).outcome, made.expected, "{}", hex::text(page));
}

#[test]
fn generated_patterns_have_their_outcome() {
    let random = &mut Random::new(10);
    patterns::fixed().for_each(|made| assert_made(&made));
    for _ in 0..20_000 {
        assert_made(&patterns::random(random));
    }
}

/// The page with the flag of one matcher turned.
fn turned(records: &[Record], record: usize, place: usize) -> Vec<u8> {
    let mut records = records.to_vec();
    if let Record::Selector { matchers, .. } = &mut records[record] {
        match &mut matchers[place].operation {
            Operation::Regex(flag) | Operation::NotRegex(flag) => *flag = !*flag,
            Operation::Equal | Operation::NotEqual => {}
        }
    }
    write::page(&records)
}

fn matchers<'r, 'a>(record: &'r Record<'a>) -> &'r [Matcher<'a>] {
    match record {
        Record::Selector { matchers, .. } => matchers,
        _ => &[],
    }
}

/// All patterns of a page, as their record, their place there and what the covered ones say of empty text.
fn patterns_of<'r>(
    records: &'r [Record],
) -> impl Iterator<Item = (usize, usize, bool, Option<bool>)> + 'r {
    let placed = records.iter().enumerate().flat_map(|(record, selector)| {
        let matchers = matchers(selector).iter().enumerate();
        matchers.map(move |(place, matcher)| (record, place, matcher))
    });
    placed.filter_map(|(record, place, matcher)| {
        let truth = covered::matches_empty(matcher.value.text.as_bytes());
        matcher
            .operation
            .flag()
            .map(|flag| (record, place, flag, truth))
    })
}

/// "The flag must be 1 when, and only when, empty text is in the pattern's language": in an accepted page the flag of a
/// covered pattern is true, and turned it is 41 at its record. "Any other pattern keeps its flag untested": never 41.
#[test]
fn turned_flags_are_refused_where_the_pattern_is_covered() {
    let random = &mut Random::new(13);
    let mut counts = [0; 2];
    for _ in 0..2_000 {
        let (page, _) = good(random, Scope::Patterns, 6);
        let worked = answer::work(&page).expect("the Rust is foreseen");
        for (record, place, flag, truth) in patterns_of(&worked.records) {
            assert!(truth.is_none_or(|truth| truth == flag));
            let answer = answer(&turned(&worked.records, record, place));
            let is_wrong = answer.outcome == Outcome::Refused { number: 41, record };
            assert_eq!(is_wrong, truth.is_some(), "{}", hex::text(&page));
            counts[usize::from(truth.is_some())] += 1;
        }
    }
    assert!(counts.iter().all(|count| *count > 500), "{counts:?}");
}

/// Pages with a wrong flag are inside the compared domain; those with an untrue flag of another pattern are not.
#[test]
fn wrong_flags_are_inside_the_domain() {
    for (page, pattern, domain) in [
        (
            "0202757001 0201610178 01",
            Pattern::FlagWrong,
            Domain::Inside,
        ),
        (
            "0202757001 0201610178 00",
            Pattern::FlagTrue,
            Domain::Inside,
        ),
        (
            "0202757001 020161035b785d 01",
            Pattern::FlagUntrue,
            Domain::FlagUntrue,
        ),
        (
            "0202757001 020161022861 01",
            Pattern::NotTaken,
            Domain::PatternNotTaken,
        ),
    ] {
        let page = hex::bytes(page);
        let worked = answer::work(&page).expect("the Rust is foreseen");
        assert_eq!(tree::pattern(&matchers(&worked.records[0])[0]), pattern);
        assert_eq!(worked.domain, domain);
        assert_eq!(worked.message, None);
    }
}
