//! Libraries whose check judges flags wrongly: a fault each.

use super::patterns::{faulty_word, misreading};
use super::{slice, whole};
use compare::library::{Asks, Library};
use oracle::answer::{work, Outcome, Worked};
use oracle::page::read::Reader;
use oracle::page::record::*;
use oracle::page::write;
use oracle::refusal::WRONG_FLAG;
use oracle::tree::{self, pattern, Pattern};

/// What a library with a fault answers to a page that it must refuse.
const TAKEN: Outcome = Outcome::Accepted(Kind::Vector);

fn matchers<'r, 'a>(record: &'r Record<'a>) -> &'r [Matcher<'a>] {
    match record {
        Record::Selector { matchers, .. } => matchers,
        _ => &[],
    }
}

fn refused(number: u8, record: usize) -> Outcome {
    Outcome::Refused { number, record }
}

/// The oracle's answer, but with another rule for selectors whose flags are wrong.
fn rejudged(worked: &Worked, is_wrong: impl Fn(&[Matcher]) -> bool) -> Outcome {
    let place = worked
        .records
        .iter()
        .position(|record| is_wrong(matchers(record)));
    match (worked.outcome, place) {
        (Outcome::Accepted(_), Some(place)) => refused(WRONG_FLAG, place),
        (Outcome::Refused { record, .. }, Some(place)) if place <= record => {
            refused(WRONG_FLAG, place)
        }
        (Outcome::Refused { number, .. }, _) if number == WRONG_FLAG => TAKEN,
        (outcome, _) => outcome,
    }
}

fn is_wrong(matcher: &Matcher) -> bool {
    pattern(matcher) == Pattern::FlagWrong
}

fn is_equal(matcher: &Matcher) -> bool {
    matches!(matcher.operation, Operation::Regex(_))
}

/// Whether the flag is right and stands under `!~`, or is wrong and does not.
fn is_inverted(matcher: &Matcher) -> bool {
    match pattern(matcher) {
        Pattern::FlagWrong => is_equal(matcher),
        Pattern::FlagTrue => {
            let truth = oracle::covered::matches_empty(matcher.value.text.as_bytes());
            matcher.operation.flag().is_some() && !is_equal(matcher) && truth.is_some()
        }
        _ => false,
    }
}

type Rule = fn(&[Matcher]) -> bool;

/// Other rules for the matchers of a selector.
#[rustfmt::skip]
const RULES: [(&str, Rule); 7] = [
    ("never 41", |_| false),
    ("untrue flags of patterns that are not covered", |all| {
        all.iter().any(|matcher| is_wrong(matcher) || pattern(matcher) == Pattern::FlagUntrue)
    }),
    ("patterns that the regex does not take", |all| {
        all.iter().any(|matcher| is_wrong(matcher) || pattern(matcher) == Pattern::NotTaken)
    }),
    ("the flag of !~ inverted", |all| all.iter().any(is_inverted)),
    ("only =~ tested", |all| all.iter().any(|matcher| is_wrong(matcher) && is_equal(matcher))),
    ("only the first matcher tested", |all| all.first().is_some_and(is_wrong)),
    ("only the last matcher tested", |all| all.last().is_some_and(is_wrong)),
];

/// The same judgement without a fault.
extern "C" fn judges_well(page: *const u8, length: usize) -> u64 {
    let worked = work(slice(page, length)).expect("the Rust is foreseen");
    rejudged(&worked, |all| all.iter().any(is_wrong)).word(0)
}

pub fn sound() -> Library {
    Library {
        check: judges_well,
        ..whole()
    }
}

extern "C" fn judges<const PLACE: usize>(page: *const u8, length: usize) -> u64 {
    let worked = work(slice(page, length)).expect("the Rust is foreseen");
    rejudged(&worked, RULES[PLACE].1).word(0)
}

/// Judges flags by a wrong reading of patterns.
extern "C" fn misreads<const PLACE: usize>(page: *const u8, length: usize) -> u64 {
    let worked = work(slice(page, length)).expect("the Rust is foreseen");
    let is_wrong = |matcher: &Matcher| {
        let word = faulty_word(PLACE, matcher.value.text.as_bytes());
        let flag = matcher.operation.flag();
        word < 2 && flag.is_some_and(|flag| u64::from(flag) != word)
    };
    rejudged(&worked, |all| all.iter().any(is_wrong)).word(0)
}

/// Says 33 or 34 where the selector is refused by that too.
extern "C" fn later<const NUMBER: u8>(page: *const u8, length: usize) -> u64 {
    let worked = work(slice(page, length)).expect("the Rust is foreseen");
    let (Outcome::Refused { number, record }, Some(Record::Selector { name, matchers })) =
        (worked.outcome, worked.records.last())
    else {
        return worked.outcome.word(0);
    };
    let has_name = !name.text.is_empty();
    let is_also = match NUMBER {
        33 => has_name && matchers.iter().any(|each| each.name.text == "__name__"),
        _ => !has_name && matchers.iter().all(Matcher::accepts_empty),
    };
    match number == WRONG_FLAG && is_also {
        true => refused(NUMBER, record).word(0),
        false => worked.outcome.word(0),
    }
}

/// Says 41 right behind the flag, before later fields are read.
extern "C" fn at_the_field(page: *const u8, length: usize) -> u64 {
    let page = slice(page, length);
    let worked = work(page).expect("the Rust is foreseen");
    let Outcome::Refused {
        number: 1 | 3 | 4,
        record,
    } = worked.outcome
    else {
        return worked.outcome.word(0);
    };
    let start = write::page(&worked.records).len().min(page.len());
    let read = Reader::new(&page[start..]).first_matchers();
    match record == worked.records.len() && record < 256 && read.iter().any(is_wrong) {
        true => refused(WRONG_FLAG, record).word(0),
        false => worked.outcome.word(0),
    }
}

/// Looks at the flags of all records first.
extern "C" fn before_all_records(page: *const u8, length: usize) -> u64 {
    let page = slice(page, length);
    let worked = work(page).expect("the Rust is foreseen");
    let mut reader = Reader::new(page);
    let mut record = 0;
    while let Ok(read) = reader.record() {
        if tree::has_wrong_flag(&read) && record < 256 {
            return refused(WRONG_FLAG, record).word(0);
        }
        record += 1;
    }
    worked.outcome.word(0)
}

/// Names the first record.
extern "C" fn at_record_0(page: *const u8, length: usize) -> u64 {
    let worked = work(slice(page, length)).expect("the Rust is foreseen");
    match worked.outcome {
        Outcome::Refused { number, .. } if number == WRONG_FLAG => refused(number, 0).word(0),
        outcome => outcome.word(0),
    }
}

/// Words for the fault, the library.
#[rustfmt::skip]
pub fn faulty() -> Vec<(&'static str, Library)> {
    let rules: [Asks; 7] = [
        judges::<0>, judges::<1>, judges::<2>, judges::<3>, judges::<4>, judges::<5>, judges::<6>,
    ];
    let readings: [Asks; 15] = [
        misreads::<0>, misreads::<1>, misreads::<2>, misreads::<3>, misreads::<4>, misreads::<5>, misreads::<6>,
        misreads::<7>, misreads::<8>, misreads::<9>, misreads::<10>, misreads::<11>, misreads::<12>, misreads::<13>,
        misreads::<14>,
    ];
    let others: [(&str, Asks); 5] = [
        ("33 before 41", later::<33>), ("34 before 41", later::<34>), ("41 before later fields", at_the_field),
        ("41 before earlier records", before_all_records), ("41 at record 0", at_record_0),
    ];
    let rules = RULES.into_iter().zip(rules).map(|((words, _), check)| (words, check));
    let readings = misreading().zip(readings).map(|((words, _), check)| (words, check));
    let library = |check| Library { check, ..whole() };
    let checks = rules.chain(readings).chain(others);
    checks.map(|(words, check)| (words, library(check))).collect()
}
