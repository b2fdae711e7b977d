//! Wrong checks with the function table: wrong rules for a call, and the right one asked at a wrong time.

use super::super::{refused, slice, whole, worked};
use super::rules::{fault, Rule, RULES};
use compare::library::{Asks, Library};
use oracle::answer::{Outcome, Worked};
use oracle::functions;
use oracle::page::read::Reader;
use oracle::page::record::Record;
use oracle::page::write;
use oracle::refusal::{UNKNOWN_FUNCTION, UNLIKE_SIGNATURE};

/// The first record that the rule refuses, otherwise document 01's outcome.
fn first_by(worked: &Worked, rule: Rule) -> Outcome {
    let mut numbered = worked.records.iter().enumerate();
    let found =
        numbered.find_map(|(place, record)| rule(record).map(|number| refused(number, place)));
    found.unwrap_or(worked.outcome)
}

extern "C" fn judges<const PLACE: usize>(page: *const u8, length: usize) -> u64 {
    first_by(&worked(page, length), RULES[PLACE].1).word(0)
}

/// Whether document 01 refuses the record that the table refuses, with one of these numbers.
fn is_also(worked: &Worked, numbers: &[u8]) -> bool {
    match (worked.table, worked.outcome) {
        (
            Outcome::Refused { record, .. },
            Outcome::Refused {
                number,
                record: place,
            },
        ) => record == place && numbers.contains(&number),
        _ => false,
    }
}

/// Asks the table behind these tests of the call.
fn asks_behind(worked: &Worked, numbers: &[u8]) -> u64 {
    match is_also(worked, numbers) {
        true => worked.outcome.word(0),
        false => worked.table.word(0),
    }
}

extern "C" fn behind_operands(page: *const u8, length: usize) -> u64 {
    asks_behind(&worked(page, length), &[2])
}

extern "C" fn behind_arguments(page: *const u8, length: usize) -> u64 {
    asks_behind(&worked(page, length), &[26, 27, 28, 29, 30])
}

/// Asks about names before operands are counted, about signatures behind that.
extern "C" fn unlike_behind_operands(page: *const u8, length: usize) -> u64 {
    let worked = worked(page, length);
    match worked.table {
        Outcome::Refused { number, .. } if number == UNLIKE_SIGNATURE => asks_behind(&worked, &[2]),
        outcome => outcome.word(0),
    }
}

fn is_call(record: &Record) -> bool {
    matches!(record, Record::Call { .. })
}

/// Only this record is asked about.
fn asks_about(worked: &Worked, place: Option<usize>) -> u64 {
    let fault = place.and_then(|place| Some((fault(&worked.records[place])?, place)));
    let outcome = fault.map_or(worked.outcome, |(number, place)| refused(number, place));
    outcome.word(0)
}

extern "C" fn first_call(page: *const u8, length: usize) -> u64 {
    let worked = worked(page, length);
    asks_about(&worked, worked.records.iter().position(is_call))
}

extern "C" fn last_call(page: *const u8, length: usize) -> u64 {
    let worked = worked(page, length);
    asks_about(&worked, worked.records.iter().rposition(is_call))
}

/// Asks only once the whole page has passed.
extern "C" fn behind_the_page(page: *const u8, length: usize) -> u64 {
    let worked = worked(page, length);
    match worked.outcome {
        Outcome::Accepted(_) => worked.table.word(0),
        outcome => outcome.word(0),
    }
}

/// Asks about all calls that can be read, before any record is judged.
extern "C" fn before_the_page(page: *const u8, length: usize) -> u64 {
    let bytes = slice(page, length);
    let mut reader = Reader::new(bytes);
    let mut place = 0;
    while let Ok(record) = reader.record() {
        if let Some(number) = fault(&record) {
            return refused(number, place).word(0);
        }
        place += 1;
    }
    worked(page, length).outcome.word(0)
}

/// Asks about the name before the other fields of the call are read.
extern "C" fn at_the_name(page: *const u8, length: usize) -> u64 {
    let bytes = slice(page, length);
    let worked = worked(page, length);
    let rest = &bytes[write::page(&worked.records).len().min(length)..];
    let name = Reader::new(rest).called_name();
    let is_unknown = name.is_some_and(|name| functions::signature(&name.text).is_none());
    match worked.table {
        Outcome::Refused {
            number: 1 | 3 | 4,
            record,
        } if is_unknown && record < 256 => refused(UNKNOWN_FUNCTION, record).word(0),
        outcome => outcome.word(0),
    }
}

/// Reads the 257th record.
extern "C" fn past_the_limit(page: *const u8, length: usize) -> u64 {
    let bytes = slice(page, length);
    let worked = worked(page, length);
    let rest = &bytes[write::page(&worked.records).len().min(length)..];
    let next = Reader::new(rest).record().ok();
    match (worked.table, next.as_ref().and_then(fault)) {
        (
            Outcome::Refused {
                number: 3,
                record: 256,
            },
            Some(number),
        ) => refused(number, 256).word(0),
        (outcome, _) => outcome.word(0),
    }
}

/// Names the first record.
extern "C" fn at_record_0(page: *const u8, length: usize) -> u64 {
    match worked(page, length).table {
        Outcome::Refused { number, .. } if number >= UNKNOWN_FUNCTION => refused(number, 0).word(0),
        outcome => outcome.word(0),
    }
}

/// Says 29 of arguments where there are no kinds.
extern "C" fn says_29(page: *const u8, length: usize) -> u64 {
    let worked = worked(page, length);
    match (worked.table, worked.records.last()) {
        (Outcome::Refused { number: 26, record }, Some(Record::Call { signature, .. }))
            if signature.kinds.is_empty() =>
        {
            refused(29, record).word(0)
        }
        (outcome, _) => outcome.word(0),
    }
}

/// Words for the fault, the library.
#[rustfmt::skip]
pub fn faulty_checks() -> Vec<(&'static str, Library)> {
    let rules: [Asks; 18] = [
        judges::<0>, judges::<1>, judges::<2>, judges::<3>, judges::<4>, judges::<5>, judges::<6>, judges::<7>,
        judges::<8>, judges::<9>, judges::<10>, judges::<11>, judges::<12>, judges::<13>, judges::<14>, judges::<15>,
        judges::<16>, judges::<17>,
    ];
    let times: [(&str, Asks); 11] = [
        ("37 and 38 behind 2", behind_operands), ("38 behind 2", unlike_behind_operands),
        ("37 and 38 behind 26 to 30", behind_arguments), ("only the first call asked about", first_call),
        ("only the last call asked about", last_call), ("37 and 38 behind the page's own outcome", behind_the_page),
        ("37 and 38 before earlier records", before_the_page), ("37 before later fields", at_the_name),
        ("the 257th record read", past_the_limit), ("37 and 38 at record 0", at_record_0), ("29 for 26", says_29),
    ];
    let rules = RULES.into_iter().zip(rules).map(|((words, _), check)| (words, check));
    let library = |check_table| Library { check_table, ..whole() };
    rules.chain(times).map(|(words, check)| (words, library(check))).collect()
}
