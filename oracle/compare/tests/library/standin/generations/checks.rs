//! Wrong checks with a generation's table: the wrong table, or the right one asked at a wrong time.

use super::super::{check_newer, check_older, refused, slice, whole, worked};
use super::tables::{called, RULES};
use compare::library::{Asks, Library};
use oracle::answer::{Outcome, Worked};
use oracle::functions;
use oracle::generations::Generation;
use oracle::page::read::Reader;
use oracle::page::record::{Number, Record};
use oracle::page::write;
use oracle::refusal::{LIMIT_PARAMETER, UNKNOWN_FUNCTION};

/// The older generation's where the place is 0, else the newer one's.
const fn generation(place: usize) -> Generation {
    match place {
        0 => Generation::Older,
        _ => Generation::Newer,
    }
}

fn outcome(worked: &Worked, generation: Generation) -> Outcome {
    match generation {
        Generation::Older => worked.older,
        Generation::Newer => worked.newer,
    }
}

fn fault(generation: Generation, record: &Record) -> Option<u8> {
    functions::fault(generation.table(), record)
}

/// The first record that the rule refuses, otherwise document 01's outcome.
extern "C" fn judges<const PLACE: usize>(page: *const u8, length: usize) -> u64 {
    let worked = worked(page, length);
    let rule = RULES[PLACE].2;
    let mut numbered = worked.records.iter().enumerate();
    let found =
        numbered.find_map(|(place, record)| rule(record).map(|number| refused(number, place)));
    found.unwrap_or(worked.outcome).word(0)
}

/// Asks behind what document 01 says of the same call.
extern "C" fn behind_the_call<const PLACE: usize>(page: *const u8, length: usize) -> u64 {
    let worked = worked(page, length);
    match (outcome(&worked, generation(PLACE)), worked.outcome) {
        (Outcome::Refused { record, .. }, Outcome::Refused { record: place, .. })
            if record == place =>
        {
            worked.outcome.word(0)
        }
        (outcome, _) => outcome.word(0),
    }
}

/// Asks only once the whole page has passed.
extern "C" fn behind_the_page<const PLACE: usize>(page: *const u8, length: usize) -> u64 {
    let worked = worked(page, length);
    match worked.outcome {
        Outcome::Accepted(_) => outcome(&worked, generation(PLACE)).word(0),
        outcome => outcome.word(0),
    }
}

/// Asks about all calls that can be read, before any record is judged.
extern "C" fn before_the_page<const PLACE: usize>(page: *const u8, length: usize) -> u64 {
    let mut reader = Reader::new(slice(page, length));
    let mut place = 0;
    while let Ok(record) = reader.record() {
        if let Some(number) = fault(generation(PLACE), &record) {
            return refused(number, place).word(0);
        }
        place += 1;
    }
    worked(page, length).outcome.word(0)
}

/// What follows the records that were read.
fn rest<'a>(worked: &Worked<'a>) -> &'a [u8] {
    let page = worked.page;
    &page[write::page(&worked.records).len().min(page.len())..]
}

/// Asks about the name before the other fields of the call are read.
extern "C" fn at_the_name<const PLACE: usize>(page: *const u8, length: usize) -> u64 {
    let worked = worked(page, length);
    let name = Reader::new(rest(&worked)).called_name();
    let table = generation(PLACE).table();
    let is_unknown = name.is_some_and(|name| !table.contains_key(name.text.as_ref()));
    match outcome(&worked, generation(PLACE)) {
        Outcome::Refused {
            number: 1 | 3 | 4,
            record,
        } if is_unknown && record < 256 => refused(UNKNOWN_FUNCTION, record).word(0),
        outcome => outcome.word(0),
    }
}

/// Reads the 257th record.
extern "C" fn past_the_limit<const PLACE: usize>(page: *const u8, length: usize) -> u64 {
    let worked = worked(page, length);
    let next = Reader::new(rest(&worked)).record().ok();
    let fault = next.and_then(|next| fault(generation(PLACE), &next));
    match (outcome(&worked, generation(PLACE)), fault) {
        (
            Outcome::Refused {
                number: 3,
                record: 256,
            },
            Some(number),
        ) => refused(number, 256).word(0),
        (outcome, _) => outcome.word(0),
    }
}

/// Names the first record.
extern "C" fn at_record_0<const PLACE: usize>(page: *const u8, length: usize) -> u64 {
    match outcome(&worked(page, length), generation(PLACE)) {
        Outcome::Refused { number, .. } if number >= UNKNOWN_FUNCTION => refused(number, 0).word(0),
        outcome => outcome.word(0),
    }
}

/// Only the first call of the page is asked about.
extern "C" fn first_call<const PLACE: usize>(page: *const u8, length: usize) -> u64 {
    let worked = worked(page, length);
    asks_about(
        &worked,
        generation(PLACE),
        worked.records.iter().position(is_call),
    )
}

/// Only the last call of the page is asked about.
extern "C" fn last_call<const PLACE: usize>(page: *const u8, length: usize) -> u64 {
    let worked = worked(page, length);
    asks_about(
        &worked,
        generation(PLACE),
        worked.records.iter().rposition(is_call),
    )
}

fn is_call(record: &Record) -> bool {
    called(record).is_some()
}

fn asks_about(worked: &Worked, generation: Generation, place: Option<usize>) -> u64 {
    let fault = place.and_then(|place| Some((fault(generation, &worked.records[place])?, place)));
    let outcome = fault.map_or(worked.outcome, |(number, place)| refused(number, place));
    outcome.word(0)
}

/// Asks for what the operators document asks too.
extern "C" fn limit_refused<const PLACE: usize>(page: *const u8, length: usize) -> u64 {
    let worked = worked(page, length);
    let judged = outcome(&worked, generation(PLACE));
    match (worked.operators, judged) {
        (
            Outcome::Refused {
                number: LIMIT_PARAMETER,
                record,
            },
            Outcome::Refused { record: other, .. },
        ) if other < record => judged.word(0),
        (
            Outcome::Refused {
                number: LIMIT_PARAMETER,
                ..
            },
            _,
        ) => worked.operators.word(0),
        _ => judged.word(0),
    }
}

/// Whether the exception excuses the call at this place: a number where a vector is declared.
fn is_excused(records: &[Record], place: usize) -> bool {
    let is_number = |record: &Record| matches!(record, Record::Number(Number::NaN | Number::Inf));
    let names = ["exp", "ln", "log10", "log2"];
    let named =
        called(&records[place]).is_some_and(|carried| names.contains(&carried.name.text.as_ref()));
    named && place > 0 && is_number(&records[place - 1])
}

/// Makes no exception for literals.
extern "C" fn no_exception<const PLACE: usize>(page: *const u8, length: usize) -> u64 {
    let worked = worked(page, length);
    let mut places = 0..worked.records.len();
    match outcome(&worked, generation(PLACE)) {
        Outcome::Accepted(kind) => {
            let excused = places.find(|place| is_excused(&worked.records, *place));
            let refused = excused.map(|place| refused(30, place));
            refused.unwrap_or(Outcome::Accepted(kind)).word(0)
        }
        outcome => outcome.word(0),
    }
}

/// Says 29 of arguments where there are no kinds.
extern "C" fn says_29<const PLACE: usize>(page: *const u8, length: usize) -> u64 {
    let worked = worked(page, length);
    match (outcome(&worked, generation(PLACE)), worked.records.last()) {
        (Outcome::Refused { number: 26, record }, Some(Record::Call { signature, .. }))
            if signature.kinds.is_empty() =>
        {
            refused(29, record).word(0)
        }
        (outcome, _) => outcome.word(0),
    }
}

/// A library with this check in the place of a generation's.
fn library(generation: Generation, check: Asks) -> Library {
    match generation {
        Generation::Older => Library {
            check_older: check,
            ..whole()
        },
        Generation::Newer => Library {
            check_newer: check,
            ..whole()
        },
    }
}

/// Words for the fault, the call that is wrong, the library.
#[rustfmt::skip]
pub fn faulty_checks() -> Vec<(String, &'static str, Library)> {
    let rules: [Asks; 38] = [
        judges::<0>, judges::<1>, judges::<2>, judges::<3>, judges::<4>, judges::<5>, judges::<6>, judges::<7>,
        judges::<8>, judges::<9>, judges::<10>, judges::<11>, judges::<12>, judges::<13>, judges::<14>, judges::<15>,
        judges::<16>, judges::<17>, judges::<18>, judges::<19>, judges::<20>, judges::<21>, judges::<22>, judges::<23>,
        judges::<24>, judges::<25>, judges::<26>, judges::<27>, judges::<28>, judges::<29>, judges::<30>, judges::<31>,
        judges::<32>, judges::<33>, judges::<34>, judges::<35>, judges::<36>, judges::<37>,
    ];
    let times: [(&str, [Asks; 2]); 12] = [
        ("37 and 38 behind what document 01 says of the call", [behind_the_call::<0>, behind_the_call::<1>]),
        ("37 and 38 behind the page's own outcome", [behind_the_page::<0>, behind_the_page::<1>]),
        ("37 and 38 before earlier records", [before_the_page::<0>, before_the_page::<1>]),
        ("37 before later fields", [at_the_name::<0>, at_the_name::<1>]),
        ("the 257th record read", [past_the_limit::<0>, past_the_limit::<1>]),
        ("37 and 38 at record 0", [at_record_0::<0>, at_record_0::<1>]),
        ("only the first call asked about", [first_call::<0>, first_call::<1>]),
        ("only the last call asked about", [last_call::<0>, last_call::<1>]),
        ("limitk with a string refused", [limit_refused::<0>, limit_refused::<1>]),
        ("no exception for literals", [no_exception::<0>, no_exception::<1>]),
        ("29 for 26", [says_29::<0>, says_29::<1>]),
        ("the check of the other generation", [check_newer, check_older]),
    ];
    let rules = RULES.into_iter().zip(rules);
    let rules = rules.map(|((words, generation, _), check)| (words.to_string(), generation, check));
    let times = times.into_iter().flat_map(|(words, checks)| {
        Generation::ALL.map(|generation| {
            (format!("{words}, {generation:?}"), generation, checks[generation as usize])
        })
    });
    let calls = ["check_older,", "check_newer,"];
    let all = rules.chain(times);
    all.map(|(words, generation, check)| (words, calls[generation as usize], library(generation, check))).collect()
}
