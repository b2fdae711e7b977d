//! Wrong answers to which generations accept, beside the right checks.

use super::super::{which_generations, whole, worked};
use super::tables::called;
use compare::library::{Asks, Library};
use oracle::answer::{Outcome, Worked};
use oracle::functions;
use oracle::generations::{Generation, Generations};
use oracle::page::record::{Kind, Record};
use oracle::refusal::{LIMIT_PARAMETER, UNKNOWN_FUNCTION, UNLIKE_SIGNATURE};

fn accepts(outcome: Outcome) -> bool {
    matches!(outcome, Outcome::Accepted(_))
}

fn both(older: bool, newer: bool) -> u64 {
    u64::from(older) + 2 * u64::from(newer)
}

/// By another test of an outcome.
fn by(worked: &Worked, accepts: impl Fn(Outcome) -> bool) -> u64 {
    both(accepts(worked.older), accepts(worked.newer))
}

fn calls(worked: &Worked, generation: Generation) -> bool {
    let is_own = |record: &Record| {
        called(record).is_some_and(|carried| carried.name.text == generation.own().name.text)
    };
    worked.records.iter().any(is_own)
}

/// A refusal's record is not the first.
fn is_later(outcome: Outcome) -> bool {
    matches!(outcome, Outcome::Refused { record: 1.., .. })
}

fn is_number(outcome: Outcome, numbers: &[u8]) -> bool {
    matches!(outcome, Outcome::Refused { number, .. } if numbers.contains(&number))
}

/// Whether the generation's table refuses the call at this place.
fn is_refused_call(worked: &Worked, generation: Generation, place: Option<usize>) -> bool {
    let fault = |place: usize| functions::fault(generation.table(), &worked.records[place]);
    place.and_then(fault).is_some()
}

fn first_call(worked: &Worked) -> Option<usize> {
    worked
        .records
        .iter()
        .position(|record| called(record).is_some())
}

fn last_call(worked: &Worked) -> Option<usize> {
    worked
        .records
        .iter()
        .rposition(|record| called(record).is_some())
}

/// Asks about one call of a page that check accepts.
fn by_call(worked: &Worked, place: Option<usize>) -> u64 {
    let accepts =
        |generation| accepts(worked.outcome) && !is_refused_call(worked, generation, place);
    both(accepts(Generation::Older), accepts(Generation::Newer))
}

/// The right answer, but neither where the test says so.
fn but(worked: &Worked, is_other: bool) -> u64 {
    match is_other {
        true => Generations::Neither.word(),
        false => Generations::of(worked.older, worked.newer).word(),
    }
}

type Answer = fn(&Worked) -> u64;

/// The faults, with words for them.
#[rustfmt::skip]
const ANSWERS: [(&str, Answer); 31] = [
    ("always both", |_| 3),
    ("always neither", |_| 0),
    ("always older", |_| 1),
    ("always newer", |_| 2),
    ("swapped", |worked| both(accepts(worked.newer), accepts(worked.older))),
    ("both and neither swapped", |worked| 3 - Generations::of(worked.older, worked.newer).word()),
    ("by document 01's check", |worked| both(accepts(worked.outcome), accepts(worked.outcome))),
    ("by the repository's table", |worked| both(accepts(worked.table), accepts(worked.table))),
    ("the repository's table for the older", |worked| both(accepts(worked.table), accepts(worked.newer))),
    ("the repository's table for the newer", |worked| both(accepts(worked.older), accepts(worked.table))),
    ("the older's table twice", |worked| both(accepts(worked.older), accepts(worked.older))),
    ("the newer's table twice", |worked| both(accepts(worked.newer), accepts(worked.newer))),
    ("neither where the older refuses", |worked| but(worked, !accepts(worked.older))),
    ("neither where the newer refuses", |worked| but(worked, !accepts(worked.newer))),
    ("both where the older accepts", |worked| {
        both(accepts(worked.older), accepts(worked.older) || accepts(worked.newer))
    }),
    ("the older asked alone", |worked| both(accepts(worked.older), false)),
    ("the newer asked alone", |worked| both(false, accepts(worked.newer))),
    ("a refusal at a later record counted as accepted", |worked| {
        by(worked, |outcome| accepts(outcome) || is_later(outcome))
    }),
    ("only 37 and 38 refuse", |worked| {
        by(worked, |outcome| !is_number(outcome, &[UNKNOWN_FUNCTION, UNLIKE_SIGNATURE]))
    }),
    ("only 37 refuses", |worked| by(worked, |outcome| accepts(outcome) || is_number(outcome, &[UNLIKE_SIGNATURE]))),
    ("only 38 refuses", |worked| by(worked, |outcome| accepts(outcome) || is_number(outcome, &[UNKNOWN_FUNCTION]))),
    ("vectors alone accepted", |worked| by(worked, |outcome| outcome == Outcome::Accepted(Kind::Vector))),
    ("one outcome twice is both", |worked| match worked.older == worked.newer {
        true => 3,
        false => Generations::of(worked.older, worked.newer).word(),
    }),
    ("by the names on the page", |worked| {
        let [older, newer] = Generation::ALL.map(|generation| calls(worked, generation));
        both(!newer, !older)
    }),
    ("by the names on a page that check accepts", |worked| {
        let [older, newer] = Generation::ALL.map(|generation| calls(worked, generation));
        both(accepts(worked.outcome) && !newer, accepts(worked.outcome) && !older)
    }),
    ("by the first call", |worked| by_call(worked, first_call(worked))),
    ("by the last call", |worked| by_call(worked, last_call(worked))),
    ("limitk with a string is neither", |worked| but(worked, is_number(worked.operators, &[LIMIT_PARAMETER]))),
    ("what the repository refuses is neither", |worked| but(worked, !accepts(worked.table))),
    ("an outcome's word of a refused page", |worked| match worked.outcome {
        Outcome::Accepted(_) => Generations::of(worked.older, worked.newer).word(),
        outcome => outcome.word(0),
    }),
    ("the kind too", |worked| match worked.outcome {
        Outcome::Accepted(kind) => 4 * kind.number() + Generations::of(worked.older, worked.newer).word(),
        Outcome::Refused { .. } => 0,
    }),
];

extern "C" fn answers<const PLACE: usize>(page: *const u8, length: usize) -> u64 {
    (ANSWERS[PLACE].1)(&worked(page, length))
}

/// The same answer without a fault.
extern "C" fn answers_well(page: *const u8, length: usize) -> u64 {
    by(&worked(page, length), accepts)
}

/// A page is answered as the one that was asked about before it.
extern "C" fn answers_late(page: *const u8, length: usize) -> u64 {
    thread_local! {
        static LAST: std::cell::Cell<u64> = const { std::cell::Cell::new(0) };
    }
    LAST.replace(which_generations(page, length))
}

pub fn sound() -> Library {
    Library {
        generations: answers_well,
        ..whole()
    }
}

/// Words for the fault, the library.
#[rustfmt::skip]
pub fn faulty_answers() -> Vec<(&'static str, Library)> {
    let found: [Asks; 31] = [
        answers::<0>, answers::<1>, answers::<2>, answers::<3>, answers::<4>, answers::<5>, answers::<6>, answers::<7>,
        answers::<8>, answers::<9>, answers::<10>, answers::<11>, answers::<12>, answers::<13>, answers::<14>,
        answers::<15>, answers::<16>, answers::<17>, answers::<18>, answers::<19>, answers::<20>, answers::<21>,
        answers::<22>, answers::<23>, answers::<24>, answers::<25>, answers::<26>, answers::<27>, answers::<28>,
        answers::<29>, answers::<30>,
    ];
    let named = ANSWERS.into_iter().zip(found).map(|((words, _), call)| (words, call));
    let all = named.chain([("the answer to the page before", answers_late as Asks)]);
    all.map(|(words, generations)| (words, Library { generations, ..whole() })).collect()
}
