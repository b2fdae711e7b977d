//! Libraries whose check that follows the operators document (document 02, No. 8) is wrong: wrong rules for a record, and
//! the right one asked at a wrong time.

use super::{refused, slice, whole, worked};
use compare::library::{Asks, Library};
use oracle::answer::{self, Outcome, Worked};
use oracle::operators::{self, is_limited, operands};
use oracle::page::code::has_parameter;
use oracle::page::read::Reader;
use oracle::page::record::{Grouping, Kind, Number, Record};
use oracle::page::write;
use oracle::refusal::LIMIT_PARAMETER;

/// A record with the kinds of its operands, and the record that left the first of them.
struct Case<'w, 'a> {
    record: &'w Record<'a>,
    kinds: Vec<Kind>,
    parameter: Option<&'w Record<'a>>,
}

impl<'w, 'a> Case<'w, 'a> {
    fn new(worked: &'w Worked<'a>, place: usize) -> Option<Self> {
        let places = operands(&worked.records, place)?;
        Some(Self {
            record: &worked.records[place],
            kinds: places.iter().map(|place| worked.kinds[*place]).collect(),
            parameter: places.first().map(|place| &worked.records[*place]),
        })
    }

    fn first(&self) -> Option<Kind> {
        self.kinds.first().copied()
    }

    /// Of a limitk or limit_ratio.
    fn limit(&self, is_faulty: bool) -> Option<u8> {
        (is_limited(self.record) && is_faulty).then_some(LIMIT_PARAMETER)
    }

    fn is_faulty(&self) -> bool {
        self.first() != Some(Kind::Scalar)
    }

    fn code(&self) -> Option<u8> {
        match self.record {
            Record::Aggregate { code, .. } => Some(*code),
            _ => None,
        }
    }

    fn is_call(&self) -> bool {
        matches!(self.parameter, Some(Record::Call { .. }))
    }

    fn is_grouped(&self) -> bool {
        matches!(self.record, Record::Aggregate { grouping, .. } if *grouping != Grouping::None)
    }
}

type Rule = fn(&Case) -> Option<u8>;

/// Other rules for a record that document 01 accepts.
#[rustfmt::skip]
const RULES: [(&str, Rule); 20] = [
    ("never 42", |_| None),
    ("every limit refused", |case| case.limit(true)),
    ("only strings refused", |case| case.limit(case.first() == Some(Kind::String))),
    ("only matrices refused", |case| case.limit(case.first() == Some(Kind::Matrix))),
    ("only vectors refused", |case| case.limit(case.first() == Some(Kind::Vector))),
    ("vectors let by", |case| case.limit(case.is_faulty() && case.first() != Some(Kind::Vector))),
    ("the operand judged in the parameter's place", |case| case.limit(case.kinds.last() != Some(&Kind::Scalar))),
    ("limitk alone", |case| case.limit(case.is_faulty() && case.code() == Some(29))),
    ("limit_ratio alone", |case| case.limit(case.is_faulty() && case.code() == Some(30))),
    ("every aggregator with a parameter", |case| {
        let is_tested = case.code().is_some_and(has_parameter);
        (is_tested && case.is_faulty()).then_some(LIMIT_PARAMETER)
    }),
    ("every aggregator", |case| (case.code().is_some() && case.is_faulty()).then_some(LIMIT_PARAMETER)),
    ("only numbers let by", |case| case.limit(!matches!(case.parameter, Some(Record::Number(_))))),
    ("parens refused", |case| case.limit(case.is_faulty() || matches!(case.parameter, Some(Record::Paren)))),
    ("calls refused", |case| case.limit(case.is_faulty() || case.is_call())),
    ("calls let by", |case| case.limit(case.is_faulty() && !case.is_call())),
    ("NaN refused", |case| {
        case.limit(case.is_faulty() || matches!(case.parameter, Some(Record::Number(Number::NaN))))
    }),
    ("fractions refused", |case| {
        let is_fraction = |number: &Number| number.fraction().is_some();
        case.limit(case.is_faulty() || matches!(case.parameter, Some(Record::Number(number)) if is_fraction(number)))
    }),
    ("with a grouping not asked", |case| case.limit(case.is_faulty() && !case.is_grouped())),
    ("without a grouping not asked", |case| case.limit(case.is_faulty() && case.is_grouped())),
    ("25 for 42", |case| case.limit(case.is_faulty()).map(|_| 25)),
];

/// The first record that document 01 accepts and the rule refuses, otherwise document 01's outcome.
fn first_by(worked: &Worked, rule: Rule) -> Outcome {
    let mut places = 0..worked.kinds.len();
    let found = places.find_map(|place| {
        let number = rule(&Case::new(worked, place)?)?;
        Some(refused(number, place))
    });
    found.unwrap_or(worked.outcome)
}

extern "C" fn judges<const PLACE: usize>(page: *const u8, length: usize) -> u64 {
    first_by(&worked(page, length), RULES[PLACE].1).word(0)
}

/// The same judgement without a fault.
extern "C" fn judges_well(page: *const u8, length: usize) -> u64 {
    let rule: Rule = |case| operators::fault(case.record, &case.kinds);
    first_by(&worked(page, length), rule).word(0)
}

pub fn sound() -> Library {
    Library {
        check_operators: judges_well,
        ..whole()
    }
}

/// The places of the limits that document 01 accepts and whose parameter is no scalar.
fn faulty_places(worked: &Worked) -> Vec<usize> {
    let is_faulty = |place: &usize| {
        let case = Case::new(worked, *place);
        case.is_some_and(|case| case.limit(case.is_faulty()).is_some())
    };
    (0..worked.kinds.len()).filter(is_faulty).collect()
}

/// Says 42 before these numbers of the same record, if what there is of its operands begins with no scalar.
fn says_before(worked: &Worked, numbers: &[u8]) -> u64 {
    let Outcome::Refused { number, record } = worked.operators else {
        return worked.operators.word(0);
    };
    let first = match operands(
        &worked.records,
        worked.kinds.len().min(worked.records.len() - 1),
    ) {
        Some(places) => places.first().map(|place| worked.kinds[*place]),
        None => worked.kinds.last().copied(),
    };
    let is_limit = worked.records.get(record).is_some_and(is_limited);
    let is_no_scalar = first.is_some_and(|kind| kind != Kind::Scalar);
    match is_limit && is_no_scalar && numbers.contains(&number) {
        true => refused(LIMIT_PARAMETER, record).word(0),
        false => worked.operators.word(0),
    }
}

extern "C" fn before_25(page: *const u8, length: usize) -> u64 {
    says(page, length, &[25])
}

extern "C" fn before_15(page: *const u8, length: usize) -> u64 {
    says(page, length, &[15])
}

extern "C" fn before_2(page: *const u8, length: usize) -> u64 {
    says(page, length, &[2])
}

fn says(page: *const u8, length: usize, numbers: &[u8]) -> u64 {
    let worked = worked(page, length);
    match worked.records.is_empty() {
        true => worked.operators.word(0),
        false => says_before(&worked, numbers),
    }
}

/// 42 for 25 of a parameter that another aggregator has.
extern "C" fn topk_with_42(page: *const u8, length: usize) -> u64 {
    let worked = worked(page, length);
    let Outcome::Refused { number: 25, record } = worked.operators else {
        return worked.operators.word(0);
    };
    let case = Case::new(&worked, record).expect("25 has its operands");
    let is_parameter = case.kinds.len() == 2 && case.kinds[1] == Kind::Vector;
    match is_parameter {
        true => refused(LIMIT_PARAMETER, record).word(0),
        false => worked.operators.word(0),
    }
}

/// Asks only once the whole page has passed.
extern "C" fn behind_the_page(page: *const u8, length: usize) -> u64 {
    let worked = worked(page, length);
    match worked.outcome {
        Outcome::Accepted(_) => worked.operators.word(0),
        outcome => outcome.word(0),
    }
}

/// Asks only once all records were read: what cannot be read comes first.
extern "C" fn behind_the_reading(page: *const u8, length: usize) -> u64 {
    let worked = worked(page, length);
    match worked.outcome {
        Outcome::Refused {
            number: 1 | 3 | 4, ..
        } => worked.outcome.word(0),
        _ => worked.operators.word(0),
    }
}

/// Asks once the page has not one expression at its end.
extern "C" fn behind_the_end(page: *const u8, length: usize) -> u64 {
    let worked = worked(page, length);
    match worked.outcome {
        Outcome::Refused { number: 2, record } if record == worked.records.len() => {
            worked.outcome.word(0)
        }
        _ => worked.operators.word(0),
    }
}

/// Goes on behind a refused record.
extern "C" fn before_earlier(page: *const u8, length: usize) -> u64 {
    let bytes = slice(page, length);
    let worked = worked(page, length);
    let rest = &bytes[write::page(&worked.records).len().min(length)..];
    let behind = answer::answer(rest)
        .expect("the Rust is foreseen")
        .operators;
    match (worked.operators, behind) {
        (
            Outcome::Refused { number, .. },
            Outcome::Refused {
                number: LIMIT_PARAMETER,
                record,
            },
        ) if number != LIMIT_PARAMETER => {
            refused(LIMIT_PARAMETER, worked.records.len() + record).word(0)
        }
        (outcome, _) => outcome.word(0),
    }
}

/// Reads the 257th record.
extern "C" fn past_the_limit(page: *const u8, length: usize) -> u64 {
    let bytes = slice(page, length);
    let worked = worked(page, length);
    let rest = &bytes[write::page(&worked.records).len().min(length)..];
    let is_limit = Reader::new(rest)
        .record()
        .is_ok_and(|next| is_limited(&next));
    match worked.operators {
        Outcome::Refused {
            number: 3,
            record: 256,
        } if is_limit => refused(LIMIT_PARAMETER, 256).word(0),
        outcome => outcome.word(0),
    }
}

/// Names another record than the one that is refused with 42.
fn elsewhere(page: *const u8, length: usize, other: impl Fn(&Worked, usize) -> usize) -> u64 {
    let worked = worked(page, length);
    match worked.operators {
        Outcome::Refused {
            number: LIMIT_PARAMETER,
            record,
        } => refused(LIMIT_PARAMETER, other(&worked, record)).word(0),
        outcome => outcome.word(0),
    }
}

extern "C" fn at_record_0(page: *const u8, length: usize) -> u64 {
    elsewhere(page, length, |_, _| 0)
}

extern "C" fn at_the_parameter(page: *const u8, length: usize) -> u64 {
    elsewhere(page, length, |worked, record| {
        operands(&worked.records, record).expect("42 has its operands")[0]
    })
}

/// The last one that is faulty, as the outer of two.
extern "C" fn at_the_last(page: *const u8, length: usize) -> u64 {
    elsewhere(page, length, |worked, record| {
        faulty_places(worked).last().copied().unwrap_or(record)
    })
}

/// Asks about one limit alone, the first or the last.
fn asks_about(worked: &Worked, place: Option<usize>) -> u64 {
    match place {
        Some(place) if faulty_places(worked).contains(&place) => {
            refused(LIMIT_PARAMETER, place).word(0)
        }
        _ => worked.outcome.word(0),
    }
}

extern "C" fn first_limit(page: *const u8, length: usize) -> u64 {
    let worked = worked(page, length);
    asks_about(&worked, worked.records.iter().position(is_limited))
}

extern "C" fn last_limit(page: *const u8, length: usize) -> u64 {
    let worked = worked(page, length);
    asks_about(&worked, worked.records.iter().rposition(is_limited))
}

/// 42 for 16 of limitk between two sides.
extern "C" fn operator_with_42(page: *const u8, length: usize) -> u64 {
    let worked = worked(page, length);
    match (worked.operators, worked.records.last()) {
        (Outcome::Refused { number: 16, record }, Some(Record::Binary { code: 29 | 30, .. })) => {
            refused(LIMIT_PARAMETER, record).word(0)
        }
        (outcome, _) => outcome.word(0),
    }
}

/// The function table asked too, where it refuses first.
extern "C" fn with_table(page: *const u8, length: usize) -> u64 {
    let worked = worked(page, length);
    match (worked.table, worked.operators) {
        (
            Outcome::Refused { record: one, .. },
            Outcome::Refused {
                number: LIMIT_PARAMETER,
                record: other,
            },
        ) if one < other => worked.table.word(0),
        (_, outcome) => outcome.word(0),
    }
}

/// The kind of the parameter in place of the query's.
extern "C" fn another_kind(page: *const u8, length: usize) -> u64 {
    let worked = worked(page, length);
    match (worked.operators, worked.records.last()) {
        (Outcome::Accepted(_), Some(last)) if is_limited(last) => {
            Outcome::Accepted(Kind::Scalar).word(0)
        }
        (outcome, _) => outcome.word(0),
    }
}

/// Words for the fault, the library.
#[rustfmt::skip]
pub fn faulty_checks() -> Vec<(&'static str, Library)> {
    let rules: [Asks; 20] = [
        judges::<0>, judges::<1>, judges::<2>, judges::<3>, judges::<4>, judges::<5>, judges::<6>, judges::<7>,
        judges::<8>, judges::<9>, judges::<10>, judges::<11>, judges::<12>, judges::<13>, judges::<14>, judges::<15>,
        judges::<16>, judges::<17>, judges::<18>, judges::<19>,
    ];
    let times: [(&str, Asks); 17] = [
        ("42 before 25", before_25), ("42 before 15", before_15), ("42 before 2", before_2),
        ("topk with 42", topk_with_42), ("asked only of pages that check accepts", behind_the_page),
        ("42 behind what cannot be read", behind_the_reading), ("42 behind 2 at the end", behind_the_end),
        ("42 before earlier records", before_earlier), ("the 257th record read", past_the_limit),
        ("42 at record 0", at_record_0), ("42 at the parameter", at_the_parameter), ("42 at the last one", at_the_last),
        ("only the first limit asked about", first_limit), ("only the last limit asked about", last_limit),
        ("42 for 16", operator_with_42), ("the function table asked too", with_table),
        ("another kind in the word", another_kind),
    ];
    let rules = RULES.into_iter().zip(rules).map(|((words, _), check)| (words, check));
    let library = |check_operators| Library { check_operators, ..whole() };
    rules.chain(times).map(|(words, check)| (words, library(check))).collect()
}
