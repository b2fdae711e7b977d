//! What stands as the parameter of limitk and limit_ratio: every kind by every record that leaves it, every form of a
//! number, calls whose results are believed; every grouping; operands that are no vectors; and the parameters of other
//! aggregators, which are never refused with 42.

use super::super::classes::RECORDS;
use super::super::Coverage;
use super::{refused_with_42, Limit};
use crate::answer::{Outcome, Worked};
use crate::operators::{is_limited, operands};
use crate::page::record::{Grouping, Kind, Number, Record, Signature};
use crate::tree;

/// limitk and limit_ratio, and the other aggregators that take a parameter.
const LIMITS: [u8; 2] = [29, 30];
const TESTED: [u8; 4] = [18, 20, 24, 28];

/// The records that can leave an expression of a kind, by their number on the page.
const LEFT_BY: [(Kind, &[usize]); 4] = [
    (Kind::Vector, &[2, 5, 6, 7, 8, 9, 10, 11]),
    (Kind::Scalar, &[0, 7, 8, 9, 11]),
    (Kind::Matrix, &[3, 4, 5, 6, 8, 11]),
    (Kind::String, &[1, 8, 11]),
];

const NUMBERS: [&str; 7] = [
    "a whole number",
    "a negative whole number",
    "NaN",
    "Inf",
    "-Inf",
    "a fraction",
    "a negative fraction",
];

const GROUPINGS: [&str; 5] = ["no grouping", "by", "by ()", "without", "without ()"];

/// Calls whose carried results are believed, and calls that the literal exception excuses.
const CALLS: [&str; 5] = [
    "operators: a call of scalar that gives a vector, as a parameter",
    "operators: a call of another name that gives a scalar, as a parameter",
    "operators: an excused call as a parameter",
    "operators: an excused call as an operand, a scalar before it",
    "operators: an excused call as an operand, 42 behind it",
];

pub(super) fn classes() -> Vec<String> {
    let mut classes: Vec<String> = CALLS.map(String::from).to_vec();
    for code in LIMITS {
        for (kind, records) in LEFT_BY {
            classes.extend(records.iter().map(|record| left_by(code, kind, *record)));
        }
        classes.extend(NUMBERS.map(|form| of_number(code, form)));
        for grouping in GROUPINGS {
            classes.extend([true, false].map(|is_faulty| grouped(code, grouping, is_faulty)));
        }
        for parameter in Kind::ALL {
            let operands = Kind::ALL.into_iter().filter(|kind| *kind != Kind::Vector);
            classes.extend(operands.map(|operand| wrong_operand(code, parameter, operand)));
        }
    }
    for code in TESTED {
        classes.extend(Kind::ALL.map(|kind| tested(code, kind)));
    }
    classes
}

fn left_by(code: u8, kind: Kind, record: usize) -> String {
    let word = tree::word(code);
    format!(
        "operators: {word}, {kind:?} parameter by {}",
        RECORDS[record]
    )
}

fn of_number(code: u8, form: &str) -> String {
    format!("operators: {}, {form} as parameter", tree::word(code))
}

fn grouped(code: u8, grouping: &str, is_faulty: bool) -> String {
    let words = ["passes", "42"][usize::from(is_faulty)];
    format!("operators: {}, {grouping}: {words}", tree::word(code))
}

fn wrong_operand(code: u8, parameter: Kind, operand: Kind) -> String {
    let word = tree::word(code);
    format!("operators: {word}, 25 of a {operand:?} behind a {parameter:?}")
}

fn tested(code: u8, kind: Kind) -> String {
    let word = tree::word(code);
    format!("operators: {word}, {kind:?} parameter, on a vector")
}

fn form(number: Number) -> &'static str {
    let place = match number {
        Number::Whole(_) => 0,
        Number::NegativeWhole(_) => 1,
        Number::NaN => 2,
        Number::Inf => 3,
        Number::NegativeInf => 4,
        Number::Fraction(_) => 5,
        Number::NegativeFraction(_) => 6,
    };
    NUMBERS[place]
}

fn grouping_words(grouping: &Grouping) -> &'static str {
    let place = match grouping {
        Grouping::None => 0,
        Grouping::By(labels) => 1 + usize::from(labels.is_empty()),
        Grouping::Without(labels) => 3 + usize::from(labels.is_empty()),
    };
    GROUPINGS[place]
}

fn called<'w, 'a>(record: &'w Record<'a>) -> Option<&'w Signature<'a>> {
    match record {
        Record::Call { signature, .. } => Some(signature),
        _ => None,
    }
}

/// Whether a call takes a number where it declares a vector: it was accepted, so it is excused.
fn is_excused(worked: &Worked, place: usize) -> bool {
    let declared = called(&worked.records[place]).and_then(|signature| signature.kinds.first());
    let is_number = place > 0 && matches!(worked.records[place - 1], Record::Number(_));
    is_number && declared == Some(&Kind::Vector)
}

impl Coverage {
    /// Of each limitk and limit_ratio up to the first one that is refused with 42.
    pub(super) fn limit_parameters(&mut self, worked: &Worked, limits: &[Limit]) {
        let first = refused_with_42(worked).unwrap_or(usize::MAX);
        for limit in limits.iter().filter(|limit| limit.place <= first) {
            self.limit_parameter(worked, limit);
            self.limit_calls(worked, limit);
        }
        self.aggregates_with_parameters(worked);
    }

    fn limit_parameter(&mut self, worked: &Worked, limit: &Limit) {
        let Record::Aggregate { code, grouping, .. } = &worked.records[limit.place] else {
            return;
        };
        let parameter = &worked.records[limit.parameter];
        let kind = worked.kinds[limit.parameter];
        let record = usize::from(parameter.kind_number());
        self.hit(left_by(*code, kind, record));
        if let Record::Number(number) = parameter {
            self.hit(of_number(*code, form(*number)));
        }
        self.hit(grouped(*code, grouping_words(grouping), limit.is_faulty));
    }

    fn limit_calls(&mut self, worked: &Worked, limit: &Limit) {
        let kind = worked.kinds[limit.parameter];
        if let Some(signature) = called(&worked.records[limit.parameter]) {
            let is_scalar = signature.name.text == "scalar";
            self.hit_if(is_scalar && kind == Kind::Vector, CALLS[0]);
            self.hit_if(!is_scalar && kind == Kind::Scalar, CALLS[1]);
        }
        self.hit_if(is_excused(worked, limit.parameter), CALLS[2]);
        if is_excused(worked, limit.operand) {
            self.hit(CALLS[3 + usize::from(limit.is_faulty)]);
        }
    }

    /// 25 of a limitk's operand; other aggregators with a parameter, passed or refused with 25.
    fn aggregates_with_parameters(&mut self, worked: &Worked) {
        for (place, record) in worked.records.iter().enumerate() {
            let Record::Aggregate {
                code, arguments: 2, ..
            } = record
            else {
                continue;
            };
            let refused = Outcome::Refused {
                number: 25,
                record: place,
            };
            let is_refused = worked.operators == refused;
            let Some(places) = operands(&worked.records, place) else {
                continue;
            };
            let [parameter, operand] = [0, 1].map(|index| worked.kinds[places[index]]);
            if is_limited(record) && is_refused {
                self.hit(wrong_operand(*code, parameter, operand));
            }
            let is_judged = is_refused || place < worked.kinds.len();
            if TESTED.contains(code) && is_judged && operand == Kind::Vector {
                self.hit(tested(*code, parameter));
            }
        }
    }
}
