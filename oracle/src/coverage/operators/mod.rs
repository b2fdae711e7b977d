//! limitk and limit_ratio (document 02, No. 8): their parameters and operands (`parameters`), the outcomes of the check
//! that follows the operators document (`outcomes`), what comes before and after 42 (`order`), and limits in limits
//! (`nested`).

mod nested;
mod order;
mod outcomes;
mod parameters;

use super::Coverage;
use crate::answer::{Outcome, Worked};
use crate::operators::{is_limited, operands};
use crate::page::record::Kind;
use crate::refusal::LIMIT_PARAMETER;

pub(super) fn classes() -> Vec<String> {
    [
        outcomes::classes(),
        parameters::classes(),
        order::classes(),
        nested::classes(),
    ]
    .concat()
}

/// A limitk or limit_ratio that document 01 accepts: its place, and the places of what left its parameter and operand.
struct Limit {
    place: usize,
    parameter: usize,
    operand: usize,
    is_faulty: bool,
}

/// All of a page, in the order of its records, up to the first one that document 01 refuses.
fn limits(worked: &Worked) -> Vec<Limit> {
    let places = 0..worked.kinds.len();
    let limited = places.filter(|place| is_limited(&worked.records[*place]));
    let limit = |place| {
        let [parameter, operand] = operands(&worked.records, place)?.try_into().ok()?;
        Some(Limit {
            place,
            parameter,
            operand,
            is_faulty: worked.kinds[parameter] != Kind::Scalar,
        })
    };
    limited.filter_map(limit).collect()
}

/// The record that is refused with 42, if there is one.
fn refused_with_42(worked: &Worked) -> Option<usize> {
    match worked.operators {
        Outcome::Refused {
            number: LIMIT_PARAMETER,
            record,
        } => Some(record),
        _ => None,
    }
}

impl Coverage {
    pub(super) fn operators(&mut self, worked: &Worked) {
        let limits = limits(worked);
        self.operators_outcome(worked);
        self.limit_parameters(worked, &limits);
        self.limit_order(worked);
        self.nested_limits(worked, &limits);
    }
}
