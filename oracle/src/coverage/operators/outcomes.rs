//! The outcomes of the check that follows the operators document: its kinds, each of its refusals, and where 42 stands.

use super::super::Coverage;
use super::refused_with_42;
use crate::answer::{Outcome, Worked};
use crate::page::record::Kind;
use crate::refusal::of_operators_check;

/// 2 is the first record that can have a parameter and an operand before it, 255 the last one of a page.
const PLACES: [&str; 3] = [
    "operators: 42 at record 2",
    "operators: 42 at a later record",
    "operators: 42 at record 255",
];

pub(super) fn classes() -> Vec<String> {
    let mut classes: Vec<String> = of_operators_check().map(refused).collect();
    classes.extend(Kind::ALL.map(accepted));
    classes.extend(PLACES.map(String::from));
    classes
}

fn refused(number: u8) -> String {
    format!("operators: refusal {number:02}")
}

fn accepted(kind: Kind) -> String {
    format!("operators: kind {kind:?}")
}

impl Coverage {
    /// A number that this check must not give is no class, and so a failure.
    pub(super) fn operators_outcome(&mut self, worked: &Worked) {
        match worked.operators {
            Outcome::Accepted(kind) => self.hit(accepted(kind)),
            Outcome::Refused { number, .. } => self.hit(refused(number)),
        }
        if let Some(record) = refused_with_42(worked) {
            self.hit(PLACES[usize::from(record > 2)]);
            self.hit_if(record == 255, PLACES[2]);
        }
    }
}
