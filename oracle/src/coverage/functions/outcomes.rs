//! The outcomes of the check with the function table: its kinds, each of its refusals, and where 37 and 38 stand.

use super::super::Coverage;
use crate::answer::{Outcome, Worked};
use crate::page::record::Kind;
use crate::refusal::{of_table_check, UNKNOWN_FUNCTION, UNLIKE_SIGNATURE};

pub(super) const NUMBERS: [u8; 2] = [UNKNOWN_FUNCTION, UNLIKE_SIGNATURE];

const PLACES: [&str; 3] = ["record 0", "a later record", "record 255"];

pub(super) fn classes() -> Vec<String> {
    let mut classes: Vec<String> = of_table_check().map(refused).collect();
    classes.extend(Kind::ALL.map(accepted));
    for number in NUMBERS {
        classes.extend(PLACES.map(|place| placed(number, place)));
    }
    classes
}

fn refused(number: u8) -> String {
    format!("table: refusal {number:02}")
}

fn accepted(kind: Kind) -> String {
    format!("table: kind {kind:?}")
}

fn placed(number: u8, place: &str) -> String {
    format!("table: {number} at {place}")
}

impl Coverage {
    /// A number that this check must not give is no class, and so a failure.
    pub(super) fn table_outcome(&mut self, worked: &Worked) {
        match worked.table {
            Outcome::Accepted(kind) => self.hit(accepted(kind)),
            Outcome::Refused { number, record } => {
                self.hit(refused(number));
                if NUMBERS.contains(&number) {
                    self.hit(placed(number, PLACES[usize::from(record > 0)]));
                    self.hit_if(record == 255, &placed(number, PLACES[2]));
                }
            }
        }
    }
}
