//! The outcomes with each generation's table, which generations accept, and how that stands to the other checks.

use super::super::Coverage;
use super::{outcome, words};
use crate::answer::{Outcome, Worked};
use crate::generations::{Generation, Generations};
use crate::page::record::{Kind, Record};
use crate::refusal::{of_table_check, LIMIT_PARAMETER, UNKNOWN_FUNCTION, UNLIKE_SIGNATURE};
use crate::tree;

const NUMBERS: [u8; 2] = [UNKNOWN_FUNCTION, UNLIKE_SIGNATURE];
const PLACES: [&str; 3] = ["record 0", "a later record", "record 255"];

/// limitk and limit_ratio.
const LIMITS: [u8; 2] = [29, 30];

/// How two refusals stand to each other.
const REASONS: [&str; 3] = [
    "generations: neither, for one reason",
    "generations: neither, by one number at two records",
    "generations: neither, by two numbers",
];

/// No function of the two tables gives a string, so that a generation's own function is in none.
const OF_ONE: [Kind; 3] = [Kind::Vector, Kind::Scalar, Kind::Matrix];

/// What can be answered where the repository's table accepts, and where it does not: all functions but holt_winters are
/// its own.
const ACCEPTED: [Generations; 3] = [Generations::Neither, Generations::Newer, Generations::Both];
const REFUSED: [Generations; 2] = [Generations::Neither, Generations::Older];

pub(super) fn classes() -> Vec<String> {
    let mut classes: Vec<String> = REASONS.map(String::from).to_vec();
    for generation in Generation::ALL {
        classes.extend(of_table_check().map(|number| refused(generation, number)));
        classes.extend(Kind::ALL.map(|kind| accepted(generation, kind)));
        for number in NUMBERS {
            classes.extend(PLACES.map(|place| placed(generation, number, place)));
        }
    }
    classes.extend(OF_ONE.map(|kind| answered(Generations::Older, kind)));
    classes.extend(OF_ONE.map(|kind| answered(Generations::Newer, kind)));
    classes.extend(Kind::ALL.map(|kind| answered(Generations::Both, kind)));
    classes.extend(Kind::ALL.map(|kind| answered(Generations::Neither, kind)));
    classes.extend(ACCEPTED.map(|answer| beside_table(true, answer)));
    classes.extend(REFUSED.map(|answer| beside_table(false, answer)));
    classes.extend(LIMITS.map(limited));
    classes
}

fn refused(generation: Generation, number: u8) -> String {
    format!("generations: {}, refusal {number:02}", words(generation))
}

fn accepted(generation: Generation, kind: Kind) -> String {
    format!("generations: {}, kind {kind:?}", words(generation))
}

fn placed(generation: Generation, number: u8, place: &str) -> String {
    format!("generations: {}, {number} at {place}", words(generation))
}

/// What is answered to a page that document 01's check accepts.
fn answered(answer: Generations, kind: Kind) -> String {
    format!("generations: {answer:?} of a page of kind {kind:?}")
}

fn beside_table(is_accepted: bool, answer: Generations) -> String {
    let table = ["refuses", "accepts"][usize::from(is_accepted)];
    format!("generations: {answer:?} where the repository's table {table}")
}

fn limited(code: u8) -> String {
    let word = tree::word(code);
    format!("generations: both of a {word} that the operators document refuses")
}

impl Coverage {
    /// A number that these checks must not give is no class, and so a failure.
    pub(super) fn generation_outcome(&mut self, worked: &Worked, generation: Generation) {
        match outcome(worked, generation) {
            Outcome::Accepted(kind) => self.hit(accepted(generation, kind)),
            Outcome::Refused { number, record } => {
                self.hit(refused(generation, number));
                if NUMBERS.contains(&number) {
                    let place = PLACES[usize::from(record > 0)];
                    self.hit(placed(generation, number, place));
                    self.hit_if(record == 255, &placed(generation, number, PLACES[2]));
                }
            }
        }
    }

    /// An answer that must not stand beside the repository's table is no class.
    pub(super) fn generation_answer(&mut self, worked: &Worked) {
        let answer = Generations::of(worked.older, worked.newer);
        if let Outcome::Accepted(kind) = worked.outcome {
            self.hit(answered(answer, kind));
        }
        let is_accepted = matches!(worked.table, Outcome::Accepted(_));
        self.hit(beside_table(is_accepted, answer));
        if let (
            Outcome::Refused { number, record },
            Outcome::Refused {
                number: other,
                record: place,
            },
        ) = (worked.older, worked.newer)
        {
            let reason = match number == other {
                true => usize::from(record != place),
                false => 2,
            };
            self.hit(REASONS[reason]);
        }
        if answer == Generations::Both {
            self.let_by_limit(worked);
        }
    }

    /// 42 is of another check.
    fn let_by_limit(&mut self, worked: &Worked) {
        let Outcome::Refused {
            number: LIMIT_PARAMETER,
            record,
        } = worked.operators
        else {
            return;
        };
        if let Record::Aggregate { code, .. } = worked.records[record] {
            self.hit(limited(code));
        }
    }
}
