//! What comes before 42: earlier records, and what document 01 says of the same record. What comes after it: later
//! records, and the end of the page.

use super::super::Coverage;
use super::refused_with_42;
use crate::answer::{self, Outcome, Worked};
use crate::operators::{is_limited, operands};
use crate::page::read::Reader;
use crate::page::record::{Kind, Record};
use crate::page::write;
use crate::refusal::LIMIT_PARAMETER;

/// What document 01 says of a later record, of an earlier one, and of the same one.
const LATER: [u8; 12] = [1, 2, 3, 4, 9, 14, 15, 22, 25, 30, 34, 41];
const EARLIER: [u8; 13] = [2, 6, 14, 15, 16, 22, 24, 25, 30, 31, 32, 34, 41];
const SAME: [u8; 2] = [2, 15];

/// Refused fields of a limitk or limit_ratio, behind a parameter that is no scalar.
const FIELDS: [u8; 3] = [1, 3, 4];

const NAMED: [&str; 5] = [
    "operators: 42 where check accepts",
    "operators: 2 at the end behind 42",
    "operators: 3 of the 257th record, which is a limit, before 42",
    "operators: 14 of a limit",
    "operators: 16, limitk or limit_ratio as an operator",
];

pub(super) fn classes() -> Vec<String> {
    let mut classes: Vec<String> = NAMED.map(String::from).to_vec();
    classes.extend(LATER.map(later));
    classes.extend(EARLIER.map(earlier));
    classes.extend(SAME.map(same));
    classes.extend(FIELDS.map(field));
    classes
}

fn later(number: u8) -> String {
    format!("operators: 42 before {number} of a later record")
}

fn earlier(number: u8) -> String {
    format!("operators: {number} of an earlier record before 42")
}

fn same(number: u8) -> String {
    format!("operators: {number} of a limit whose first argument is no scalar")
}

fn field(number: u8) -> String {
    format!("operators: {number} of a limit's field")
}

/// Whether the bytes behind a refused record are by themselves a page that is refused with 42.
fn is_refused_behind(rest: &[u8]) -> bool {
    let worked = answer::answer(rest);
    let is_42 =
        |outcome| matches!(outcome, Outcome::Refused { number, .. } if number == LIMIT_PARAMETER);
    worked.is_ok_and(|answer| is_42(answer.operators))
}

impl Coverage {
    pub(super) fn limit_order(&mut self, worked: &Worked) {
        if refused_with_42(worked).is_some() {
            return self.behind_42(worked);
        }
        let Outcome::Refused { number, record } = worked.operators else {
            return;
        };
        let rest = &worked.page[write::page(&worked.records).len().min(worked.page.len())..];
        match worked.records.get(record) {
            Some(refused) => {
                if EARLIER.contains(&number) && is_refused_behind(rest) {
                    self.hit(earlier(number));
                }
                self.refused_limit(worked, refused, number);
            }
            None => self.unread_limit(worked, rest, number, record),
        }
    }

    /// What document 01 says of the page that is refused with 42.
    fn behind_42(&mut self, worked: &Worked) {
        match worked.outcome {
            Outcome::Accepted(_) => self.hit(NAMED[0]),
            Outcome::Refused { number, record } => {
                let is_at_end = number == 2 && record == worked.records.len();
                self.hit_if(is_at_end, NAMED[1]);
                if LATER.contains(&number) && !is_at_end {
                    self.hit(later(number));
                }
            }
        }
    }

    /// What else is refused of a limitk or limit_ratio.
    fn refused_limit(&mut self, worked: &Worked, refused: &Record, number: u8) {
        let is_operator = matches!(refused, Record::Binary { code: 29 | 30, .. });
        self.hit_if(is_operator && number == 16, NAMED[4]);
        if !is_limited(refused) {
            return;
        }
        self.hit_if(number == 14, NAMED[3]);
        // Where operands are missing, what is there is the first one.
        let first = match operands(&worked.records, worked.kinds.len()) {
            Some(places) => places.first().map(|place| worked.kinds[*place]),
            None => worked.kinds.last().copied(),
        };
        let is_no_scalar = first.is_some_and(|kind| kind != Kind::Scalar);
        if SAME.contains(&number) && is_no_scalar {
            self.hit(same(number));
        }
    }

    /// A limitk or limit_ratio that is not read: its fields are faulty, or it is the 257th record.
    fn unread_limit(&mut self, worked: &Worked, rest: &[u8], number: u8, record: usize) {
        if number == 3 && record == 256 {
            let Ok(next) = Reader::new(rest).record() else {
                return;
            };
            let records = [worked.records.as_slice(), &[next]].concat();
            let places = operands(&records, record).unwrap_or_default();
            let is_faulty = |place: &usize| worked.kinds[*place] != Kind::Scalar;
            let has_faulty = places.len() == 2 && is_faulty(&places[0]);
            self.hit_if(is_limited(&records[record]) && has_faulty, NAMED[2]);
        } else if FIELDS.contains(&number) && matches!(rest, [10, 29 | 30, ..]) {
            self.hit(field(number));
        }
    }
}
