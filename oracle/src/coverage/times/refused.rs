//! What keeps @ and offset of one expression next to each other: a second one, a range behind them, and times behind
//! other records are refused.

use super::super::classes::RECORDS;
use super::super::Coverage;
use crate::answer::{Outcome, Worked};
use crate::page::record::Record;

/// The refused record behind times: its number, and the records before it, by their kinds.
const BEHIND: &[(u8, &[u8])] = &[
    (12, &[6, 5, 6]),
    (10, &[6, 5, 5]),
    (10, &[5, 6, 5]),
    (12, &[5, 6, 6]),
    (12, &[6, 6]),
    (10, &[5, 5]),
    (7, &[6, 5, 3]),
    (7, &[5, 6, 3]),
    (7, &[6, 3]),
    (8, &[5, 3]),
];

/// What cannot have times: unary, paren, binary, aggregate, call.
const UNTIMED: [u8; 5] = [7, 8, 9, 10, 11];

pub(super) fn classes() -> Vec<String> {
    let mut classes: Vec<String> = BEHIND
        .iter()
        .map(|(number, kinds)| refused(*number, kinds))
        .collect();
    for kind in UNTIMED {
        classes.push(refused(11, &[6, kind, 5]));
        classes.push(refused(13, &[5, kind, 6]));
    }
    classes
}

fn refused(number: u8, kinds: &[u8]) -> String {
    let words: Vec<&str> = kinds
        .iter()
        .map(|kind| RECORDS[usize::from(*kind)])
        .collect();
    format!("times: {number:02} of {}", words.join(", "))
}

/// Whether these records end in these kinds, with an expression that can have times before them.
fn ends_in(records: &[Record], kinds: &[u8]) -> bool {
    let Some(before) = records.len().checked_sub(kinds.len() + 1) else {
        return false;
    };
    let found = records[before + 1..].iter().map(Record::kind_number);
    let is_time = matches!(records[before].kind_number(), 5 | 6);
    !is_time && found.eq(kinds.iter().copied())
}

impl Coverage {
    pub(super) fn refused_times(&mut self, worked: &Worked) {
        let Outcome::Refused { number, record } = worked.outcome else {
            return;
        };
        let Some(records) = worked.records.get(..=record) else {
            return;
        };
        for (expected, kinds) in BEHIND {
            let is_hit = number == *expected && ends_in(records, kinds);
            self.hit_if(is_hit, &refused(number, kinds));
        }
        for kind in UNTIMED {
            for (expected, kinds) in [(11, [6, kind, 5]), (13, [5, kind, 6])] {
                let is_hit = number == expected && ends_in(records, &kinds);
                self.hit_if(is_hit, &refused(number, &kinds));
            }
        }
    }
}
