//! What comes before a generation's own call, with both tables, and what comes behind it, which the other generation
//! does not get to.

use super::super::Coverage;
use super::{is_own, outcome, words};
use crate::answer::{Outcome, Worked};
use crate::generations::Generation;
use crate::page::read::Reader;
use crate::page::write;
use crate::refusal::{UNKNOWN_FUNCTION, UNLIKE_SIGNATURE};

/// What its own table says of the call itself and of a later record, where the other one says 37 of the call.
const AT_CALL: [u8; 4] = [2, 26, 30, UNLIKE_SIGNATURE];
#[rustfmt::skip]
const LATER: [u8; 23] = [
    1, 2, 3, 4, 6, 9, 11, 13, 14, 15, 16, 22, 24, 25, 26, 30, 31, 32, 33, 34, UNKNOWN_FUNCTION, UNLIKE_SIGNATURE, 41,
];

/// What is said of an earlier record, and of a field behind the name.
#[rustfmt::skip]
const EARLIER: [u8; 15] = [
    2, 6, 14, 15, 16, 22, 25, 26, 30, 31, 32, 34, 41, UNKNOWN_FUNCTION, UNLIKE_SIGNATURE,
];
const FIELDS: [u8; 2] = [1, 3];

/// The first record of a page, and the last one.
const ENDS: [usize; 2] = [0, 255];

pub(super) fn classes() -> Vec<String> {
    let mut classes = Vec::new();
    for generation in Generation::ALL {
        classes.extend(AT_CALL.map(|number| at_call(generation, number)));
        classes.extend(LATER.map(|number| later(generation, number)));
        classes.extend(EARLIER.map(|number| earlier(generation, number)));
        classes.extend(FIELDS.map(|number| field(generation, number)));
        classes.push(unread(generation));
        classes.extend(ENDS.map(|record| at_end(generation, record)));
    }
    classes
}

fn at_call(generation: Generation, number: u8) -> String {
    let [own, other] = [generation, generation.other()].map(words);
    format!("generations: {other} 37, {own} {number} of the same call")
}

fn later(generation: Generation, number: u8) -> String {
    let [own, other] = [generation, generation.other()].map(words);
    format!("generations: {other} 37, {own} {number} of a later record")
}

fn earlier(generation: Generation, number: u8) -> String {
    let name = &generation.own().name.text;
    format!("generations: {number} of an earlier record before {name}")
}

fn field(generation: Generation, number: u8) -> String {
    let name = &generation.own().name.text;
    format!("generations: {number} of a field of {name}")
}

fn unread(generation: Generation) -> String {
    let name = &generation.own().name.text;
    format!("generations: 3 of the 257th record, which is {name}")
}

fn at_end(generation: Generation, record: usize) -> String {
    let (other, name) = (words(generation.other()), &generation.own().name.text);
    format!("generations: {other} 37 of {name} at record {record}")
}

impl Coverage {
    /// By what the own table says, and the other one.
    pub(super) fn own_order(&mut self, worked: &Worked, generation: Generation) {
        self.own_at_ends(worked, generation);
        let Outcome::Refused { number, record } = outcome(worked, generation) else {
            return;
        };
        let first = worked
            .records
            .iter()
            .position(|each| is_own(each, generation));
        let other = first.map(|record| Outcome::Refused {
            number: UNKNOWN_FUNCTION,
            record,
        });
        match first {
            Some(place) if other == Some(outcome(worked, generation.other())) => {
                if place == record && AT_CALL.contains(&number) {
                    self.hit(at_call(generation, number));
                }
                if place < record && LATER.contains(&number) {
                    self.hit(later(generation, number));
                }
            }
            _ => self.before_own(worked, generation),
        }
    }

    fn own_at_ends(&mut self, worked: &Worked, generation: Generation) {
        let is_refused_at = |record: &usize| {
            let refused = Outcome::Refused {
                number: UNKNOWN_FUNCTION,
                record: *record,
            };
            outcome(worked, generation.other()) == refused
                && is_own(&worked.records[*record], generation)
        };
        for record in ENDS.into_iter().filter(is_refused_at) {
            self.hit(at_end(generation, record));
        }
    }

    /// What keeps both from getting to the generation's own call.
    fn before_own(&mut self, worked: &Worked, generation: Generation) {
        let (older, newer) = (worked.older, worked.newer);
        let Outcome::Refused { number, record } = older else {
            return;
        };
        if older != newer {
            return;
        }
        let rest = &worked.page[write::page(&worked.records).len().min(worked.page.len())..];
        let mut read = worked.records.iter().skip(record + 1);
        let is_read = read.any(|each| is_own(each, generation));
        if is_read || is_behind(rest, generation, record) {
            let is_257th = number == 3 && record == 256;
            self.hit_if(is_257th, &unread(generation));
            self.hit_if(
                !is_257th && EARLIER.contains(&number),
                &earlier(generation, number),
            );
        } else if FIELDS.contains(&number) && has_name(rest, generation) {
            self.hit(field(generation, number));
        }
    }
}

/// Whether the bytes that were not read hold the generation's own call, the 257th record by itself.
fn is_behind(rest: &[u8], generation: Generation, record: usize) -> bool {
    let mut reader = Reader::new(rest);
    let mut left = if record == 256 { 1 } else { 256 };
    while let (1.., Ok(next)) = (left, reader.record()) {
        if is_own(&next, generation) {
            return true;
        }
        left -= 1;
    }
    false
}

/// Whether they begin with a call of its name.
fn has_name(rest: &[u8], generation: Generation) -> bool {
    let name = Reader::new(rest).called_name();
    name.is_some_and(|name| name.text == generation.own().name.text)
}
