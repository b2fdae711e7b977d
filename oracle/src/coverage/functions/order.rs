//! What comes before 37 and 38: the call's fields, earlier records, the 257th record. What comes after them: what
//! document 01 says of the same call and of later records.

use super::super::Coverage;
use super::outcomes::NUMBERS;
use crate::answer::{Outcome, Worked};
use crate::functions;
use crate::page::read::Reader;
use crate::page::record::Record;
use crate::page::write;

/// What document 01 says of the call itself, and of a later record.
const AT_CALL: [u8; 6] = [2, 26, 27, 28, 29, 30];
const LATER: [u8; 7] = [1, 2, 3, 4, 22, 34, 41];

/// What document 01 says of an earlier record, and of a field behind the name.
const EARLIER: [u8; 6] = [2, 6, 22, 30, 34, 41];
const FIELDS: [u8; 2] = [1, 3];

/// What is said of calls as the table has them.
const OF_LIKE: [u8; 5] = [2, 26, 27, 28, 30];

pub(super) fn classes() -> Vec<String> {
    let mut classes = Vec::new();
    for number in NUMBERS {
        classes.push(format!("table: {number} where check accepts"));
        classes.extend(AT_CALL.map(|other| at_call(number, other)));
        classes.extend(LATER.map(|other| later(number, other)));
        classes.extend(EARLIER.map(|other| earlier(number, other)));
        classes.push(earlier(number, 3));
        classes.extend(NUMBERS.map(|other| followed(number, other)));
    }
    for number in FIELDS {
        classes.extend(["an unknown", "a known"].map(|name| field(number, name)));
    }
    classes.push(field(4, "no"));
    classes.extend(OF_LIKE.map(of_like));
    classes
}

fn at_call(number: u8, other: u8) -> String {
    format!("table: {number} before {other} of the same call")
}

fn later(number: u8, other: u8) -> String {
    format!("table: {number} before {other} of a later record")
}

fn earlier(number: u8, other: u8) -> String {
    match other {
        3 => format!("table: 3 of the 257th record before {number}"),
        _ => format!("table: {other} of an earlier record before {number}"),
    }
}

fn followed(number: u8, other: u8) -> String {
    format!("table: {number} before a later {other}")
}

fn field(number: u8, name: &str) -> String {
    format!("table: {number} of a call's field, {name} name")
}

fn of_like(number: u8) -> String {
    format!("table: {number} of a call as the table has it")
}

fn fault(record: &Record) -> Option<u8> {
    functions::fault(functions::table(), record)
}

/// What the table has against the next record, if it can be read.
fn next_fault(rest: &[u8]) -> Option<u8> {
    let next = Reader::new(rest).record().ok()?;
    fault(&next)
}

impl Coverage {
    pub(super) fn table_order(&mut self, worked: &Worked) {
        let rest = &worked.page[write::page(&worked.records).len().min(worked.page.len())..];
        match (worked.table, worked.outcome) {
            (Outcome::Refused { number, record }, outcome) if NUMBERS.contains(&number) => {
                self.after_table(number, record, outcome);
                let behind = worked.records[record + 1..].iter();
                let mut faults = behind.filter_map(fault).chain(next_fault(rest));
                if let Some(other) = faults.next() {
                    self.hit(followed(number, other));
                }
            }
            (Outcome::Refused { number, record }, _) => {
                self.before_table(number, record, rest);
                let last = worked.records.get(record);
                let is_call = matches!(last, Some(Record::Call { .. }));
                self.hit_if(is_call && OF_LIKE.contains(&number), &of_like(number));
            }
            _ => {}
        }
    }

    /// What document 01 says where the table refuses.
    fn after_table(&mut self, number: u8, record: usize, outcome: Outcome) {
        match outcome {
            Outcome::Accepted(_) => self.hit(format!("table: {number} where check accepts")),
            Outcome::Refused {
                number: other,
                record: place,
            } => {
                let is_same = place == record;
                self.hit_if(is_same && AT_CALL.contains(&other), &at_call(number, other));
                self.hit_if(!is_same && LATER.contains(&other), &later(number, other));
            }
        }
    }

    /// What would be refused by the table, had document 01 not refused an earlier record or a field of the call.
    fn before_table(&mut self, number: u8, record: usize, rest: &[u8]) {
        let is_257th = number == 3 && record == 256;
        if let Some(fault) = next_fault(rest) {
            if is_257th || EARLIER.contains(&number) {
                self.hit(earlier(fault, number));
            }
            return;
        }
        let is_field = matches!(number, 1 | 3 | 4) && !is_257th;
        if !is_field || rest.first() != Some(&11) {
            return;
        }
        match Reader::new(rest).called_name() {
            Some(name) if FIELDS.contains(&number) => {
                let is_known = functions::signature(&name.text).is_some();
                self.hit(field(
                    number,
                    ["an unknown", "a known"][usize::from(is_known)],
                ));
            }
            None => self.hit_if(number == 4, &field(4, "no")),
            Some(_) => {}
        }
    }
}
