//! The calls that the table judges: each function with its signature and the fewest and most arguments, each way in
//! which its signature can be another, names that the table lacks, calls in calls, and the literal exception.

use super::super::Coverage;
use crate::answer::{Outcome, Worked};
use crate::functions::near::{unlike, Unlike};
use crate::functions::spelling::Spelling;
use crate::functions::{self, signatures};
use crate::generate::functions::counts;
use crate::page::record::{Extra, Kind, Record, Signature};
use crate::refusal::{UNKNOWN_FUNCTION, UNLIKE_SIGNATURE};

/// The functions of the literal exception.
pub(in crate::coverage) const EXCUSED: [&str; 4] = ["exp", "ln", "log10", "log2"];

const NESTED: [&str; 3] = [
    "table: a call in a call",
    "table: an unknown call of a known one",
    "table: an unlike call of a like one",
];

pub(super) fn classes() -> Vec<String> {
    let mut classes: Vec<String> = NESTED.map(String::from).to_vec();
    for known in signatures() {
        let name = &known.name.text;
        classes.push(like(name));
        let ways = Unlike::ALL.into_iter().filter(|way| way.is_possible(known));
        classes.extend(ways.map(|way| other(name, way)));
        if known.extra != Extra::Fixed {
            classes.extend(["fewest", "most"].map(|words| counted(name, words)));
        }
        if known.kinds.is_empty() {
            classes.push(surplus(name));
        }
    }
    classes.extend(Spelling::ALL.map(unknown));
    for name in EXCUSED {
        classes.extend([true, false].map(|is_like| excused(name, is_like)));
    }
    classes
}

fn like(name: &str) -> String {
    format!("table: {name} as the table has it")
}

fn other(name: &str, way: Unlike) -> String {
    format!("table: {name}, {}", way.words())
}

fn counted(name: &str, words: &str) -> String {
    format!("table: {name}, {words} arguments")
}

fn surplus(name: &str) -> String {
    format!("table: 26, not 29, of {name}, which has no kinds")
}

fn unknown(spelling: Spelling) -> String {
    format!("table: an unknown name, {}", spelling.words())
}

fn excused(name: &str, is_like: bool) -> String {
    let words = ["another signature", "the table's"][usize::from(is_like)];
    format!("table: {name} of an excused literal, {words}")
}

/// Whether the last record is a call of a number, for which it declares another kind; where it passes document 01's
/// check, the exception excuses it.
pub(in crate::coverage) fn needs_excuse(records: &[Record]) -> bool {
    let [.., Record::Number(_), Record::Call {
        signature,
        arguments: 1,
    }] = records
    else {
        return false;
    };
    signature.kinds.first() != Some(&Kind::Scalar)
}

/// Whether document 01's check lets the record pass.
fn passes(outcome: Outcome, place: usize) -> bool {
    match outcome {
        Outcome::Accepted(_) => true,
        Outcome::Refused { record, .. } => place < record,
    }
}

impl Coverage {
    pub(super) fn table_calls(&mut self, worked: &Worked) {
        match worked.table {
            Outcome::Accepted(_) => self.table_accepted(&worked.records),
            Outcome::Refused { number, record } => {
                let Some(Record::Call {
                    signature,
                    arguments,
                }) = worked.records.get(record)
                else {
                    return;
                };
                match number {
                    UNKNOWN_FUNCTION => self.unknown_name(&signature.name.text),
                    UNLIKE_SIGNATURE => self.unlike_call(worked, record, signature),
                    26 if signature.kinds.is_empty() && *arguments > 0 => {
                        self.hit(surplus(&signature.name.text));
                    }
                    _ => {}
                }
                self.nested_calls(&worked.records, record, number);
            }
        }
    }

    fn table_accepted(&mut self, records: &[Record]) {
        for (place, record) in records.iter().enumerate() {
            let Record::Call {
                signature,
                arguments,
            } = record
            else {
                continue;
            };
            let name = signature.name.text.as_ref();
            self.hit(like(name));
            if signature.extra != Extra::Fixed {
                let counts = counts(signature);
                self.hit_if(arguments == counts.start(), &counted(name, "fewest"));
                self.hit_if(arguments == counts.end(), &counted(name, "most"));
            }
            if needs_excuse(&records[..=place]) {
                self.hit(excused(name, true));
            }
            let is_nested = place > 0 && *arguments > 0 && is_call(&records[place - 1]);
            self.hit_if(is_nested, NESTED[0]);
        }
    }

    fn unknown_name(&mut self, name: &str) {
        for spelling in Spelling::ALL {
            self.hit_if(spelling.is_of(name), &unknown(spelling));
        }
    }

    fn unlike_call(&mut self, worked: &Worked, record: usize, carried: &Signature) {
        let name = carried.name.text.as_ref();
        let known = functions::signature(name).expect("38 is for a known name");
        if let Some(way) = unlike(carried, known) {
            self.hit(other(name, way));
        }
        if needs_excuse(&worked.records[..=record]) && passes(worked.outcome, record) {
            self.hit(excused(name, false));
        }
    }

    /// A refused call whose last argument is a call that the table has.
    fn nested_calls(&mut self, records: &[Record], record: usize, number: u8) {
        let takes = matches!(&records[record], Record::Call { arguments, .. } if *arguments > 0);
        if takes && record > 0 && is_call(&records[record - 1]) {
            self.hit_if(number == UNKNOWN_FUNCTION, NESTED[1]);
            self.hit_if(number == UNLIKE_SIGNATURE, NESTED[2]);
        }
    }
}

fn is_call(record: &Record) -> bool {
    matches!(record, Record::Call { .. })
}
