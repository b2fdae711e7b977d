//! Calls as the table has them with wrong arguments: 2, 26, 27, 28 and 30, and no 29.

use super::right::counts;
use super::{call, declared};
use crate::generate::{Generator, Made, Records};
use crate::page::record::{Extra, Kind, Signature};
use crate::page::write;

const NUMBERS: [u8; 5] = [2, 26, 27, 28, 30];

/// Whether a call with this signature can be refused so.
fn can_have(signature: &Signature, number: u8) -> bool {
    let has_kinds = !signature.kinds.is_empty();
    match number {
        2 | 30 => has_kinds,
        26 => signature.extra == Extra::Fixed,
        27 => signature.extra != Extra::Fixed && signature.kinds.len() > 1,
        _ => matches!(signature.extra, Extra::Upper(_)),
    }
}

impl Generator<'_> {
    /// A table call that is refused for its arguments, behind other queries.
    pub(super) fn argument_fault(&mut self) -> Made {
        let number = *self.random.pick(&NUMBERS);
        let can_have = |each: &&Signature| can_have(each, number);
        let fitting: Vec<_> = self.table.values().filter(can_have).collect();
        let signature = *self.random.pick(&fitting);
        let counts = counts(signature);
        let declared = signature.kinds.len();
        let mut records = match number {
            2 => Records::new(),
            _ => self.table_context(),
        };
        let count = match number {
            26 if declared > 0 && self.random.chance(40) => self.random.below(declared),
            26 | 28 => *counts.end() + self.random.between(1, 2),
            27 => self.random.below(*counts.start()),
            2 => (*counts.start()).max(1),
            _ => self.random.between((*counts.start()).max(1), *counts.end()),
        };
        let wrong = (number == 30).then(|| self.random.below(count));
        let given = count - usize::from(number == 2);
        records.extend(self.table_arguments(signature, given, wrong));
        let record = records.len();
        records.push(call(signature.clone(), count));
        Made::refused(write::page(&records), number, record)
    }

    /// Up to two queries with calls of the table alone.
    pub(in crate::generate) fn table_context(&mut self) -> Records {
        let queries = self.random.below(3);
        let mut records = Records::new();
        for _ in 0..queries {
            let kind = *self.random.pick(&Kind::ALL);
            records.extend(self.table_query(kind, 1));
        }
        records
    }

    /// Arguments of the declared kinds, but for one that has another.
    fn table_arguments(
        &mut self,
        signature: &Signature,
        count: usize,
        wrong: Option<usize>,
    ) -> Records {
        let mut records = Records::new();
        for place in 0..count {
            let kind = declared(signature, place).unwrap_or(Kind::Vector);
            let given = match wrong == Some(place) {
                // Neither is a literal that the exception excuses.
                true if kind == Kind::Matrix => Kind::String,
                true => Kind::Matrix,
                false => kind,
            };
            records.extend(self.table_query(given, 0));
        }
        records
    }
}
