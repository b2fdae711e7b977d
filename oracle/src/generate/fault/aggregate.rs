//! Faulty aggregates: refusals 14, 15, 24 and 25.

use super::super::{Generator, Records};
use super::checks::NOT_VECTOR;
use crate::page::code::has_parameter;
use crate::page::record::*;

impl Generator<'_> {
    pub(super) fn aggregate_fault(&mut self, number: u8) -> (Records, Record<'static>) {
        let code = match number {
            14 | 15 => self.random.between(1, 30),
            24 => self.random.between(1, 16),
            _ => self.random.between(17, 30),
        } as u8;
        let wanted = if has_parameter(code) { 2 } else { 1 };
        let arguments = match number {
            14 => 0,
            15 => loop {
                let count = self.random.between(1, 5);
                if count != wanted {
                    break count;
                }
            },
            _ => wanted,
        };
        let before = if number == 25 {
            self.wrong_aggregate_operands(code)
        } else {
            (0..arguments)
                .flat_map(|_| self.one_of(&Kind::ALL))
                .collect()
        };
        let grouping = self.grouping();
        let record = Record::Aggregate {
            code,
            grouping,
            arguments,
        };
        (before, record)
    }

    /// 25: the operand is no vector, or the parameter of another kind than the operator wants.
    fn wrong_aggregate_operands(&mut self, code: u8) -> Records {
        let wrong: &[Kind] = match code {
            18 | 24 | 28 => &[Kind::Vector, Kind::Matrix, Kind::String],
            20 => &[Kind::Vector, Kind::Scalar, Kind::Matrix],
            29 | 30 => &Kind::ALL,
            _ => return self.one_of(NOT_VECTOR),
        };
        if matches!(code, 29 | 30) || self.random.chance(50) {
            let mut records = self.one_of(&Kind::ALL);
            records.extend(self.one_of(NOT_VECTOR));
            return records;
        }
        let mut records = self.one_of(wrong);
        records.extend(self.small(Kind::Vector));
        records
    }
}
