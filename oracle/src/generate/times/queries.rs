//! Queries of any shape whose selectors, ranges and subqueries have times.

use super::super::{Generator, Made, Records};
use crate::answer::Outcome;
use crate::page::code::is_set_operator;
use crate::page::record::*;
use crate::page::write;
use std::iter;

impl Generator<'_> {
    pub(super) fn timed_query(&mut self) -> Made {
        let levels = self.random.between(0, 6);
        let (records, kind) = self.timed_expression(levels);
        Made::new(write::page(&records), Outcome::Accepted(kind))
    }

    /// Both times mostly, one or none now and then.
    fn timed_mostly(&mut self, records: Records) -> Records {
        let count = match self.random.below(8) {
            0 => 0,
            1 => 1,
            _ => 2,
        };
        self.timed(records, count)
    }

    /// A selector or a range with times, under so many records.
    fn timed_expression(&mut self, levels: usize) -> (Records, Kind) {
        let mut records = vec![self.selector()];
        let mut kind = Kind::Vector;
        if self.random.chance(20) {
            records.push(Record::Range(self.duration()));
            kind = Kind::Matrix;
        }
        let mut made = (self.timed_mostly(records), kind);
        for level in 0..levels {
            made = match made.1 {
                Kind::Vector => self.around_vector(made.0, levels - level),
                kind => self.around_any(made.0, kind),
            };
        }
        made
    }

    fn around_vector(&mut self, mut records: Records, levels: usize) -> (Records, Kind) {
        match self.random.below(6) {
            0 => records.push(Record::Unary),
            1 => {
                let (range, step) = (self.duration(), self.random.chance(50));
                let step = step.then(|| self.duration());
                records.push(Record::Subquery { range, step });
                return (self.timed_mostly(records), Kind::Matrix);
            }
            2 => {
                let grouping = self.grouping();
                records.push(Record::Aggregate {
                    code: 27,
                    grouping,
                    arguments: 1,
                });
            }
            3 | 4 => return (self.beside(records, levels), Kind::Vector),
            _ => return self.around_any(records, Kind::Vector),
        }
        (records, Kind::Vector)
    }

    /// An operator between the expression and another one, on either side.
    fn beside(&mut self, records: Records, levels: usize) -> Records {
        let (other, kind) = self.other_operand(levels);
        let code = loop {
            let code = self.random.between(1, 16) as u8;
            if kind == Kind::Vector || !is_set_operator(code) {
                break code;
            }
        };
        let mut operands = [(records, Kind::Vector), (other, kind)];
        if self.random.chance(50) {
            operands.reverse();
        }
        let [(left, left_kind), (right, right_kind)] = operands;
        let modifier = self.modifier(code, left_kind, right_kind);
        let operator = Record::Binary { code, modifier };
        [left, right, vec![operator]].concat()
    }

    /// A number, negated up to three times, or a vector with times.
    fn other_operand(&mut self, levels: usize) -> (Records, Kind) {
        if self.random.chance(30) {
            let mut number = vec![Record::Number(self.literal())];
            let unary = self.random.between(0, 3);
            number.extend(iter::repeat_n(Record::Unary, unary));
            return (number, Kind::Scalar);
        }
        let (mut other, kind) = self.timed_expression(levels.min(2) - 1);
        if kind != Kind::Vector {
            other.push(called(kind, Kind::Vector));
        }
        (other, Kind::Vector)
    }

    /// A paren or a call.
    fn around_any(&mut self, mut records: Records, kind: Kind) -> (Records, Kind) {
        if self.random.chance(40) {
            records.push(Record::Paren);
            return (records, kind);
        }
        let result = match self.random.below(3) {
            0 => *self.random.pick(&Kind::ALL),
            _ => Kind::Vector,
        };
        records.push(called(kind, result));
        (records, result)
    }
}

/// A function of one argument.
fn called(argument: Kind, result: Kind) -> Record<'static> {
    let signature = Signature {
        name: Text::from("f"),
        kinds: vec![argument],
        extra: Extra::Fixed,
        result,
    };
    Record::Call {
        signature,
        arguments: 1,
    }
}
