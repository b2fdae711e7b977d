//! Good expressions of a wanted kind, with an exact number of records.

use super::{Generator, Records};
use crate::page::code::{has_parameter, is_set_operator};
use crate::page::record::*;

impl Generator<'_> {
    /// Records that leave one value of this kind; exactly `size` of them.
    pub fn expression(&mut self, kind: Kind, size: usize) -> Records {
        if size == 1 {
            return vec![self.leaf(kind)];
        }
        match kind {
            Kind::Vector => self.vector(size),
            Kind::Scalar => self.scalar(size),
            Kind::Matrix => self.matrix(size),
            Kind::String => self.string(size),
        }
    }

    fn leaf(&mut self, kind: Kind) -> Record<'static> {
        match kind {
            Kind::Vector if self.random.chance(95) => self.selector(),
            Kind::Scalar if self.random.chance(90) => Record::Number(self.literal()),
            Kind::String if self.random.chance(90) => Record::String(self.value()),
            _ => self.call_without_arguments(kind),
        }
    }

    fn vector(&mut self, size: usize) -> Records {
        match self.random.below(10) {
            0 | 1 if size <= 3 => {
                let selector = vec![self.selector()];
                self.timed(selector, size - 1)
            }
            0 => self.under(Record::Unary, Kind::Vector, size),
            1 => self.under(Record::Paren, Kind::Vector, size),
            2..=4 if size >= 3 => self.binary_vector(size),
            5..=7 => self.aggregate(size),
            _ => self.call(Kind::Vector, size),
        }
    }

    fn scalar(&mut self, size: usize) -> Records {
        match self.random.below(10) {
            0..=2 => self.under(Record::Unary, Kind::Scalar, size),
            3 => self.under(Record::Paren, Kind::Scalar, size),
            4..=7 if size >= 3 => self.binary(Kind::Scalar, Kind::Scalar, size),
            _ => self.call(Kind::Scalar, size),
        }
    }

    fn matrix(&mut self, size: usize) -> Records {
        match self.random.below(10) {
            0..=3 if size <= 4 => {
                let range = vec![self.selector(), Record::Range(self.duration())];
                self.timed(range, size - 2)
            }
            4 => self.under(Record::Paren, Kind::Matrix, size),
            5 => self.call(Kind::Matrix, size),
            _ => self.subquery(size),
        }
    }

    fn string(&mut self, size: usize) -> Records {
        if self.random.chance(50) {
            self.under(Record::Paren, Kind::String, size)
        } else {
            self.call(Kind::String, size)
        }
    }

    fn under(&mut self, record: Record<'static>, kind: Kind, size: usize) -> Records {
        let mut records = self.expression(kind, size - 1);
        records.push(record);
        records
    }

    /// At most one @ and one offset, in either order.
    pub(super) fn timed(&mut self, mut records: Records, count: usize) -> Records {
        let mut times = vec![Record::At(self.at()), self.offset()];
        if self.random.chance(50) {
            times.reverse();
        }
        records.extend(times.into_iter().take(count));
        records
    }

    fn subquery(&mut self, size: usize) -> Records {
        let times = self.random.between(0, (size - 2).min(2));
        let mut records = self.expression(Kind::Vector, size - 1 - times);
        records.push(Record::Subquery {
            range: self.duration(),
            step: self.random.chance(50).then(|| self.duration()),
        });
        self.timed(records, times)
    }

    fn binary_vector(&mut self, size: usize) -> Records {
        let (left, right) = *self.random.pick(&[
            (Kind::Vector, Kind::Vector),
            (Kind::Vector, Kind::Vector),
            (Kind::Vector, Kind::Scalar),
            (Kind::Scalar, Kind::Vector),
        ]);
        self.binary(left, right, size)
    }

    fn binary(&mut self, left: Kind, right: Kind, size: usize) -> Records {
        let are_vectors = left == Kind::Vector && right == Kind::Vector;
        let code = loop {
            let code = self.random.between(1, 16) as u8;
            if are_vectors || !is_set_operator(code) {
                break code;
            }
        };
        let shares = self.random.shares(size - 1, 2);
        let mut records = self.expression(left, shares[0]);
        records.extend(self.expression(right, shares[1]));
        let modifier = self.modifier(code, left, right);
        records.push(Record::Binary { code, modifier });
        records
    }

    fn aggregate(&mut self, size: usize) -> Records {
        let code = loop {
            let code = self.random.between(17, 30) as u8;
            if size >= 3 || !has_parameter(code) {
                break code;
            }
        };
        let arguments = if has_parameter(code) { 2 } else { 1 };
        let shares = self.random.shares(size - 1, arguments);
        let mut records = Vec::new();
        if arguments == 2 {
            let kind = self.parameter_kind(code);
            records = self.expression(kind, shares[0]);
        }
        records.extend(self.expression(Kind::Vector, shares[arguments - 1]));
        let grouping = self.grouping();
        records.push(Record::Aggregate {
            code,
            grouping,
            arguments,
        });
        records
    }

    /// count_values wants a string; limitk and limit_ratio take any kind.
    fn parameter_kind(&mut self, code: u8) -> Kind {
        match code {
            20 => Kind::String,
            29 | 30 if self.random.chance(40) => *self.random.pick(&Kind::ALL),
            _ => Kind::Scalar,
        }
    }
}
