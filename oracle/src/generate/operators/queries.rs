//! limitk and limit_ratio nested in queries of any shape: with scalar parameters, with one or several that are none, and
//! on operands that are no vectors.

use super::CODES;
use crate::generate::fault::unread;
use crate::generate::{Generator, Made, Records};
use crate::operators::is_limited;
use crate::page::record::{Kind, Record};
use crate::page::{write, MAX_PAGE_BYTES};
use crate::refusal::LIMIT_PARAMETER;

/// What a scalar is not.
const NO_SCALAR: [Kind; 3] = [Kind::Vector, Kind::Matrix, Kind::String];
const NO_VECTOR: [Kind; 3] = [Kind::Scalar, Kind::Matrix, Kind::String];

impl Generator<'_> {
    /// An expression of this kind in which there is no limitk and no limit_ratio.
    fn unlimited(&mut self, kind: Kind) -> Records {
        loop {
            let least = if kind == Kind::Matrix { 2 } else { 1 };
            let size = self.random.between(least, 6);
            let records = self.expression(kind, size);
            if !records.iter().any(is_limited) {
                return records;
            }
        }
    }

    fn limit(&mut self) -> Record<'static> {
        Record::Aggregate {
            code: *self.random.pick(&CODES),
            grouping: self.grouping(),
            arguments: 2,
        }
    }

    /// Up to two expressions in which there is no limitk and no limit_ratio.
    fn unlimited_context(&mut self) -> Records {
        let expressions = self.random.below(3);
        let mut records = Records::new();
        for _ in 0..expressions {
            let kind = *self.random.pick(&Kind::ALL);
            records.extend(self.unlimited(kind));
        }
        records
    }

    /// Nested so deep, the innermost on a vector; `kinds` are those of the parameters from the innermost on. A level may
    /// stand in a paren or a unary, or be a side of an addition.
    fn limits(&mut self, kinds: &[Kind]) -> Records {
        let Some((kind, inner)) = kinds.split_last() else {
            return self.unlimited(Kind::Vector);
        };
        let mut records = self.unlimited(*kind);
        records.extend(self.limits(inner));
        records.push(self.limit());
        match self.random.below(8) {
            0 => records.push(Record::Paren),
            1 => records.push(Record::Unary),
            2 => {
                records.extend(self.unlimited(Kind::Scalar));
                records.push(Record::Binary {
                    code: 1,
                    modifier: None,
                });
            }
            _ => {}
        }
        records
    }

    pub(super) fn limit_page(&mut self) -> Made {
        loop {
            let depth = self.random.between(1, 5);
            let records = self.limits(&vec![Kind::Scalar; depth]);
            if write::page(&records).len() < MAX_PAGE_BYTES / 2 {
                return Made::accepted(&records, Kind::Vector);
            }
        }
    }

    /// One parameter or several are no scalars: the first record decides, which is the innermost. Bytes behind the query
    /// are not read.
    pub(super) fn faulty_limit_page(&mut self) -> Made {
        let depth = self.random.between(1, 4);
        let faulty = self.random.below(depth);
        let kinds: Vec<Kind> = (0..depth)
            .map(|level| match level {
                _ if level == faulty => *self.random.pick(&NO_SCALAR),
                _ if level > faulty => *self.random.pick(&Kind::ALL),
                _ => Kind::Scalar,
            })
            .collect();
        loop {
            let context = self.unlimited_context();
            let before = context.len();
            let mut records = context;
            records.extend(self.limits(&kinds));
            let limits = (before..records.len()).filter(|place| is_limited(&records[*place]));
            let record = limits
                .clone()
                .nth(faulty)
                .expect("as many as there are levels");
            if self.random.chance(30) {
                records.truncate(record + 1);
            }
            let mut page = write::page(&records);
            if self.random.chance(40) {
                page.extend(unread(self.random));
            }
            if page.len() < MAX_PAGE_BYTES / 2 {
                return Made::refused(page, LIMIT_PARAMETER, record);
            }
        }
    }

    /// 25: whatever the parameter is, the operand is no vector.
    pub(super) fn wrong_operand(&mut self) -> Made {
        let mut records = self.unlimited_context();
        let parameter = *self.random.pick(&Kind::ALL);
        let operand = *self.random.pick(&NO_VECTOR);
        records.extend(self.unlimited(parameter));
        records.extend(self.unlimited(operand));
        let record = records.len();
        records.push(self.limit());
        let mut page = write::page(&records);
        page.extend(unread(self.random));
        Made::refused(page, 25, record)
    }
}
