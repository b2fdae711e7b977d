//! Queries of which every call is as the table has it, nested; and such queries with one call that is not.

use super::right::counts;
use super::{call, declared};
use crate::generate::fault::unread;
use crate::generate::{Generator, Made, Records};
use crate::page::record::{Kind, Record, Signature};
use crate::page::{write, MAX_PAGE_BYTES, MAX_RECORDS};
use crate::refusal::UNKNOWN_FUNCTION;

/// The code of `+` and of `sum`.
const ADD: u8 = 1;
const SUM: u8 = 27;

impl Generator<'_> {
    pub(super) fn table_signature(&mut self) -> &'static Signature<'static> {
        let all: Vec<&Signature> = self.table.values().collect();
        *self.random.pick(&all)
    }

    /// A call of a function that has this result: vector or scalar.
    fn table_call(&mut self, result: Kind, depth: usize) -> Records {
        let has_result = |each: &&Signature| each.result == result;
        let fitting: Vec<_> = self.table.values().filter(has_result).collect();
        let signature = *self.random.pick(&fitting);
        let counts = counts(signature);
        let most = (*counts.end()).min(signature.kinds.len() + 2);
        let count = match self.random.below(8) {
            0 => *counts.end(),
            _ => self.random.between(*counts.start(), most),
        };
        let kinds: Vec<Kind> = (0..count)
            .map_while(|place| declared(signature, place))
            .collect();
        let mut records = Records::new();
        for kind in kinds {
            records.extend(self.table_query(kind, depth - 1));
        }
        records.push(call(signature.clone(), count));
        records
    }

    /// An expression of this kind, with calls of the table alone, nested so deep at most.
    pub(in crate::generate) fn table_query(&mut self, kind: Kind, depth: usize) -> Records {
        if depth == 0 {
            return self.table_leaf(kind);
        }
        match (kind, self.random.below(8)) {
            (Kind::String, _) => self.table_leaf(kind),
            (Kind::Matrix, 0..=3) => self.table_leaf(kind),
            (Kind::Matrix, _) => {
                let step = self.random.chance(50).then(|| self.duration());
                let range = self.duration();
                self.table_under(Kind::Vector, depth, Record::Subquery { range, step })
            }
            (_, 0) => self.table_under(kind, depth, Record::Paren),
            (Kind::Vector, 1) => self.table_sum(depth),
            (_, 2) => self.table_addition(kind, depth),
            _ => self.table_call(kind, depth),
        }
    }

    fn table_under(&mut self, kind: Kind, depth: usize, record: Record<'static>) -> Records {
        let mut records = self.table_query(kind, depth - 1);
        records.push(record);
        records
    }

    fn table_sum(&mut self, depth: usize) -> Records {
        let sum = Record::Aggregate {
            code: SUM,
            grouping: self.grouping(),
            arguments: 1,
        };
        self.table_under(Kind::Vector, depth, sum)
    }

    fn table_addition(&mut self, kind: Kind, depth: usize) -> Records {
        let mut records = self.table_query(kind, depth - 1);
        records.extend(self.table_query(Kind::Scalar, depth - 1));
        records.push(Record::Binary {
            code: ADD,
            modifier: None,
        });
        records
    }

    fn table_leaf(&mut self, kind: Kind) -> Records {
        match kind {
            Kind::Vector => vec![self.selector()],
            Kind::Scalar => vec![Record::Number(self.literal())],
            Kind::Matrix => vec![self.selector(), Record::Range(self.duration())],
            Kind::String => vec![Record::String(self.value())],
        }
    }

    /// A query that fits a page, with a call at its end, and its kind.
    pub(in crate::generate) fn table_records(&mut self) -> (Records, Kind) {
        let kind = *self
            .random
            .pick(&[Kind::Vector, Kind::Vector, Kind::Scalar]);
        loop {
            let depth = self.random.between(1, 4);
            let records = self.table_call(kind, depth);
            if records.len() < MAX_RECORDS && write::page(&records).len() < MAX_PAGE_BYTES / 2 {
                return (records, kind);
            }
        }
    }

    pub(super) fn table_page(&mut self) -> Made {
        let (records, kind) = self.table_records();
        Made::accepted(&records, kind)
    }

    /// One of the calls refused with 37 or 38, with bytes behind it that the check with the table does not get to.
    pub(super) fn altered_page(&mut self, number: u8) -> Made {
        let (mut records, _) = self.table_records();
        let is_call = |record: &Record| matches!(record, Record::Call { .. });
        let places: Vec<usize> = (0..records.len())
            .filter(|place| is_call(&records[*place]))
            .collect();
        let place = *self.random.pick(&places);
        if let Record::Call { signature, .. } = &mut records[place] {
            match number {
                UNKNOWN_FUNCTION => signature.name = self.unknown_name(&signature.name.text),
                _ => *signature = self.unlike_signature(signature),
            }
        }
        if self.random.chance(30) {
            records.truncate(place + 1);
        }
        let mut page = write::page(&records);
        if self.random.chance(30) {
            page.extend(unread(self.random));
        }
        Made::refused(page, number, place)
    }
}
