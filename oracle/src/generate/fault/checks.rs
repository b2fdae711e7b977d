//! Faults that the constructors and `check_ast` find: refusals 6 to 34, and 2 by missing operands; and wrong flags, 41.

use super::super::{Generator, Records};
use super::Fault;
use crate::page::record::*;
use crate::page::write;
use crate::refusal::WRONG_FLAG;

pub(super) const NOT_VECTOR: &[Kind] = &[Kind::Scalar, Kind::Matrix, Kind::String];
const NOT_NUMERIC: &[Kind] = &[Kind::Matrix, Kind::String];

pub(super) fn fault(generator: &mut Generator, number: u8) -> Fault {
    let (before, record) = match number {
        6 => (generator.string_or_range(), Record::Unary),
        7 => (generator.with_offset(), generator.range()),
        8 => (generator.with_at(), generator.range()),
        9 => (generator.no_selector(), generator.range()),
        10 => (generator.timed_already(true), Record::At(generator.at())),
        11 => (generator.untimed(), Record::At(generator.at())),
        12 => (generator.timed_already(false), generator.offset()),
        13 => (generator.untimed(), generator.offset()),
        14 | 15 | 24 | 25 => generator.aggregate_fault(number),
        16..=23 => generator.binary_fault(number),
        26..=30 => generator.call_fault(number),
        31 => (generator.negatable_by_form(), Record::Unary),
        32 => (generator.one_of(NOT_VECTOR), generator.subquery_record()),
        33 => (Vec::new(), generator.named_twice()),
        WRONG_FLAG => (Vec::new(), generator.wrongly_flagged()),
        _ => (Vec::new(), generator.accepts_all()),
    };
    let mut bytes = Vec::new();
    write::record(&mut bytes, &record);
    Fault {
        before,
        record: bytes,
        is_last: false,
    }
}

/// A record that wants more operands than there are values.
pub(super) fn wanting(generator: &mut Generator, values: usize) -> Record<'static> {
    let arguments = generator.random.between(values + 1, 16);
    match generator.random.below(if values == 0 { 8 } else { 2 }) {
        0 => Record::Aggregate {
            code: generator.random.between(1, 30) as u8,
            grouping: generator.grouping(),
            arguments,
        },
        1 if values < 2 && generator.random.chance(50) => Record::Binary {
            code: generator.random.between(1, 30) as u8,
            modifier: None,
        },
        1 => Record::Call {
            signature: generator.signature(&[Kind::Vector], Extra::Fixed),
            arguments,
        },
        2 => generator.range(),
        3 => generator.subquery_record(),
        4 => Record::At(generator.at()),
        5 => generator.offset(),
        6 => Record::Unary,
        _ => Record::Paren,
    }
}

impl Generator<'_> {
    fn range(&mut self) -> Record<'static> {
        Record::Range(self.duration())
    }

    fn subquery_record(&mut self) -> Record<'static> {
        Record::Subquery {
            range: self.duration(),
            step: self.random.chance(50).then(|| self.duration()),
        }
    }

    pub(super) fn small(&mut self, kind: Kind) -> Records {
        let size = self.random.between(1, 4);
        self.expression(kind, size)
    }

    pub(super) fn one_of(&mut self, kinds: &[Kind]) -> Records {
        let kind = *self.random.pick(kinds);
        self.small(kind)
    }

    fn string_or_range(&mut self) -> Records {
        match self.random.below(4) {
            0 => vec![Record::String(self.value())],
            1 => vec![self.selector(), self.range()],
            2 => vec![self.selector(), self.range(), self.offset()],
            _ => vec![self.selector(), self.range(), Record::At(self.at())],
        }
    }

    fn with_offset(&mut self) -> Records {
        match self.random.below(3) {
            0 => vec![self.selector(), self.offset()],
            1 => vec![self.selector(), self.offset(), Record::At(self.at())],
            _ => vec![self.selector(), Record::At(self.at()), self.offset()],
        }
    }

    fn with_at(&mut self) -> Records {
        vec![self.selector(), Record::At(self.at())]
    }

    fn no_selector(&mut self) -> Records {
        if self.random.chance(20) {
            vec![self.selector(), self.range()]
        } else {
            self.untimed()
        }
    }

    /// An expression that is no selector, range or subquery.
    fn untimed(&mut self) -> Records {
        let kind = *self.random.pick(&Kind::ALL);
        match self.random.below(5) {
            0 => vec![Record::Number(self.literal())],
            1 => vec![Record::String(self.value())],
            2 => vec![self.call_without_arguments(kind)],
            3 => vec![self.selector(), Record::Unary],
            _ => {
                let mut records = self.small(kind);
                records.push(Record::Paren);
                records
            }
        }
    }

    /// A selector, range or subquery on which @ (or offset) is set, perhaps the other too.
    fn timed_already(&mut self, is_at: bool) -> Records {
        let mut records = vec![self.selector()];
        match self.random.below(3) {
            0 => records.push(self.range()),
            1 => records.push(self.subquery_record()),
            _ => {}
        }
        let place = records.len();
        records.push(if is_at {
            Record::At(self.at())
        } else {
            self.offset()
        });
        if self.random.chance(40) {
            let other = if is_at {
                self.offset()
            } else {
                Record::At(self.at())
            };
            records.insert(self.random.between(place, place + 1), other);
        }
        records
    }

    /// No scalar or vector, and no string literal or range selector either.
    fn negatable_by_form(&mut self) -> Records {
        match self.random.below(4) {
            0 => vec![self.selector(), self.subquery_record()],
            1 => {
                let kind = *self.random.pick(NOT_NUMERIC);
                vec![self.call_without_arguments(kind)]
            }
            _ => {
                let mut records = self.one_of(NOT_NUMERIC);
                records.push(Record::Paren);
                records
            }
        }
    }

    fn named_twice(&mut self) -> Record<'static> {
        let Record::Selector { mut matchers, .. } = self.selector() else {
            unreachable!("a selector was asked for")
        };
        matchers.truncate(15);
        let (operation, value) = self.operation();
        let name = Text::from("__name__");
        let place = self.random.between(0, matchers.len());
        matchers.insert(
            place,
            Matcher {
                operation,
                name,
                value,
            },
        );
        Record::Selector {
            name: self.metric_name(),
            matchers,
        }
    }

    fn accepts_all(&mut self) -> Record<'static> {
        let Record::Selector { mut matchers, .. } = self.selector() else {
            unreachable!("a selector was asked for")
        };
        matchers.retain(Matcher::accepts_empty);
        Record::Selector {
            name: Text::from(""),
            matchers,
        }
    }
}
