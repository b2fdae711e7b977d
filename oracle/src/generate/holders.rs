//! Records that hold given bytes as a text of a given kind, among other texts.

use super::fault::{context, unread};
use super::{Generator, Made};
use crate::answer::Outcome;
use crate::page::read::Reader;
use crate::page::record::*;
use crate::page::text_kind::TextKind;
use crate::page::write;

impl Generator<'_> {
    /// Good expressions, then a record with this text, which is refused with 4; bytes after it that no reader gets to.
    pub fn refused_with(&mut self, kind: TextKind, text: &[u8], next: &[u8]) -> Made {
        let records = context(self, 2);
        let mut page = write::page(&records);
        page.extend(self.record_with(kind, text, next));
        page.extend(unread(self.random));
        let record = records.len();
        Made::new(page, Outcome::Refused { number: 4, record })
    }

    /// The bytes of a record in which this is a text of this kind, and `next` stands between it and the next field.
    fn record_with(&mut self, kind: TextKind, text: &[u8], next: &[u8]) -> Vec<u8> {
        let mut bytes = Vec::new();
        write::record(&mut bytes, &self.holder(kind));
        let record = Reader::new(&bytes).record().expect("a good record");
        let mut texts = record.texts();
        texts.retain(|(found, _)| *found == kind);
        let (_, replaced) = self.random.pick(&texts);
        let (begin, length) = (replaced.start, replaced.text.len());
        let mut size = Vec::new();
        write::number(&mut size, length as u64);
        let mut made = bytes[..begin - size.len()].to_vec();
        write::number(&mut made, text.len() as u64);
        made.extend([text, next, &bytes[begin + length..]].concat());
        made
    }

    /// A record with at least one text of this kind.
    fn holder(&mut self, kind: TextKind) -> Record<'static> {
        match kind {
            TextKind::String => Record::String(self.value()),
            TextKind::On | TextKind::Ignoring | TextKind::GroupLeft | TextKind::GroupRight => {
                self.binary_with(kind)
            }
            TextKind::By | TextKind::Without => self.aggregate_with(kind),
            TextKind::FunctionName => self.call_without_arguments(Kind::Vector),
            _ => self.selector_with(kind),
        }
    }

    fn some_labels(&mut self) -> Labels<'static> {
        let mut labels = self.labels();
        labels.truncate(15);
        labels.push(self.label());
        labels
    }

    fn binary_with(&mut self, kind: TextKind) -> Record<'static> {
        let (matching, group) = (self.some_labels(), self.some_labels());
        let modifier = Modifier {
            matching: match kind {
                TextKind::On => Matching::On(matching),
                _ => Matching::Ignoring(matching),
            },
            cardinality: match kind {
                TextKind::GroupLeft => Cardinality::GroupLeft(group),
                _ => Cardinality::GroupRight(group),
            },
            ..Modifier::EMPTY
        };
        Record::Binary {
            code: self.random.between(1, 30) as u8,
            modifier: Some(modifier),
        }
    }

    fn aggregate_with(&mut self, kind: TextKind) -> Record<'static> {
        let labels = self.some_labels();
        Record::Aggregate {
            code: self.random.between(1, 30) as u8,
            grouping: match kind {
                TextKind::By => Grouping::By(labels),
                _ => Grouping::Without(labels),
            },
            arguments: self.random.below(3),
        }
    }

    /// A selector with a matcher of the operation that the kind wants, at any place.
    fn selector_with(&mut self, kind: TextKind) -> Record<'static> {
        let Record::Selector { name, mut matchers } = self.selector() else {
            unreachable!("a selector was asked for")
        };
        matchers.truncate(15);
        let (operation, value) = loop {
            let (operation, value) = self.operation();
            let is_value = !matches!(kind, TextKind::MatcherName | TextKind::MetricName);
            if !is_value || TextKind::of_value(operation) == kind {
                break (operation, value);
            }
        };
        let matcher = Matcher {
            operation,
            name: self.matcher_name(),
            value,
        };
        matchers.insert(self.random.between(0, matchers.len()), matcher);
        Record::Selector { name, matchers }
    }
}
