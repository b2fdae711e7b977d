//! A page for each kind of text: good operands, and a record that has one such text.

use crate::answer::Outcome;
use crate::page::record::Kind;
use crate::page::text_kind::TextKind;
use crate::page::write;
use crate::{hex, tree};

/// The page around a text of some kind; a pattern has the flag 0.
pub struct Page {
    before: Vec<u8>,
    after: Vec<u8>,
    /// The record that has the text.
    record: usize,
    kind: Kind,
}

/// What stands before the text and after it, and which record has it.
fn around(kind: TextKind) -> (&'static str, &'static str, usize) {
    match kind {
        TextKind::String => ("01", "", 0),
        TextKind::On => ("(0202757000)*2; 09010100 0101", "00 0000", 2),
        TextKind::Ignoring => ("(0202757000)*2; 09010100 0201", "00 0000", 2),
        TextKind::GroupLeft => ("(0202757000)*2; 09010100 00 0101", "0000", 2),
        TextKind::GroupRight => ("(0202757000)*2; 09010100 00 0201", "0000", 2),
        TextKind::By => ("0202757000 0a1b0101", "01", 1),
        TextKind::Without => ("0202757000 0a1b0201", "01", 1),
        TextKind::MatcherName => ("0202757001 00", "0178", 0),
        TextKind::MatcherValue => ("0202757001 00 0161", "", 0),
        TextKind::Regex => ("0202757001 02 0161", "00", 0),
        TextKind::NotRegex => ("0202757001 03 0161", "00", 0),
        TextKind::MetricName => ("02", "00", 0),
        TextKind::FunctionName => ("0b", "00000000", 0),
    }
}

impl Page {
    pub fn of(kind: TextKind) -> Self {
        let (before, after, record) = around(kind);
        Self {
            before: hex::bytes(before),
            after: hex::bytes(after),
            record,
            kind: match kind {
                TextKind::String => Kind::String,
                _ => Kind::Vector,
            },
        }
    }

    /// The page with this text, and with these bytes between the text and the next field.
    pub fn with(&self, text: &[u8], next: &[u8]) -> Vec<u8> {
        let mut page = self.before.clone();
        write::number(&mut page, text.len() as u64);
        page.extend([text, next, &self.after].concat());
        page
    }

    pub fn accepted(&self) -> Outcome {
        Outcome::Accepted(self.kind)
    }

    pub fn refused(&self, number: u8) -> Outcome {
        Outcome::Refused {
            number,
            record: self.record,
        }
    }
}

/// The page with this text; a pattern has the flag that the Rust's regex gives it.
pub fn page(kind: TextKind, text: &str) -> Vec<u8> {
    let mut page = Page::of(kind).with(text.as_bytes(), &[]);
    if kind.is_pattern() && tree::matches_empty(text) == Some(true) {
        *page.last_mut().expect("the flag is the last byte") = 1;
    }
    page
}
