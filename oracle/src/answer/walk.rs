//! The records of a page one after the other: read, judged, and put on the stack.

use super::Outcome;
use crate::copy;
use crate::page::read::{NumberField, Reader, TextField};
use crate::page::record::{Kind, Record};
use crate::page::{MAX_PAGE_BYTES, MAX_RECORDS};
use crate::refusal::WRONG_FLAG;
use crate::tree::{self, Stop};
use promql_parser::parser::Expr;

/// What a check asks beside document 01: of a record that could be read, before its operands are counted; and of one
/// that document 01 accepts, with the kinds of its operands, the deepest first.
#[derive(Clone, Copy)]
pub struct Rules {
    pub before: fn(&Record) -> Option<u8>,
    pub after: fn(&Record, &[Kind]) -> Option<u8>,
}

impl Rules {
    /// Document 01's check asks nothing more.
    pub const NONE: Self = Self {
        before: |_| None,
        after: |_, _| None,
    };
}

#[derive(Default)]
pub struct Walk<'a> {
    pub stack: Vec<Expr>,
    pub records: Vec<Record<'a>>,
    /// The kind that each accepted record left, by the Rust.
    pub kinds: Vec<Kind>,
    pub copied: Vec<Record<'a>>,
    pub accepted: usize,
    pub text: Option<TextField>,
    pub literal: Option<NumberField>,
}

/// A refusal by document 01 or 02, about which the Rust has nothing to say.
fn refused(number: u8) -> Stop {
    Stop::Refused {
        number,
        message: String::new(),
    }
}

/// What a rule says of a record.
fn passed(fault: Option<u8>) -> Result<(), Stop> {
    fault.map_or(Ok(()), |number| Err(refused(number)))
}

impl<'a> Walk<'a> {
    pub fn run(&mut self, page: &'a [u8], rules: Rules) -> Result<Outcome, Stop> {
        if page.len() > MAX_PAGE_BYTES {
            return Err(refused(3));
        }
        let mut reader = Reader::new(page);
        while !reader.is_at_end() {
            if self.accepted == MAX_RECORDS {
                return Err(refused(3));
            }
            let read = reader.record();
            self.text = reader.text;
            self.literal = reader.literal;
            let record = read.map_err(refused)?;
            let fault = (rules.before)(&record);
            self.records.push(record);
            passed(fault)?;
            self.apply_last(rules.after)?;
            self.accepted += 1;
        }
        match self.stack.as_slice() {
            [expr] => Ok(Outcome::Accepted(tree::kind(expr))),
            _ => Err(refused(2)),
        }
    }

    fn apply_last(&mut self, after: fn(&Record, &[Kind]) -> Option<u8>) -> Result<(), Stop> {
        let record = self.records.last().expect("a record was just read");
        let kept = self
            .stack
            .len()
            .checked_sub(record.operands())
            .ok_or(refused(2))?;
        if tree::has_wrong_flag(record) {
            return Err(refused(WRONG_FLAG));
        }
        let operands = self.stack.split_off(kept);
        let kinds: Vec<Kind> = operands.iter().map(tree::kind).collect();
        let result = tree::apply(record, operands)?;
        passed(after(record, &kinds))?;
        self.kinds.push(tree::kind(&result));
        copy::take_over(&mut self.copied, record, &result);
        self.stack.push(result);
        Ok(())
    }
}
