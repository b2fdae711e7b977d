//! Single fields: numbers, choices, counts, texts. At one field 1 comes first, then 3, then 4; a text is one field.

use super::super::record::{Holder, Text};
use super::super::text_kind::TextKind;
use super::super::{MAX_LIST, MAX_NUMBER};
use std::borrow::Cow;
use std::ops::Range;

/// The refusal number of a field: 1 (cut short, bad number or code), 3 (limit passed) or 4 (text ill-formed, or no
/// name).
pub type Fault = u8;

pub type Read<T> = Result<T, Fault>;

pub const BAD: Fault = 1;
pub const LIMIT: Fault = 3;
const TEXT: Fault = 4;

/// A text as its field says: where it starts, and how many bytes it should have.
#[derive(Debug, Clone, Copy, PartialEq, Eq)]
pub struct TextField {
    pub kind: TextKind,
    pub start: usize,
    pub length: u64,
}

impl TextField {
    /// The bytes of it that the page has.
    pub fn bytes<'a>(&self, page: &'a [u8]) -> &'a [u8] {
        let rest = &page[self.start..];
        &rest[..rest.len().min(self.length as usize)]
    }
}

/// A number of kind 0 or of a fill: what has it, and where its form stands.
#[derive(Debug, Clone, Copy, PartialEq, Eq)]
pub struct NumberField {
    pub holder: Holder,
    pub start: usize,
}

pub struct Reader<'a> {
    page: &'a [u8],
    at: usize,
    /// The last text whose length was read, allowed or not.
    pub text: Option<TextField>,
    /// The last number of kind 0 or of a fill that was begun, readable or not.
    pub literal: Option<NumberField>,
}

impl<'a> Reader<'a> {
    pub fn new(page: &'a [u8]) -> Self {
        Self {
            page,
            at: 0,
            text: None,
            literal: None,
        }
    }

    /// Where the next field begins.
    pub fn position(&self) -> usize {
        self.at
    }

    pub fn is_at_end(&self) -> bool {
        self.at == self.page.len()
    }

    /// Groups of seven bits, lowest first; shortest form only, at most 2^53.
    pub fn number(&mut self) -> Read<u64> {
        let mut value = 0u64;
        for group in 0..8 {
            let byte = *self.page.get(self.at).ok_or(BAD)?;
            self.at += 1;
            value |= u64::from(byte & 0x7f) << (7 * group);
            if byte < 0x80 {
                let is_shortest = byte != 0 || group == 0;
                return (is_shortest && value <= MAX_NUMBER)
                    .then_some(value)
                    .ok_or(BAD);
            }
        }
        Err(BAD)
    }

    /// A number that names one of `choices` things, from 0.
    pub fn choice(&mut self, choices: u64) -> Read<u64> {
        self.number()
            .and_then(|value| (value < choices).then_some(value).ok_or(BAD))
    }

    pub fn flag(&mut self) -> Read<bool> {
        Ok(self.choice(2)? == 1)
    }

    pub fn count(&mut self) -> Read<usize> {
        let count = self.number()?;
        if count > MAX_LIST {
            return Err(LIMIT);
        }
        Ok(count as usize)
    }

    /// Where the bytes of a text lie: all there, and no more than its kind may have. A text is its own bytes alone.
    fn text_bytes(&mut self, kind: TextKind) -> Read<Range<usize>> {
        let length = self.number()?;
        let start = self.at;
        self.text = Some(TextField {
            kind,
            start,
            length,
        });
        if length > (self.page.len() - start) as u64 {
            return Err(BAD);
        }
        if length > kind.limit() {
            return Err(LIMIT);
        }
        self.at += length as usize;
        Ok(start..self.at)
    }

    /// A text of well-formed UTF-8; the Rust's own `str` can hold no other.
    pub fn text(&mut self, kind: TextKind) -> Read<Text<'a>> {
        let bytes = self.text_bytes(kind)?;
        let start = bytes.start;
        let text = std::str::from_utf8(&self.page[bytes]).map_err(|_| TEXT)?;
        Ok(Text {
            start,
            text: Cow::Borrowed(text),
        })
    }

    /// A name: a text of ASCII that passes `is_allowed`.
    pub fn name(&mut self, kind: TextKind, is_allowed: fn(&str) -> bool) -> Read<Text<'a>> {
        let name = self.text(kind)?;
        if !name.text.is_ascii() || !is_allowed(&name.text) {
            return Err(TEXT);
        }
        Ok(name)
    }

    pub fn list<T>(&mut self, element: impl Fn(&mut Self) -> Read<T>) -> Read<Vec<T>> {
        let count = self.count()?;
        (0..count).map(|_| element(self)).collect()
    }
}
