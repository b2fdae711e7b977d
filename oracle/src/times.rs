//! @ and offset of one expression (document 02, No. 14): what is set, in which order the page has it, and on what.

use crate::page::record::{At, Record};

/// What a page has on one expression, in its order.
#[derive(Debug, Clone, Copy, PartialEq, Eq)]
pub enum Times {
    Offset,
    At,
    AtOffset,
    /// The copy has @ first.
    OffsetAt,
}

impl Times {
    pub const ALL: [Times; 4] = [Times::Offset, Times::At, Times::AtOffset, Times::OffsetAt];
    /// Both are set.
    pub const BOTH: [Times; 2] = [Times::AtOffset, Times::OffsetAt];

    pub fn words(self) -> &'static str {
        match self {
            Times::Offset => "offset alone",
            Times::At => "@ alone",
            Times::AtOffset => "@ then offset",
            Times::OffsetAt => "offset then @",
        }
    }

    /// What these records set, all of one expression; nothing if they are others.
    fn of(records: &[Record]) -> Option<Self> {
        match records {
            [Record::Offset { .. }] => Some(Times::Offset),
            [Record::At(_)] => Some(Times::At),
            [Record::At(_), Record::Offset { .. }] => Some(Times::AtOffset),
            [Record::Offset { .. }, Record::At(_)] => Some(Times::OffsetAt),
            _ => None,
        }
    }
}

fn is_time(record: &Record) -> bool {
    matches!(record, Record::At(_) | Record::Offset { .. })
}

/// The times of a page: for each expression that has some, where its records start and what they set. A run that no
/// accepted page has is left out.
pub fn found(records: &[Record]) -> Vec<(usize, Times)> {
    let mut found = Vec::new();
    let mut start = 0;
    while start < records.len() {
        let run = records[start..].iter().take_while(|record| is_time(record));
        let length = run.count();
        let times = Times::of(&records[start..start + length]);
        found.extend(times.map(|times| (start, times)));
        start += length.max(1);
    }
    found
}

/// What can have times.
#[derive(Debug, Clone, Copy, PartialEq, Eq)]
pub enum Timed {
    Selector,
    Range,
    Subquery,
}

impl Timed {
    pub const ALL: [Timed; 3] = [Timed::Selector, Timed::Range, Timed::Subquery];

    pub fn words(self) -> &'static str {
        match self {
            Timed::Selector => "selector",
            Timed::Range => "range",
            Timed::Subquery => "subquery",
        }
    }

    /// What the record before the times leaves.
    pub fn of(record: &Record) -> Option<Self> {
        match record {
            Record::Selector { .. } => Some(Timed::Selector),
            Record::Range(_) => Some(Timed::Range),
            Record::Subquery { .. } => Some(Timed::Subquery),
            _ => None,
        }
    }
}

/// The forms of @, 0 apart from the times after it.
#[derive(Debug, Clone, Copy, PartialEq, Eq)]
pub enum AtForm {
    Start,
    End,
    Zero,
    After,
    Before,
}

impl AtForm {
    pub const ALL: [AtForm; 5] = [
        AtForm::Start,
        AtForm::End,
        AtForm::Zero,
        AtForm::After,
        AtForm::Before,
    ];

    pub fn words(self) -> &'static str {
        match self {
            AtForm::Start => "@ start",
            AtForm::End => "@ end",
            AtForm::Zero => "@ 0",
            AtForm::After => "@ after 0",
            AtForm::Before => "@ before 0",
        }
    }

    pub fn of(at: At) -> Self {
        match at {
            At::Start => AtForm::Start,
            At::End => AtForm::End,
            At::After(0) => AtForm::Zero,
            At::After(_) => AtForm::After,
            At::Before(_) => AtForm::Before,
        }
    }

    /// An @ of this form, a time of so many milliseconds if it is one.
    pub fn with(self, milliseconds: u64) -> At {
        match self {
            AtForm::Start => At::Start,
            AtForm::End => At::End,
            AtForm::Zero => At::After(0),
            AtForm::After => At::After(milliseconds),
            AtForm::Before => At::Before(milliseconds),
        }
    }
}

/// The signs of an offset, those of 0 apart.
#[derive(Debug, Clone, Copy, PartialEq, Eq)]
pub struct OffsetForm {
    pub is_minus: bool,
    pub is_zero: bool,
}

impl OffsetForm {
    pub fn all() -> impl Iterator<Item = OffsetForm> {
        [false, true]
            .into_iter()
            .flat_map(|is_zero| [false, true].map(|is_minus| OffsetForm { is_minus, is_zero }))
    }

    pub fn words(self) -> &'static str {
        match (self.is_minus, self.is_zero) {
            (false, false) => "offset plus",
            (true, false) => "offset minus",
            (false, true) => "offset 0s",
            (true, true) => "offset -0s",
        }
    }

    pub fn of(is_minus: bool, milliseconds: u64) -> Self {
        let is_zero = milliseconds == 0;
        OffsetForm { is_minus, is_zero }
    }

    /// An offset of this sign, of so many milliseconds unless it is 0.
    pub fn with(self, milliseconds: u64) -> Record<'static> {
        Record::Offset {
            is_minus: self.is_minus,
            milliseconds: if self.is_zero { 0 } else { milliseconds },
        }
    }
}
