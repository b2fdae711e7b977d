//! What documents 01 and 02 answer to a page: outcome, outcome with the function table too, outcome as the operators
//! document asks, outcomes with the tables of the two generations, label part of 19, copy, canonical text, split text.

mod walk;

use crate::functions;
use crate::generations::{Generation, Generations};
use crate::operators;
use crate::page::read::{NumberField, TextField};
use crate::page::record::{Kind, Record};
use crate::page::write;
use crate::tree::{self, Pattern, Stop};
use promql_parser::parser::Expr;
use walk::{Rules, Walk};

/// A kind, or a refusal number and the index of its record.
#[derive(Debug, Clone, Copy, PartialEq, Eq)]
pub enum Outcome {
    Accepted(Kind),
    Refused { number: u8, record: usize },
}

impl Outcome {
    /// The library's word for an answer that wrote `written` bytes.
    pub fn word(self, written: usize) -> u64 {
        match self {
            Outcome::Accepted(kind) => written as u64 * 4 + kind.number(),
            Outcome::Refused { number, record } => {
                (1 << 63) + u64::from(number) * 65_536 + record as u64
            }
        }
    }
}

/// The label of 19 as a part of the page.
#[derive(Debug, Clone, Copy, PartialEq, Eq)]
pub struct Part {
    pub start: usize,
    pub length: usize,
}

impl Part {
    /// The library's word for the part.
    pub fn word(self) -> u64 {
        self.start as u64 * 256 + self.length as u64
    }
}

/// Whether document 01 lets the page be compared with the Rust; if not, flags alone decide about patterns. A wrong flag
/// of a covered pattern is inside: the page is refused by No. 7 of document 02, whatever the Rust would say.
#[derive(Debug, Clone, Copy, PartialEq, Eq)]
pub enum Domain {
    Inside,
    FlagUntrue,
    PatternNotTaken,
}

/// A page worked through the Rust, record by record.
#[derive(Debug)]
pub struct Worked<'a> {
    pub page: &'a [u8],
    pub outcome: Outcome,
    /// The outcome of the check with the function table too (document 02, No. 2).
    pub table: Outcome,
    /// The outcome of the check that follows the operators document (document 02, No. 8).
    pub operators: Outcome,
    /// The outcomes of the checks with the older and the newer generation's table (document 02, No. 13).
    pub older: Outcome,
    pub newer: Outcome,
    pub label: Option<Part>,
    pub domain: Domain,
    /// The Rust's own words, where it refused.
    pub message: Option<String>,
    /// The records read, the refused one included if it was readable.
    pub records: Vec<Record<'a>>,
    /// The kind that each record left which document 01 accepts, by the Rust.
    pub kinds: Vec<Kind>,
    /// The last text whose length was read: where a text is the reason of 1, 3 or 4, this one.
    pub text: Option<TextField>,
    /// The last number of kind 0 or of a fill that was begun: where such a number is the reason of 1, this one.
    pub literal: Option<NumberField>,
    /// The checked tree and the records of its copy, for an accepted page.
    pub checked: Option<(Expr, Vec<Record<'a>>)>,
}

#[derive(Debug, Clone, PartialEq)]
pub struct Answer {
    pub outcome: Outcome,
    pub table: Outcome,
    pub operators: Outcome,
    pub older: Outcome,
    pub newer: Outcome,
    pub label: Option<Part>,
    pub domain: Domain,
    /// The number of records, which is the index of 5.
    pub records: usize,
    pub copy: Vec<u8>,
    pub canonical: Vec<u8>,
    pub split: Vec<u8>,
}

impl Answer {
    /// The outcome of a call that was lent `lent` bytes and has `wanted` to write; 5 is tested last.
    pub fn outcome_lent(&self, wanted: &[u8], lent: usize) -> Outcome {
        match self.outcome {
            Outcome::Accepted(_) if wanted.len() > lent => Outcome::Refused {
                number: 5,
                record: self.records,
            },
            outcome => outcome,
        }
    }

    /// Which generations accept the page.
    pub fn generations(&self) -> Generations {
        Generations::of(self.older, self.newer)
    }
}

/// The oracle's own failure: the Rust said something that no row of the refusal table foresees.
#[derive(Debug, Clone, PartialEq)]
pub struct Failure(pub String);

/// A whole walk: its outcome, and the Rust's own words where it refused.
fn walked<'a>(
    walk: &mut Walk<'a>,
    page: &'a [u8],
    rules: Rules,
) -> Result<(Outcome, Option<String>), Failure> {
    match walk.run(page, rules) {
        Ok(outcome) => Ok((outcome, None)),
        Err(Stop::Refused { number, message }) => {
            let record = walk.accepted;
            let message = (!message.is_empty()).then_some(message);
            Ok((Outcome::Refused { number, record }, message))
        }
        Err(Stop::Unforeseen(words)) => Err(Failure(words)),
    }
}

/// The check with the function table (document 02, No. 2): the table is asked once a call's fields are read and before
/// its operands are counted.
const WITH_TABLE: Rules = Rules {
    before: |record| functions::fault(functions::table(), record),
    ..Rules::NONE
};

/// The check that follows the operators document (document 02, No. 8): "right after 25", the last test of an aggregate.
const WITH_OPERATORS: Rules = Rules {
    after: operators::fault,
    ..Rules::NONE
};

/// The checks with the tables of the generations (document 02, No. 13): "each by No. 2's check with its own table".
const WITH_OLDER_TABLE: Rules = Rules {
    before: |record| functions::fault(Generation::Older.table(), record),
    ..Rules::NONE
};
const WITH_NEWER_TABLE: Rules = Rules {
    before: |record| functions::fault(Generation::Newer.table(), record),
    ..Rules::NONE
};

/// A check that document 02 adds, by a walk of its own.
fn added(page: &[u8], rules: Rules) -> Result<Outcome, Failure> {
    let (outcome, _) = walked(&mut Walk::default(), page, rules)?;
    Ok(outcome)
}

/// Document 01's check, and the checks that document 02 adds.
pub fn work(page: &[u8]) -> Result<Worked<'_>, Failure> {
    let mut walk = Walk::default();
    let (outcome, message) = walked(&mut walk, page, Rules::NONE)?;
    let checked = match outcome {
        Outcome::Accepted(_) => walk.stack.pop().map(|expr| (expr, walk.copied)),
        Outcome::Refused { .. } => None,
    };
    Ok(Worked {
        page,
        outcome,
        table: added(page, WITH_TABLE)?,
        operators: added(page, WITH_OPERATORS)?,
        older: added(page, WITH_OLDER_TABLE)?,
        newer: added(page, WITH_NEWER_TABLE)?,
        label: label(outcome, &walk.records),
        domain: domain(&walk.records),
        message,
        records: walk.records,
        kinds: walk.kinds,
        text: walk.text,
        literal: walk.literal,
        checked,
    })
}

/// The label of 19, which is refused at the last record that was read.
fn label(outcome: Outcome, records: &[Record]) -> Option<Part> {
    let Outcome::Refused { number: 19, .. } = outcome else {
        return None;
    };
    let label = tree::joint_labels(records.last()?).next()?;
    Some(Part {
        start: label.start,
        length: label.text.len(),
    })
}

fn domain(records: &[Record]) -> Domain {
    let matchers = records.iter().flat_map(|record| match record {
        Record::Selector { matchers, .. } => matchers.as_slice(),
        _ => &[],
    });
    let mut domain = Domain::Inside;
    for matcher in matchers {
        match tree::pattern(matcher) {
            Pattern::FlagTrue | Pattern::FlagWrong => {}
            Pattern::FlagUntrue => domain = Domain::FlagUntrue,
            Pattern::NotTaken => return Domain::PatternNotTaken,
        }
    }
    domain
}

pub fn answer(page: &[u8]) -> Result<Answer, Failure> {
    let worked = work(page)?;
    Ok(of_worked(&worked))
}

pub fn of_worked(worked: &Worked) -> Answer {
    let (copy, canonical, split) = match &worked.checked {
        Some((expr, copied)) => (
            write::page(copied),
            expr.to_string().into_bytes(),
            expr.prettify().into_bytes(),
        ),
        None => Default::default(),
    };
    Answer {
        outcome: worked.outcome,
        table: worked.table,
        operators: worked.operators,
        older: worked.older,
        newer: worked.newer,
        label: worked.label,
        domain: worked.domain,
        records: worked.records.len(),
        copy,
        canonical,
        split,
    }
}

/// What the program writes for a page: split text and a line feed, or the refusal; it lends 65,536 bytes.
pub fn program_output(answer: &Answer) -> Vec<u8> {
    match answer.outcome_lent(&answer.split, 65_536) {
        Outcome::Accepted(_) => [answer.split.as_slice(), b"\n"].concat(),
        Outcome::Refused { number, record } => {
            format!("refused {number} at {record}\n").into_bytes()
        }
    }
}
