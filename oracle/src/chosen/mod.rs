//! Chosen pages with the answers that document 01 gives them: the refusal table, the bench examples, the readings
//! taken; and the pages of document 02.

mod bench;
mod characters;
mod flags;
mod fractions;
mod functions;
mod generations;
mod long;
mod one_copy;
mod operators;
mod patterns;
mod printed;
mod readings;
mod refusals;
mod splitting;

use crate::answer::{self, Answer, Outcome, Part};
use crate::generations::Generations;
use crate::hex;
use crate::page::record::Kind;

#[derive(Debug, Clone, Copy)]
pub enum Expected {
    Refused(u8, usize),
    /// Refused with 19; the label is this part of the page.
    Joint {
        record: usize,
        start: usize,
        length: usize,
    },
    /// Canonical text asked with this many bytes lent is refused with 5 at this index.
    TooShort {
        lent: usize,
        record: usize,
    },
    /// The kind and the canonical text.
    Is(Kind, &'static str),
    /// The canonical text.
    Prints(&'static str),
    /// The split text.
    Splits(&'static str),
    /// The copy, in hexadecimal.
    Copies(&'static str),
    /// The sizes of copy, canonical and split text.
    Sizes(usize, usize, usize),
    /// What the program writes.
    Writes(&'static str),
    /// Document 01's check, and the check with the function table too.
    Checks {
        check: Outcome,
        table: Outcome,
    },
    /// Document 01's check, and the check that follows the operators document.
    ChecksOperators {
        check: Outcome,
        operators: Outcome,
    },
    /// The checks with the tables of the two generations, and which of them accept.
    ChecksGenerations {
        older: Outcome,
        newer: Outcome,
        generations: Generations,
    },
}

#[derive(Debug, Clone, Copy)]
pub struct Row {
    pub words: &'static str,
    pub page: &'static str,
    pub expected: Expected,
}

const fn row(words: &'static str, page: &'static str, expected: Expected) -> Row {
    Row {
        words,
        page,
        expected,
    }
}

const fn kind(kind: Kind) -> Outcome {
    Outcome::Accepted(kind)
}

const fn refused(number: u8, record: usize) -> Outcome {
    Outcome::Refused { number, record }
}

/// All rows, the refusal table first, those of document 02, No. 13, last.
pub fn rows() -> impl Iterator<Item = &'static Row> {
    before_generations().chain(generations::ROWS)
}

/// All rows but those of document 02, No. 13.
pub fn before_generations() -> impl Iterator<Item = &'static Row> {
    [
        refusals::ROWS,
        bench::ROWS,
        readings::ROWS,
        printed::ROWS,
        splitting::ROWS,
        long::ROWS,
        characters::ROWS,
        fractions::ROWS,
        flags::ROWS,
        patterns::ROWS,
        one_copy::ROWS,
        functions::ROWS,
        operators::ROWS,
    ]
    .into_iter()
    .flatten()
}

/// The rows of document 02, No. 2.
pub fn of_functions() -> &'static [Row] {
    functions::ROWS
}

/// The rows of document 02, No. 8.
pub fn of_operators() -> &'static [Row] {
    operators::ROWS
}

/// The rows of document 02, No. 13.
pub fn of_generations() -> &'static [Row] {
    generations::ROWS
}

/// Rows outside document 01's domain: the page's flag decides what the pattern says about empty text.
pub fn outside() -> impl Iterator<Item = &'static Row> {
    [
        characters::OUTSIDE,
        flags::OUTSIDE,
        patterns::OUTSIDE,
        one_copy::OUTSIDE,
    ]
    .into_iter()
    .flatten()
}

/// The rows of the refusal table: No. 1 to 34, 37, 38, 41 and 42.
pub fn refusal_table() -> &'static [Row] {
    refusals::ROWS
}

impl Row {
    pub fn bytes(&self) -> Vec<u8> {
        hex::bytes(self.page)
    }

    /// Nothing, or in what way the oracle's answer is another.
    pub fn difference(&self) -> Option<String> {
        match answer::answer(&self.bytes()) {
            Err(failure) => Some(format!("{}: {failure:?}", self.words)),
            Ok(answer) if self.is_met(&answer) => None,
            Ok(answer) => Some(format!("{}: {}", self.words, brief(&answer))),
        }
    }

    fn is_met(&self, answer: &Answer) -> bool {
        match self.expected {
            Expected::Refused(number, record) => {
                answer.outcome == Outcome::Refused { number, record }
            }
            Expected::Joint {
                record,
                start,
                length,
            } => {
                let outcome = Outcome::Refused { number: 19, record };
                answer.outcome == outcome && answer.label == Some(Part { start, length })
            }
            Expected::TooShort { lent, record } => {
                let outcome = Outcome::Refused { number: 5, record };
                answer.outcome_lent(&answer.canonical, lent) == outcome
            }
            Expected::Is(kind, text) => {
                answer.outcome == Outcome::Accepted(kind) && answer.canonical == text.as_bytes()
            }
            Expected::Prints(text) => is_accepted(answer) && answer.canonical == text.as_bytes(),
            Expected::Splits(text) => is_accepted(answer) && answer.split == spelled(text),
            Expected::Copies(page) => is_accepted(answer) && answer.copy == hex::bytes(page),
            Expected::Sizes(copy, canonical, split) => sizes(answer) == [copy, canonical, split],
            Expected::Writes(text) => answer::program_output(answer) == spelled(text),
            Expected::Checks { check, table } => (answer.outcome, answer.table) == (check, table),
            Expected::ChecksOperators { check, operators } => {
                (answer.outcome, answer.operators) == (check, operators)
            }
            Expected::ChecksGenerations {
                older,
                newer,
                generations,
            } => {
                let found = (answer.older, answer.newer, answer.generations());
                found == (older, newer, generations)
            }
        }
    }
}

fn is_accepted(answer: &Answer) -> bool {
    matches!(answer.outcome, Outcome::Accepted(_))
}

/// The sizes of copy, canonical and split text.
fn sizes(answer: &Answer) -> [usize; 3] {
    [&answer.copy, &answer.canonical, &answer.split].map(Vec::len)
}

fn brief(answer: &Answer) -> String {
    format!(
        "{:?} {:?} {:?} {:?} {:?} {:?} sizes {:?}\n{}\n{}",
        answer.outcome,
        answer.table,
        answer.operators,
        answer.older,
        answer.newer,
        answer.label,
        sizes(answer),
        String::from_utf8_lossy(&answer.canonical),
        String::from_utf8_lossy(&answer.split),
    )
}

/// A text in which `{a*60}` stands for sixty letters a.
pub fn spelled(text: &str) -> Vec<u8> {
    let mut pieces = text.split('{');
    let mut spelled = pieces.next().unwrap_or_default().to_string();
    for piece in pieces {
        let (run, after) = piece.split_once('}').expect("a run is closed");
        let (letter, times) = run.split_once('*').expect("a run has a letter and a count");
        spelled += &letter.repeat(times.parse().expect("a decimal count"));
        spelled += after;
    }
    spelled.into_bytes()
}
