//! In which way the two numbers after form 5 or 6 are no fraction (document 02, No. 5). All of it is 1.

use crate::page::read::Reader;
use crate::page::{MAX_DIGITS, MAX_PLACES};

/// Which of the two numbers.
#[derive(Debug, Clone, Copy, PartialEq, Eq)]
pub enum Field {
    Digits,
    Places,
}

#[derive(Debug, Clone, Copy, PartialEq, Eq)]
pub enum Wrong {
    Missing,
    CutShort,
    NotShortest,
    AboveNumbers,
    Zero,
    EndsInZero,
    OneBeyond,
    TwoBeyond,
    FarBeyond,
}

/// The first number that is wrong, and what is.
#[derive(Debug, Clone, Copy, PartialEq, Eq)]
pub struct BadFraction {
    pub field: Field,
    pub wrong: Wrong,
}

impl Field {
    const BOTH: [Field; 2] = [Field::Digits, Field::Places];

    /// The highest number that is allowed.
    fn highest(self) -> u64 {
        match self {
            Field::Digits => MAX_DIGITS,
            Field::Places => MAX_PLACES,
        }
    }

    fn wrong(self, value: u64) -> Option<Wrong> {
        let beyond = value.saturating_sub(self.highest());
        match beyond {
            0 if value == 0 => Some(Wrong::Zero),
            0 if self == Field::Digits && value.is_multiple_of(10) => Some(Wrong::EndsInZero),
            0 => None,
            1 => Some(Wrong::OneBeyond),
            2 => Some(Wrong::TwoBeyond),
            _ => Some(Wrong::FarBeyond),
        }
    }
}

impl Wrong {
    const ALL: [Wrong; 9] = [
        Wrong::Missing,
        Wrong::CutShort,
        Wrong::NotShortest,
        Wrong::AboveNumbers,
        Wrong::Zero,
        Wrong::EndsInZero,
        Wrong::OneBeyond,
        Wrong::TwoBeyond,
        Wrong::FarBeyond,
    ];

    /// Of bytes that begin with no number of the page.
    fn of_no_number(bytes: &[u8]) -> Self {
        let longest = &bytes[..bytes.len().min(8)];
        match longest.iter().position(|byte| *byte < 0x80) {
            _ if bytes.is_empty() => Wrong::Missing,
            None if longest.len() < 8 => Wrong::CutShort,
            Some(last) if bytes[last] == 0 => Wrong::NotShortest,
            _ => Wrong::AboveNumbers,
        }
    }

    fn words(self) -> &'static str {
        match self {
            Wrong::Missing => "missing",
            Wrong::CutShort => "cut short",
            Wrong::NotShortest => "not in the shortest form",
            Wrong::AboveNumbers => "above 2^53",
            Wrong::Zero => "0",
            Wrong::EndsInZero => "ending in 0",
            Wrong::OneBeyond => "one too high",
            Wrong::TwoBeyond => "two too high",
            Wrong::FarBeyond => "far too high",
        }
    }
}

impl BadFraction {
    /// Places may end in 0.
    pub fn all() -> impl Iterator<Item = Self> {
        let of_field = |field| Wrong::ALL.map(|wrong| Self { field, wrong });
        let is_wrong = |bad: &Self| bad.field == Field::Digits || bad.wrong != Wrong::EndsInZero;
        Field::BOTH.into_iter().flat_map(of_field).filter(is_wrong)
    }

    pub fn words(self) -> String {
        let field = match self.field {
            Field::Digits => "digits",
            Field::Places => "places",
        };
        format!("{field} {}", self.wrong.words())
    }

    /// Whether the page must end there.
    pub fn is_last(self) -> bool {
        matches!(self.wrong, Wrong::Missing | Wrong::CutShort)
    }

    /// What is wrong with what stands after the form; nothing if it is a fraction.
    pub fn find(bytes: &[u8]) -> Option<Self> {
        let mut reader = Reader::new(bytes);
        Field::BOTH.into_iter().find_map(|field| {
            let start = reader.position();
            let wrong = match reader.number() {
                Ok(value) => field.wrong(value)?,
                Err(_) => Wrong::of_no_number(&bytes[start..]),
            };
            Some(Self { field, wrong })
        })
    }
}
