//! Fractions in texts of 100 bytes, which stay on a line, and of 101, which split: a fraction's own bytes count.

use super::super::{Generator, Made};
use super::values::fraction;
use crate::answer::Outcome;
use crate::page::record::*;
use crate::page::write;

/// What has the fraction, beside a selector with a long name.
#[derive(Clone, Copy)]
enum Around {
    Sum,
    Fill,
    Parameter,
}

const AROUND: [Around; 3] = [Around::Sum, Around::Fill, Around::Parameter];

/// The texts of fractions have so many bytes at least and at most.
const TEXTS: std::ops::RangeInclusive<usize> = 3..=18;

/// A fraction whose text has so many bytes: zeros and a 5, of even length with a minus.
fn of_length(bytes: usize) -> Number {
    match bytes % 2 {
        0 => Number::NegativeFraction(fraction(5, bytes as u64 - 3)),
        _ => Number::Fraction(fraction(5, bytes as u64 - 2)),
    }
}

fn selector(name: &str) -> Record<'static> {
    Record::Selector {
        name: Text::from(name),
        matchers: Vec::new(),
    }
}

impl Around {
    /// The records, the long name being this one.
    fn records(self, number: Number, name: &str) -> Vec<Record<'static>> {
        let fill = Modifier {
            left_fill: Some(number),
            ..Modifier::EMPTY
        };
        let add = |modifier| Record::Binary { code: 1, modifier };
        let quantile = Record::Aggregate {
            code: 24,
            grouping: Grouping::None,
            arguments: 2,
        };
        match self {
            Around::Sum => vec![selector(name), Record::Number(number), add(None)],
            Around::Fill => vec![selector("a"), selector(name), add(Some(fill))],
            Around::Parameter => vec![Record::Number(number), selector(name), quantile],
        }
    }

    /// What the text has beside the fraction and the name.
    fn fixed_bytes(self) -> usize {
        let text = match self {
            Around::Sum => " + ",
            Around::Fill => "a + fill_left () ",
            Around::Parameter => "quantile(, )",
        };
        text.len()
    }

    /// A page whose text has so many bytes, the fraction's having so many of them.
    fn page(self, bytes: usize, number: Number, length: usize) -> Made {
        let name = "m".repeat(bytes - self.fixed_bytes() - length);
        let page = write::page(&self.records(number, &name));
        Made::new(page, Outcome::Accepted(Kind::Vector))
    }
}

pub(super) fn fixed() -> impl Iterator<Item = Made> {
    TEXTS.flat_map(|length| {
        let number = of_length(length);
        AROUND
            .into_iter()
            .flat_map(move |around| [100, 101].map(|bytes| around.page(bytes, number, length)))
    })
}

impl Generator<'_> {
    /// A text of 95 to 105 bytes.
    pub(super) fn wide_with_fraction(&mut self) -> Made {
        let number = self.signed_fraction();
        let length = number.value().to_string().len();
        let around = *self.random.pick(&AROUND);
        let bytes = match self.random.chance(60) {
            true => self.random.between(100, 101),
            false => self.random.between(95, 105),
        };
        around.page(bytes, number, length)
    }
}
