//! Unary records on fractions, with a paren between them and without.

use super::super::{Generator, Made, Records};
use super::values::{fraction, signed};
use crate::answer::Outcome;
use crate::page::record::{Kind, Number, Record};
use crate::page::{write, MAX_DIGITS};

/// What stands on the number.
const ON: &[&[Record]] = &[
    &[Record::Unary],
    &[Record::Unary, Record::Unary],
    &[Record::Unary, Record::Unary, Record::Unary],
    &[Record::Paren],
    &[Record::Paren, Record::Unary],
    &[Record::Unary, Record::Paren],
    &[Record::Unary, Record::Paren, Record::Unary],
    &[Record::Paren, Record::Unary, Record::Unary],
    &[Record::Unary, Record::Unary, Record::Paren, Record::Unary],
];

fn page(number: Number, on: &[Record<'static>]) -> Made {
    let mut records: Records = vec![Record::Number(number)];
    records.extend_from_slice(on);
    Made::new(write::page(&records), Outcome::Accepted(Kind::Scalar))
}

pub(super) fn fixed() -> impl Iterator<Item = Made> {
    let fractions = [(95, 2), (1, 15), (MAX_DIGITS, 1)];
    let numbers = fractions
        .into_iter()
        .flat_map(|(digits, places)| signed(fraction(digits, places)));
    numbers.flat_map(|number| ON.iter().map(move |on| page(number, on)))
}

impl Generator<'_> {
    /// Up to 20 unary and paren records on a fraction.
    pub(super) fn negated_fraction(&mut self) -> Made {
        let number = self.signed_fraction();
        let count = match self.random.below(4) {
            0 => self.random.between(0, 20),
            _ => self.random.between(0, 4),
        };
        let on: Records = (0..count)
            .map(|_| match self.random.below(4) {
                0 => Record::Paren,
                _ => Record::Unary,
            })
            .collect();
        page(number, &on)
    }
}
