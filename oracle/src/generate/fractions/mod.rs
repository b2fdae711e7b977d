//! Fractions (document 02, No. 5): their values (`values`), negated (`negated`), under other records (`operands`) and
//! the literal exception (`calls`), as fills (`fills`), in texts of 100 and 101 bytes (`widths`); and what is none
//! (`faulty`).

pub mod calls;
mod faulty;
pub mod fills;
mod negated;
mod operands;
pub mod values;
mod widths;

use super::{Generator, Made, Scope};
use crate::random::Random;

pub fn fixed() -> impl Iterator<Item = Made> {
    values::fixed()
        .chain(negated::fixed())
        .chain(operands::fixed())
        .chain(calls::fixed())
        .chain(fills::fixed())
        .chain(widths::fixed())
        .chain(faulty::fixed())
}

/// A page of any of these sorts.
pub fn random(random: &mut Random) -> Made {
    let mut generator = Generator::new(random, 8, Scope::Fractions);
    match generator.random.below(10) {
        0 => generator.negated_fraction(),
        1 => generator.fraction_operand(),
        2 | 3 => generator.call_of_fraction(),
        4 | 5 => generator.filled_with_fraction(),
        6 => generator.wide_with_fraction(),
        _ => generator.bad_fraction(),
    }
}
