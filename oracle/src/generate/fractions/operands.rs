//! A fraction as the operand of each record that takes one, as a scalar is: what passes, and what is refused.

use super::super::{Generator, Made};
use super::values::{fraction, signed};
use crate::answer::Outcome;
use crate::hex;
use crate::page::record::{Kind, Number, Record};
use crate::page::write;

/// Records before the number and after it, and their outcome.
type Around = (&'static str, &'static str, Outcome);

const fn refused(number: u8, record: usize) -> Outcome {
    Outcome::Refused { number, record }
}

const SCALAR: Outcome = Outcome::Accepted(Kind::Scalar);
const VECTOR: Outcome = Outcome::Accepted(Kind::Vector);

#[rustfmt::skip]
const AROUND: &[Around] = &[
    ("", "0301", refused(9, 1)),
    ("", "0501", refused(11, 1)),
    ("", "060001", refused(13, 1)),
    ("", "040100", refused(32, 1)),
    ("", "0a1b0001", refused(25, 1)),
    ("", "0a1b0000", refused(14, 1)),
    ("", "0b01660100000001", refused(30, 1)),
    ("", "0b016600010001", refused(29, 1)),
    ("", "000001 090800", refused(18, 2)),
    ("000001", "090800", refused(18, 2)),
    ("", "0202757000 090600", refused(20, 2)),
    ("0202757000", "090600", refused(20, 2)),
    ("", "010161 090100", refused(22, 2)),
    ("010161", "090100", refused(22, 2)),
    ("", "0202757000 0901010001010178000000", refused(23, 2)),
    ("0202757000", "0901010001010178000000", refused(23, 2)),
    ("0202757000", "0a1b0002", refused(15, 2)),
    ("010161", "0a140002", refused(25, 2)),
    ("", "0202757000 0a140002", refused(25, 2)),
    ("", "0202757000", refused(2, 2)),
    ("", "0202757000 0a120002", VECTOR),
    ("", "0202757000 0a180002", VECTOR),
    ("", "0202757000 0a1c0002", VECTOR),
    ("", "0202757000 0a1d0002", VECTOR),
    ("", "0202757000 0a1e0002", VECTOR),
    ("", "0b06766563746f720101000001", VECTOR),
    ("0202757000", "0b05726f756e6402000102010002", VECTOR),
    ("", "0202757000 0b12686973746f6772616d5f7175616e74696c65020100000002", VECTOR),
    ("", "0202757000 03e0a712 0b127175616e74696c655f6f7665725f74696d65020102000002", VECTOR),
    ("", "0202757000 090c00", VECTOR),
    ("0202757000", "090c00", VECTOR),
    ("0202757000", "090800", VECTOR),
    ("", "000001 090f00", SCALAR),
    ("000001", "090f00", SCALAR),
    ("", "000001 0908010100000000", SCALAR),
    ("000001", "0908010100000000", SCALAR),
];

fn page((before, after, expected): &Around, number: Number) -> Made {
    let mut page = hex::bytes(before);
    write::record(&mut page, &Record::Number(number));
    page.extend(hex::bytes(after));
    Made::new(page, *expected)
}

pub(super) fn fixed() -> impl Iterator<Item = Made> {
    let numbers = signed(fraction(95, 2)).into_iter();
    numbers.flat_map(|number| AROUND.iter().map(move |around| page(around, number)))
}

impl Generator<'_> {
    pub(super) fn fraction_operand(&mut self) -> Made {
        let around = self.random.pick(AROUND);
        page(around, self.signed_fraction())
    }
}
