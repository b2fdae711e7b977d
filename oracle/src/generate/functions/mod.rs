//! Calls of the function table (document 02, No. 2): as the table has them (`right`), with signatures unlike it
//! (`unlike`), with names that it lacks (`unknown`), with everything that is near them (`near`), with and beside other
//! faults (`order`, `faults`), and in queries of any shape (`queries`).

mod faults;
mod near;
mod order;
mod queries;
mod right;
mod unknown;
mod unlike;

pub use near::near_pages;
pub use right::{arguments, counts};

use super::{Generator, Made, Records, Scope};
use crate::hex;
use crate::page::record::{Kind, Number, Record, Signature};
use crate::random::Random;

/// Pages made for outcomes of the check with the function table.
pub fn fixed() -> impl Iterator<Item = Made> {
    right::fixed()
        .chain(unlike::fixed())
        .chain(unknown::fixed())
        .chain(order::fixed())
}

/// A page of any of these sorts.
pub fn random(random: &mut Random) -> Made {
    let mut generator = Generator::new(random, 8, Scope::Patterns);
    match generator.random.below(10) {
        0..=2 => generator.table_page(),
        3 | 4 => generator.unlike_page(),
        5 | 6 => generator.unknown_page(),
        7 => generator.argument_fault(),
        _ => generator.beside_fault(),
    }
}

/// 255 nested calls of `abs` on `up`: a lookup for each record but the first.
pub fn nested_abs() -> Vec<u8> {
    hex::bytes("0202757000 (0b036162730100000001)*255;")
}

/// A short expression of each kind: `up`, 1, `up[1ms]`, `"a"`.
pub(super) fn shortest(kind: Kind) -> Records {
    let up = Record::Selector {
        name: "up".into(),
        matchers: Vec::new(),
    };
    match kind {
        Kind::Vector => vec![up],
        Kind::Scalar => vec![Record::Number(Number::Whole(1))],
        Kind::Matrix => vec![up, Record::Range(1)],
        Kind::String => vec![Record::String("a".into())],
    }
}

/// The kind that a signature declares for the argument at this place, the last one for all further ones.
pub(super) fn declared(signature: &Signature, place: usize) -> Option<Kind> {
    let kinds = &signature.kinds;
    kinds.get(place).or(kinds.last()).copied()
}

pub(super) fn call(signature: Signature<'static>, arguments: usize) -> Record<'static> {
    Record::Call {
        signature,
        arguments,
    }
}
