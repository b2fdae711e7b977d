//! @ and offset (document 02, No. 14): in either order and alone, of every form and length, on a selector, a range and
//! a subquery (`forms`); under, beside and behind other records (`around`); on long pages and in long copies (`long`);
//! in queries of any shape (`queries`), and what no accepted page has (`refused`).

mod around;
mod forms;
pub mod long;
mod queries;
mod refused;

use super::{Generator, Made, Records, Scope};
use crate::page::record::{At, Record};
use crate::random::Random;
use crate::times::Times;

pub fn fixed() -> impl Iterator<Item = Made> {
    forms::fixed()
        .chain(around::fixed())
        .chain(long::fixed())
        .chain(refused::fixed())
}

/// A page of any of these sorts.
pub fn random(random: &mut Random) -> Made {
    let mut generator = Generator::new(random, 8, Scope::Patterns);
    match generator.random.below(10) {
        0..=3 => generator.timed_query(),
        4 | 5 => generator.timed_form(),
        6 => generator.timed_around(),
        7 => generator.long_copy(),
        _ => generator.refused_time(),
    }
}

/// The records that set this.
fn records(times: Times, at: At, offset: Record<'static>) -> Records {
    let at = Record::At(at);
    match times {
        Times::Offset => vec![offset],
        Times::At => vec![at],
        Times::AtOffset => vec![at, offset],
        Times::OffsetAt => vec![offset, at],
    }
}
