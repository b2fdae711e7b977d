//! Patterns and their flags (document 02, No. 7): covered patterns (`spelling`) and near misses (`near_misses`), such
//! as fill 255 bytes (`full`), right and wrong flags at every place of a selector (`flags`), and what comes before 41
//! and after it (`order`).

mod flags;
pub mod full;
pub mod near_misses;
mod order;
mod selectors;
pub mod spelling;

use super::{Generator, Made, Scope};
use crate::random::Random;

pub fn fixed() -> impl Iterator<Item = Made> {
    flags::fixed()
        .chain(near_misses::fixed())
        .chain(full::fixed())
        .chain(order::fixed())
}

/// A page of any of these sorts.
pub fn random(random: &mut Random) -> Made {
    let mut generator = Generator::new(random, 8, Scope::Patterns);
    match generator.random.below(10) {
        0..=4 => generator.flagged_selector(),
        5 | 6 => generator.near_miss_page(),
        7 => generator.full_page(),
        _ => generator.flag_beside_fault(),
    }
}
