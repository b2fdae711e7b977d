//! `sandzguli_check_older`, `sandzguli_check_newer` and `sandzguli_generations` (document 02, No. 13) and all other
//! calls held to the oracle on pages for the two generations: every function of the three tables with everything that
//! is near it, every pair of the functions that each generation has by itself, the chosen and fixed pages, and random
//! ones.

pub use crate::operators::Sizes;

use crate::library::Library;
use crate::run;
use oracle::coverage::Coverage;
use oracle::functions::signatures;
use oracle::generate::functions::near_pages;
use oracle::generate::generations::{pairs, random};
use oracle::generate::stream;
use oracle::generations::Generation;
use oracle::random::Random;

/// What was tried without a difference: pages, how many of them each answer has, calls.
#[derive(Debug, Default, Clone, Copy, PartialEq)]
pub struct Tally {
    pub pages: u64,
    pub older: u64,
    pub newer: u64,
    pub both: u64,
    pub calls: u64,
}

/// What was tried, or the first difference; also a class of such pages that never occurred.
pub fn compare(library: Library, sizes: Sizes) -> Result<Tally, String> {
    let numbers = &mut Random::new(13);
    let known = signatures().chain([Generation::Older.own()]);
    let near = known.flat_map(near_pages).step_by(sizes.step);
    let paired = pairs().map(|judged| judged.page).step_by(sizes.step);
    let fixed = stream::of_generations().map(|sample| sample.page);
    let others = (0..sizes.random).map(|_| random(numbers).page);
    let pages = near.chain(paired).chain(fixed).chain(others);
    let tally = run::pages(library, pages)?;
    reached(&tally.coverage)?;
    let count = |class: &str| {
        let class = format!("generations: {class}");
        tally.coverage.count(&class).ok_or(class)
    };
    Ok(Tally {
        pages: tally.coverage.pages,
        older: count("Older where the repository's table refuses")?,
        newer: count("Newer where the repository's table accepts")?,
        both: count("Both where the repository's table accepts")?,
        calls: tally.calls,
    })
}

/// Nothing, where every class of the generations occurred but for refusals that these pages are not made for.
fn reached(coverage: &Coverage) -> Result<(), String> {
    let is_of_generations = |class: &&str| {
        let words = class.strip_prefix("generations: ");
        words.is_some_and(|words| !words.contains(", refusal "))
    };
    let missing: Vec<_> = coverage
        .missing()
        .into_iter()
        .filter(is_of_generations)
        .collect();
    match missing.as_slice() {
        [] => Ok(()),
        _ => Err(format!("never occurred: {}", missing.join(", "))),
    }
}
