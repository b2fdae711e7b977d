//! `sandzguli_check_operators` (document 02, No. 8) and all other calls held to the oracle on pages with limitk and
//! limit_ratio: every aggregator on every pair of expressions, the fixed pages, and random ones.

use crate::library::Library;
use crate::run;
use oracle::coverage::Coverage;
use oracle::generate::operators::{fixed, pairs, random};
use oracle::random::Random;

/// How much is tried.
#[derive(Debug, Clone, Copy)]
pub struct Sizes {
    /// One of so many pages that are put together in order.
    pub step: usize,
    /// Random pages.
    pub random: u64,
}

impl Sizes {
    pub const USUAL: Self = Self {
        step: 1,
        random: 50_000,
    };
}

/// What was tried without a difference.
#[derive(Debug, Default, Clone, Copy, PartialEq)]
pub struct Tally {
    pub pages: u64,
    /// Pages that the check refuses with 42.
    pub refused: u64,
    pub calls: u64,
}

/// What was tried, or the first difference; also a class of such pages that never occurred.
pub fn compare(library: Library, sizes: Sizes) -> Result<Tally, String> {
    let numbers = &mut Random::new(8);
    let made = fixed().map(|made| made.page);
    let others = (0..sizes.random).map(|_| random(numbers).page);
    let paired = pairs().step_by(sizes.step);
    let tally = run::pages(library, paired.chain(made).chain(others))?;
    let refused = reached(&tally.coverage)?;
    Ok(Tally {
        pages: tally.coverage.pages,
        refused,
        calls: tally.calls,
    })
}

/// How many pages are refused with 42, where every class of the parameters, the order and the nesting occurred.
fn reached(coverage: &Coverage) -> Result<u64, String> {
    let is_of_limits = |class: &&str| {
        let words = class.strip_prefix("operators: ");
        words.is_some_and(|words| !words.starts_with("refusal ") && !words.starts_with("kind "))
    };
    let missing: Vec<_> = coverage
        .missing()
        .into_iter()
        .filter(is_of_limits)
        .collect();
    if !missing.is_empty() {
        return Err(format!("never occurred: {}", missing.join(", ")));
    }
    coverage
        .count("operators: refusal 42")
        .ok_or("42 is no class".into())
}
