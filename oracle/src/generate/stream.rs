//! All pages of a run: the fixed ones, then as many rounds as asked for.

use super::generations::{self, Judged, SORTS};
use super::{
    bytes, codes, counted_bytes, damaged, fault, fractions, functions, good, ill_formed, limits,
};
use super::{long_texts, nesting, operators, patterns, shortest, times, well_formed, Made, Scope};
use crate::answer::Outcome;
use crate::chosen;
use crate::random::Random;
use crate::refusal::WRONG_FLAG;

/// A page, and its outcome where the page was made for one.
pub struct Sample {
    pub page: Vec<u8>,
    pub expected: Option<Outcome>,
    /// The outcome with the function table too, where the page was made for one.
    pub table: Option<Outcome>,
    /// The outcome as the operators document asks, where the page was made for one.
    pub operators: Option<Outcome>,
    /// The outcomes with the tables of the two generations, where the page was made for them.
    pub older: Option<Outcome>,
    pub newer: Option<Outcome>,
}

impl Sample {
    fn any(page: Vec<u8>) -> Self {
        Self {
            page,
            expected: None,
            table: None,
            operators: None,
            older: None,
            newer: None,
        }
    }

    fn made_for(page: Vec<u8>, expected: Outcome) -> Self {
        Self {
            expected: Some(expected),
            ..Self::any(page)
        }
    }

    fn for_table(made: Made) -> Self {
        Self {
            table: Some(made.expected),
            ..Self::any(made.page)
        }
    }

    fn for_operators(made: Made) -> Self {
        Self {
            operators: Some(made.expected),
            ..Self::any(made.page)
        }
    }

    fn for_generations(judged: Judged) -> Self {
        Self {
            older: Some(judged.older),
            newer: Some(judged.newer),
            ..Self::any(judged.page)
        }
    }
}

impl From<Made> for Sample {
    fn from(made: Made) -> Self {
        Self::made_for(made.page, made.expected)
    }
}

/// Chosen pages, the limits, every code and every kind of operand, deep nesting, long values, characters beyond ASCII,
/// fractions, patterns with their flags, @ and offset in either order, calls of the function table, limitk and
/// limit_ratio, calls that two server generations judge differently.
pub fn fixed() -> impl Iterator<Item = Sample> {
    before_generations().chain(of_generations())
}

/// The chosen pages of document 02, No. 13, and those made for the two generations.
pub fn of_generations() -> impl Iterator<Item = Sample> {
    let rows = chosen::of_generations().iter();
    let chosen = rows.map(|row| Sample::any(row.bytes()));
    chosen.chain(generations::fixed().map(Sample::for_generations))
}

/// All other fixed pages.
pub fn before_generations() -> impl Iterator<Item = Sample> {
    let rows = chosen::before_generations().chain(chosen::outside());
    let chosen = rows.map(|row| Sample::any(row.bytes()));
    let limits = limits::limits().map(|limit| Sample::made_for(limit.page, limit.expected));
    let nested = nesting::DEPTHS
        .into_iter()
        .flat_map(nesting::series)
        .map(|(_, page)| Sample::any(page));
    let swept = codes::pages().chain(codes::kinds()).map(Sample::any);
    let texts = long_texts::fixed()
        .chain(well_formed::fixed())
        .chain(counted_bytes::fixed())
        .chain(ill_formed::fixed())
        .map(Sample::from);
    let requests = fractions::fixed()
        .chain(patterns::fixed())
        .chain(times::fixed());
    let pages = chosen.chain(limits).chain(swept).chain(nested);
    let requests = requests.map(Sample::from);
    let tabled = functions::fixed().map(Sample::for_table);
    let limited = operators::fixed().map(Sample::for_operators);
    let added = tabled.chain(limited);
    pages.chain(texts).chain(requests).chain(added)
}

/// Every byte string of at most two bytes.
pub fn short() -> impl Iterator<Item = Sample> {
    shortest().map(Sample::any)
}

/// Pages with long texts in a round.
const LONG_TEXTS: usize = 14;

/// Pages with @ and offset in a round.
const TIMES: usize = 40;

/// Pages with calls of the function table in a round.
const FUNCTIONS: usize = 60;

/// Pages with limitk and limit_ratio in a round, but for the one at the limit of records.
const OPERATORS: usize = 59;

/// Pages with calls for the two generations in a round, some of each sort, but for the one at the limit of records.
const GENERATIONS: usize = 59;

/// One round: pages of ASCII, then pages with characters beyond it, then with fractions too, then with covered patterns
/// and wrong flags, then with @ and offset, then with calls of the function table, then with limitk and limit_ratio,
/// then with calls for the two generations.
pub fn round(random: &mut Random) -> Vec<Sample> {
    let mut samples = ascii(random);
    samples.extend(beyond_ascii(random));
    samples.extend(with_fractions(random));
    samples.extend(with_patterns(random));
    samples.extend((0..TIMES).map(|_| Sample::from(times::random(random))));
    samples.extend((0..FUNCTIONS).map(|_| Sample::for_table(functions::random(random))));
    samples.extend((0..OPERATORS).map(|_| Sample::for_operators(operators::random(random))));
    samples.push(Sample::for_operators(operators::last(random)));
    let judged = (0..GENERATIONS).map(|place| generations::of_sort(random, place % SORTS));
    samples.extend(judged.map(Sample::for_generations));
    samples.push(Sample::for_generations(generations::last(random)));
    samples
}

/// Each planted fault, good pages of several sizes, damaged copies of all of them, random bytes, long texts.
fn ascii(random: &mut Random) -> Vec<Sample> {
    let numbers: Vec<u8> = fault::numbers(Scope::Base).collect();
    let mut samples = whole_and_damaged(random, Scope::Base, &numbers, 40);
    samples.extend((0..20).map(|_| Sample::any(bytes(random))));
    let long = (0..LONG_TEXTS).map(|_| long_texts::random(random, Scope::Base));
    samples.extend(long.map(Sample::from));
    samples
}

/// Eight of the faults.
fn some_numbers(random: &mut Random, scope: Scope) -> [u8; 8] {
    let numbers: Vec<u8> = fault::numbers(scope).collect();
    [0; 8].map(|_| *random.pick(&numbers))
}

/// Some planted faults, good pages, damaged copies of these, long texts; ill-formed texts, texts at their limits, names
/// that are none.
fn beyond_ascii(random: &mut Random) -> Vec<Sample> {
    let numbers = some_numbers(random, Scope::Utf8);
    let mut samples = whole_and_damaged(random, Scope::Utf8, &numbers, 16);
    let long = (0..LONG_TEXTS).map(|_| long_texts::random(random, Scope::Utf8));
    samples.extend(long.map(Sample::from));
    samples.extend((0..22).map(|_| Sample::from(ill_formed::random(random))));
    samples.extend((0..5).map(|_| Sample::from(counted_bytes::random(random))));
    let sums = [100, 101].map(|bytes| counted_bytes::random_sum(random, bytes));
    samples.extend(sums.map(Sample::from));
    samples.extend((0..4).map(|_| Sample::from(well_formed::random_name(random))));
    samples
}

/// Some planted faults, good pages, damaged copies of these; fractions by themselves, and what is none.
fn with_fractions(random: &mut Random) -> Vec<Sample> {
    let numbers = some_numbers(random, Scope::Fractions);
    let mut samples = whole_and_damaged(random, Scope::Fractions, &numbers, 16);
    samples.extend((0..62).map(|_| Sample::from(fractions::random(random))));
    samples
}

/// Some planted faults, wrong flags among them, good pages, damaged copies of these; patterns and flags by themselves.
fn with_patterns(random: &mut Random) -> Vec<Sample> {
    let mut numbers = some_numbers(random, Scope::Patterns).to_vec();
    numbers.extend([WRONG_FLAG; 2]);
    let mut samples = whole_and_damaged(random, Scope::Patterns, &numbers, 16);
    samples.extend((0..63).map(|_| Sample::from(patterns::random(random))));
    samples
}

/// A page for each of these faults, so many good pages, and a damaged copy of each.
fn whole_and_damaged(
    random: &mut Random,
    scope: Scope,
    numbers: &[u8],
    good_pages: usize,
) -> Vec<Sample> {
    let planted = numbers
        .iter()
        .map(|number| fault::planted(random, scope, *number));
    let mut samples: Vec<Sample> = planted.map(Sample::from).collect();
    for _ in 0..good_pages {
        let size = size(random);
        let (page, kind) = good(random, scope, size);
        samples.push(Sample::made_for(page, Outcome::Accepted(kind)));
    }
    let damaged: Vec<Sample> = samples
        .iter()
        .map(|sample| Sample::any(damaged(random, &sample.page)))
        .collect();
    samples.extend(damaged);
    samples
}

fn size(random: &mut Random) -> usize {
    match random.below(40) {
        0 => random.between(60, 256),
        1..=6 => random.between(13, 40),
        _ => random.between(1, 12),
    }
}
