//! Fractions through canonical text (document 02, No. 5), held to what the Rust prints of the nearest float: digits
//! from 1 on and those below 10^15 with every count of places, random ones, each plus and minus, a number record to a
//! page; then pairs of fills, most of them two fractions that are equal or next to each other.

use crate::library::Library;
use crate::trap;
use oracle::fill_pair::FillPair;
use oracle::generate::{Generator, Scope};
use oracle::hex;
use oracle::page::record::{Fraction, Kind, Modifier, Number, Record};
use oracle::page::{write, MAX_DIGITS, MAX_PLACES};
use oracle::random::Random;
use oracle::tree::Ready;
use promql_parser::parser::{Expr, NumberLiteral};
use std::fmt::Write;

const SEED: u64 = 5;

/// Room for the longest text that is asked for.
const BUFFER_BYTES: usize = 128;

/// How much is tried.
#[derive(Debug, Clone, Copy)]
pub struct Sizes {
    /// Digits up to this number, and as many below 10^15, each with every count of places.
    pub listed: u64,
    pub random: u64,
    pub pairs: u64,
}

impl Sizes {
    /// What is tried where no other count of random ones is asked for.
    pub const USUAL: Self = Self {
        listed: 200_000,
        random: 3_000_000,
        pairs: 1_500_000,
    };
}

/// What was tried without a difference: numbers, both signs counted, and pairs of fills.
#[derive(Debug, Default, PartialEq)]
pub struct Tally {
    pub listed: u64,
    pub random: u64,
    pub pairs: u64,
}

/// What was tried, or the first difference.
pub fn compare(library: Library, sizes: Sizes) -> Result<Tally, String> {
    trap::set();
    let mut tally = Tally::default();
    let highest = MAX_DIGITS - (sizes.listed - 1)..=MAX_DIGITS;
    for digits in (1..=sizes.listed).chain(highest) {
        for places in 1..=MAX_PLACES {
            // Digits that end in 0 are none.
            if let Some(fraction) = Fraction::new(digits, places) {
                tally.listed += numbers(library, fraction)?;
            }
        }
    }
    let random = &mut Random::new(SEED);
    for _ in 0..sizes.random {
        tally.random += numbers(library, any(random))?;
    }
    tally.pairs = pairs(library, random, sizes.pairs)?;
    Ok(tally)
}

/// Digits of any count, of fifteen more often, with any count of places.
fn any(random: &mut Random) -> Fraction {
    loop {
        let most = match random.below(2) {
            0 => MAX_DIGITS,
            _ => 10u64.pow(random.between(1, 15) as u32) - 1,
        };
        let digits = random.word() % most + 1;
        let places = random.between(1, 15) as u64;
        if let Some(fraction) = Fraction::new(digits, places) {
            return fraction;
        }
    }
}

/// The fraction and its negative as number records; how many that is.
fn numbers(library: Library, fraction: Fraction) -> Result<u64, String> {
    let nearest = fraction.value();
    let both = [
        (Number::Fraction(fraction), nearest),
        (Number::NegativeFraction(fraction), -nearest),
    ];
    let mut page = Vec::with_capacity(16);
    let mut text = String::with_capacity(32);
    for (number, value) in both {
        page.clear();
        text.clear();
        write::record(&mut page, &Record::Number(number));
        let literal = NumberLiteral::new(value);
        write!(text, "{literal}").expect("a String takes every text");
        judge(library, &page, Kind::Scalar, &text)?;
    }
    Ok(2)
}

/// The sorts of pairs; those of two fractions eight times.
fn sorts() -> Vec<FillPair> {
    let repeated = |pair| match pair {
        FillPair::FractionLeft(_) | FillPair::FractionRight(_) => vec![pair],
        _ => vec![pair; 8],
    };
    FillPair::all().flat_map(repeated).collect()
}

/// So many pairs of fills between two `up`.
fn pairs(library: Library, random: &mut Random, count: u64) -> Result<u64, String> {
    let sorts = sorts();
    let mut operands = Vec::new();
    let up = Record::Selector {
        name: "up".into(),
        matchers: Vec::new(),
    };
    write::record(&mut operands, &up);
    let operands = operands.repeat(2);
    let up = Ready::from(&up).build(&mut Vec::new())?;
    let mut generator = Generator::new(random, 8, Scope::Fractions);
    for place in 0..count as usize {
        let is_minus = generator.random.chance(50);
        let fills = generator.fill_pair(sorts[place % sorts.len()], is_minus);
        pair(library, &operands, &up, fills)?;
    }
    Ok(count)
}

fn pair(
    library: Library,
    operands: &[u8],
    up: &Expr,
    (left, right): (Number, Number),
) -> Result<(), String> {
    let modifier = Modifier {
        left_fill: Some(left),
        right_fill: Some(right),
        ..Modifier::EMPTY
    };
    let add = Record::Binary {
        code: 1,
        modifier: Some(modifier),
    };
    let mut page = operands.to_vec();
    write::record(&mut page, &add);
    let mut stack = vec![up.clone(), up.clone()];
    let tree = Ready::from(&add).build(&mut stack)?;
    judge(library, &page, Kind::Vector, &tree.to_string())
}

/// The library's canonical text is this one.
fn judge(library: Library, page: &[u8], kind: Kind, expected: &str) -> Result<(), String> {
    let mut buffer = [0; BUFFER_BYTES];
    // SAFETY: the page is a slice, and so is the buffer.
    let word = trap::naming(page, || unsafe {
        (library.canonical)(page.as_ptr(), page.len(), buffer.as_mut_ptr(), BUFFER_BYTES)
    });
    let wanted = expected.len() as u64 * 4 + kind.number();
    if word == wanted && buffer.starts_with(expected.as_bytes()) {
        return Ok(());
    }
    let written = String::from_utf8_lossy(&buffer);
    Err(format!(
        "canonical: the word {word:#x} and the text {:?}, the Rust {wanted:#x} and {expected:?}\npage: {}",
        written.trim_end_matches('\0'),
        hex::text(page)
    ))
}
