//! Fractions at the edges of their ranges, and any others.

use super::super::{Generator, Made, Scope};
use crate::answer::Outcome;
use crate::page::record::{Fraction, Kind, Number, Record};
use crate::page::{write, MAX_DIGITS, MAX_PLACES};

/// Digits at the ends of their range, beside round numbers, with zeros inside.
#[rustfmt::skip]
const DIGITS: [u64; 20] = [
    1, 5, 9, 11, 19, 95, 99, 101, 105, 999, 1_001, 1_005, 123_456_789, 999_999_999, 1_000_000_001,
    100_000_000_000_001, 123_456_789_012_345, 900_719_925_474_099, MAX_DIGITS - 8, MAX_DIGITS,
];

/// Fewer places than digits, as many, more.
fn places(digits: u64) -> Vec<u64> {
    let count = digits.to_string().len() as u64;
    let mut places = vec![
        1,
        2,
        count - 1,
        count,
        count + 1,
        MAX_PLACES - 1,
        MAX_PLACES,
    ];
    places.retain(|places| (1..=MAX_PLACES).contains(places));
    places.sort();
    places.dedup();
    places
}

pub(super) fn fraction(digits: u64, places: u64) -> Fraction {
    Fraction::new(digits, places).expect("digits and places within their ranges")
}

fn edges() -> impl Iterator<Item = Fraction> {
    let of_digits = |digits| {
        let places = places(digits).into_iter();
        places.map(move |places| fraction(digits, places))
    };
    DIGITS.into_iter().flat_map(of_digits)
}

/// Every count of digits with every count of places; the signs take turns.
fn shapes() -> impl Iterator<Item = Number> {
    const LONGEST: u64 = 987_654_321_987_654;
    (0..15).flat_map(|missing: usize| {
        let digits = LONGEST / 10u64.pow(missing as u32);
        (1..=15).map(move |places: usize| {
            let signed = signed(fraction(digits, places as u64));
            signed[(missing + places) % 2]
        })
    })
}

/// Both signs.
pub(super) fn signed(fraction: Fraction) -> [Number; 2] {
    [
        Number::Fraction(fraction),
        Number::NegativeFraction(fraction),
    ]
}

pub(super) fn fixed() -> impl Iterator<Item = Made> {
    let numbers = edges().flat_map(signed).chain(shapes());
    numbers.map(|number| {
        let page = write::page(&[Record::Number(number)]);
        Made::new(page, Outcome::Accepted(Kind::Scalar))
    })
}

impl Generator<'_> {
    /// Whether a fraction stands in place of another number: in half of the cases. In narrower scopes nothing is drawn.
    pub(in crate::generate) fn draws_fraction(&mut self) -> bool {
        self.scope >= Scope::Fractions && self.random.chance(50)
    }

    pub fn fraction(&mut self) -> Fraction {
        let digits = self.digits();
        let places = match self.random.below(6) {
            0 => 1,
            1 => MAX_PLACES,
            2 | 3 => self.random.between(1, 4) as u64,
            _ => self.random.between(1, 15) as u64,
        };
        fraction(digits, places)
    }

    pub fn signed_fraction(&mut self) -> Number {
        let fraction = self.fraction();
        *self.random.pick(&signed(fraction))
    }

    /// Digits of any count, at the ends of their range more often.
    pub(super) fn digits(&mut self) -> u64 {
        let digits = match self.random.below(6) {
            0 => *self.random.pick(&DIGITS),
            1 => MAX_DIGITS - self.random.word() % 100,
            2 | 3 => {
                let count = self.random.between(1, 15) as u32;
                self.random.word() % 10u64.pow(count)
            }
            _ => self.random.word() % 1_000,
        };
        not_ending_in_zero(digits)
    }
}

/// These digits, or the next ones.
pub(super) fn not_ending_in_zero(digits: u64) -> u64 {
    match digits % 10 {
        0 => digits + 1,
        _ => digits,
    }
}
