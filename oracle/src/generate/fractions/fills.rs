//! Fractions as fills: alone, and in every pair of which one is a fraction.

use super::super::{Generator, Made, Scope};
use super::values::{fraction, not_ending_in_zero, signed};
use crate::answer::Outcome;
use crate::fill_pair::{next_digits, FillPair, Other};
use crate::hex;
use crate::page::record::*;
use crate::page::{write, MAX_DIGITS, MAX_PLACES};
use crate::random::Random;

/// The seed of the fixed pairs.
const SEED: u64 = 5;

pub type Fills = (Option<Number>, Option<Number>);

const ADD: u8 = 1;
const OR: u8 = 7;

fn binary(code: u8, (left_fill, right_fill): Fills) -> Record<'static> {
    let modifier = Modifier {
        left_fill,
        right_fill,
        ..Modifier::EMPTY
    };
    Record::Binary {
        code,
        modifier: Some(modifier),
    }
}

/// `up + up` with these fills, or another operator.
fn page(code: u8, fills: Fills) -> Made {
    let mut page = hex::bytes("(0202757000)*2;");
    write::record(&mut page, &binary(code, fills));
    Made::new(page, Outcome::Accepted(Kind::Vector))
}

/// `up + up + ..` with these fills at each of so many operators.
pub fn repeated([left, right]: [Number; 2], operators: usize) -> Vec<u8> {
    let mut page = hex::bytes("0202757000");
    for _ in 0..operators {
        page.extend(hex::bytes("0202757000"));
        write::record(&mut page, &binary(ADD, (Some(left), Some(right))));
    }
    page
}

/// One fill at the edges of the ranges, on either side.
fn alone() -> impl Iterator<Item = Made> {
    let edges = [
        (1, 1),
        (1, MAX_PLACES),
        (MAX_DIGITS, 1),
        (MAX_DIGITS, MAX_PLACES),
        (MAX_DIGITS - 8, 14),
        (5, 2),
        (9, 1),
        (11, 1),
        (95, 2),
        (99, 1),
        (1_005, 2),
    ];
    let numbers = edges
        .into_iter()
        .flat_map(|(digits, places)| signed(fraction(digits, places)));
    numbers.flat_map(|number| {
        let fills = [(Some(number), None), (None, Some(number))];
        fills.map(|fills| page(ADD, fills))
    })
}

/// Each sort of pair with both signs, four times, the last of them on a set operator.
fn pairs() -> impl Iterator<Item = Made> {
    let mut random = Random::new(SEED);
    FillPair::all().flat_map(move |pair| {
        let mut generator = Generator::new(&mut random, 8, Scope::Fractions);
        let mut made = Vec::new();
        for code in [ADD, ADD, ADD, OR] {
            for is_minus in [false, true] {
                let (left, right) = generator.fill_pair(pair, is_minus);
                made.push(page(code, (Some(left), Some(right))));
            }
        }
        made
    })
}

pub(super) fn fixed() -> impl Iterator<Item = Made> {
    alone().chain(pairs())
}

fn of_sign(fraction: Fraction, is_minus: bool) -> Number {
    signed(fraction)[usize::from(is_minus)]
}

fn whole(magnitude: u64, is_minus: bool) -> Number {
    match is_minus {
        false => Number::Whole(magnitude),
        true => Number::NegativeWhole(magnitude),
    }
}

impl Generator<'_> {
    pub(super) fn filled_with_fraction(&mut self) -> Made {
        let code = *self.random.pick(&[ADD, ADD, OR]);
        page(code, self.fraction_fills())
    }

    /// Fills of which one at least is a fraction: alone, in a pair of some sort, or in any other.
    pub fn fraction_fills(&mut self) -> Fills {
        match self.random.below(6) {
            0 => (Some(self.signed_fraction()), None),
            1 => (None, Some(self.signed_fraction())),
            2 => (Some(self.signed_fraction()), Some(self.literal())),
            _ => {
                let pairs: Vec<_> = FillPair::all().collect();
                let pair = *self.random.pick(&pairs);
                let is_minus = self.random.chance(50);
                let (left, right) = self.fill_pair(pair, is_minus);
                (Some(left), Some(right))
            }
        }
    }

    /// Two fills that stand to each other so. The sign is that of the left one, or of the only fraction.
    pub fn fill_pair(&mut self, pair: FillPair, is_minus: bool) -> (Number, Number) {
        let of_sign = |fraction| of_sign(fraction, is_minus);
        let (first, second) = match pair {
            FillPair::Same | FillPair::OtherSign => {
                let fraction = self.fraction();
                (fraction, fraction)
            }
            FillPair::OtherPlaces => self.in_other_places(),
            FillPair::NextDigits => self.next_digits(false),
            FillPair::NextOfFifteenDigits => self.next_digits(true),
            FillPair::NextInOtherPlaces => self.next_in_other_places(),
            FillPair::FractionLeft(other) => {
                let (fraction, other) = self.beside_fraction(other, is_minus);
                return (of_sign(fraction), other);
            }
            FillPair::FractionRight(other) => {
                let (fraction, other) = self.beside_fraction(other, is_minus);
                return (other, of_sign(fraction));
            }
        };
        let is_right_minus = is_minus != (pair == FillPair::OtherSign);
        (of_sign(first), signed(second)[usize::from(is_right_minus)])
    }

    fn either_first<T>(&mut self, first: T, second: T) -> (T, T) {
        match self.random.chance(50) {
            true => (first, second),
            false => (second, first),
        }
    }

    fn in_other_places(&mut self) -> (Fraction, Fraction) {
        let first = self.fraction();
        let further = self.random.between(1, 14) as u64;
        let places = (first.places() - 1 + further) % MAX_PLACES + 1;
        (first, fraction(first.digits(), places))
    }

    /// Digits, fifteen of them or fewer, and the next ones.
    fn next_digits(&mut self, are_fifteen: bool) -> (Fraction, Fraction) {
        const FEWEST_OF_FIFTEEN: u64 = 100_000_000_000_001;
        let digits = not_ending_in_zero(match are_fifteen {
            true => FEWEST_OF_FIFTEEN + self.random.word() % (MAX_DIGITS - 2 - FEWEST_OF_FIFTEEN),
            false => self.digits() % (FEWEST_OF_FIFTEEN - 4),
        });
        let places = self.fraction().places();
        let next = fraction(next_digits(digits), places);
        self.either_first(fraction(digits, places), next)
    }

    /// A fraction, and the one before or after it with one place more.
    fn next_in_other_places(&mut self) -> (Fraction, Fraction) {
        let digits = not_ending_in_zero(self.digits() / 10);
        let places = self.random.between(1, 14) as u64;
        let longer = *self.random.pick(&[10 * digits - 1, 10 * digits + 1]);
        self.either_first(fraction(digits, places), fraction(longer, places + 1))
    }

    /// A fraction, and a number that is none and stands to it so.
    fn beside_fraction(&mut self, other: Other, is_minus: bool) -> (Fraction, Number) {
        let mut fraction = self.fraction();
        let needs_whole = matches!(other, Other::WholePart | Other::NextWhole);
        while needs_whole && fraction.whole_part() == 0 {
            fraction = self.fraction();
        }
        let other = match other {
            Other::SameDigits => whole(fraction.digits(), is_minus),
            Other::WholePart => whole(fraction.whole_part(), is_minus),
            Other::NextWhole => whole(fraction.whole_part() + 1, is_minus),
            Other::Zero => Number::Whole(0),
            Other::MinusZero => Number::NegativeWhole(0),
            Other::NaN => Number::NaN,
            Other::Inf => Number::Inf,
            Other::NegativeInf => Number::NegativeInf,
        };
        (fraction, other)
    }
}
