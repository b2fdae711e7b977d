//! How the two fills of a binary stand to each other where one at least is a fraction (document 02, No. 5): "compare by
//! value in fills".

use crate::page::record::{Fraction, Number};

/// A number that is no fraction, beside one.
#[derive(Debug, Clone, Copy, PartialEq, Eq)]
pub enum Other {
    SameDigits,
    WholePart,
    NextWhole,
    Zero,
    MinusZero,
    NaN,
    Inf,
    NegativeInf,
}

#[derive(Debug, Clone, Copy, PartialEq, Eq)]
pub enum FillPair {
    Same,
    OtherSign,
    OtherPlaces,
    /// Digits that follow each other, fewer than fifteen.
    NextDigits,
    NextOfFifteenDigits,
    /// One apart in the last place of the longer one.
    NextInOtherPlaces,
    FractionLeft(Other),
    FractionRight(Other),
}

impl Other {
    const ALL: [Other; 8] = [
        Other::SameDigits,
        Other::WholePart,
        Other::NextWhole,
        Other::Zero,
        Other::MinusZero,
        Other::NaN,
        Other::Inf,
        Other::NegativeInf,
    ];

    fn words(self) -> &'static str {
        match self {
            Other::SameDigits => "the whole number of its digits",
            Other::WholePart => "its whole part",
            Other::NextWhole => "the next whole number",
            Other::Zero => "0",
            Other::MinusZero => "minus zero",
            Other::NaN => "NaN",
            Other::Inf => "Inf",
            Other::NegativeInf => "-Inf",
        }
    }

    fn find(fraction: Fraction, is_minus: bool, other: Number) -> Option<Self> {
        let whole = match other {
            Number::NaN => return Some(Other::NaN),
            Number::Inf => return Some(Other::Inf),
            Number::NegativeInf => return Some(Other::NegativeInf),
            Number::Whole(0) => return Some(Other::Zero),
            Number::NegativeWhole(0) => return Some(Other::MinusZero),
            Number::Whole(whole) if !is_minus => whole,
            Number::NegativeWhole(whole) if is_minus => whole,
            _ => return None,
        };
        let part = fraction.whole_part();
        match whole {
            _ if whole == fraction.digits() => Some(Other::SameDigits),
            _ if whole == part => Some(Other::WholePart),
            _ if whole == part + 1 => Some(Other::NextWhole),
            _ => None,
        }
    }
}

impl FillPair {
    pub fn all() -> impl Iterator<Item = Self> {
        let fractions = [
            FillPair::Same,
            FillPair::OtherSign,
            FillPair::OtherPlaces,
            FillPair::NextDigits,
            FillPair::NextOfFifteenDigits,
            FillPair::NextInOtherPlaces,
        ];
        let left = Other::ALL.map(FillPair::FractionLeft);
        let right = Other::ALL.map(FillPair::FractionRight);
        fractions.into_iter().chain(left).chain(right)
    }

    pub fn words(self) -> String {
        match self {
            FillPair::Same => "the same".into(),
            FillPair::OtherSign => "other signs".into(),
            FillPair::OtherPlaces => "the same digits, other places".into(),
            FillPair::NextDigits => "digits that follow each other".into(),
            FillPair::NextOfFifteenDigits => "fifteen digits that follow each other".into(),
            FillPair::NextInOtherPlaces => "next to each other in other places".into(),
            FillPair::FractionLeft(other) => format!("before {}", other.words()),
            FillPair::FractionRight(other) => format!("after {}", other.words()),
        }
    }

    /// Nothing where no fill is a fraction, or where they stand to each other in none of these ways.
    pub fn find(left: Number, right: Number) -> Option<Self> {
        match (left.fraction(), right.fraction()) {
            (None, None) => None,
            (Some((left, is_minus)), None) => {
                Other::find(left, is_minus, right).map(FillPair::FractionLeft)
            }
            (None, Some((right, is_minus))) => {
                Other::find(right, is_minus, left).map(FillPair::FractionRight)
            }
            (Some((left, is_left_minus)), Some((right, is_right_minus))) => {
                match is_left_minus == is_right_minus {
                    true => Self::of_one_sign(left, right),
                    false => (left == right).then_some(FillPair::OtherSign),
                }
            }
        }
    }

    fn of_one_sign(left: Fraction, right: Fraction) -> Option<Self> {
        let (low, high) = match left.digits() < right.digits() {
            true => (left.digits(), right.digits()),
            false => (right.digits(), left.digits()),
        };
        let are_next = high == next_digits(low);
        match left.places() == right.places() {
            true if low == high => Some(FillPair::Same),
            true if are_next && low > 100_000_000_000_000 => Some(FillPair::NextOfFifteenDigits),
            true if are_next => Some(FillPair::NextDigits),
            true => None,
            false if low == high => Some(FillPair::OtherPlaces),
            false => are_one_apart(left, right).then_some(FillPair::NextInOtherPlaces),
        }
    }
}

/// The digits after these that do not end in 0.
pub fn next_digits(digits: u64) -> u64 {
    match digits % 10 {
        9 => digits + 2,
        _ => digits + 1,
    }
}

/// Whether the two differ by one in the last place of the one with more places.
fn are_one_apart(left: Fraction, right: Fraction) -> bool {
    let places = left.places().max(right.places());
    let [left, right] = [left, right].map(|fraction| {
        let zeros = (places - fraction.places()) as u32;
        u128::from(fraction.digits()) * 10u128.pow(zeros)
    });
    left.abs_diff(right) == 1
}
