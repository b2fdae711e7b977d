//! The numbers of kind 0 and of the two fills: document 01's forms, and fractions (document 02, No. 5).

use super::{MAX_DIGITS, MAX_PLACES};

/// Digits divided by ten to the power of places. It is never whole, and each value is one fraction only.
#[derive(Debug, Clone, Copy, PartialEq, Eq)]
pub struct Fraction {
    digits: u64,
    places: u64,
}

impl Fraction {
    /// Nothing where the digits are not 1 to 10^15 less 1 or end in 0, or the places are not 1 to 15.
    pub fn new(digits: u64, places: u64) -> Option<Self> {
        let are_digits = (1..=MAX_DIGITS).contains(&digits) && !digits.is_multiple_of(10);
        let are_places = (1..=MAX_PLACES).contains(&places);
        (are_digits && are_places).then_some(Self { digits, places })
    }

    pub fn digits(self) -> u64 {
        self.digits
    }

    pub fn places(self) -> u64 {
        self.places
    }

    /// What stands before the point.
    pub fn whole_part(self) -> u64 {
        self.digits / self.power()
    }

    /// The digits after the point, as a number: without the zeros that they begin with.
    pub fn after_point(self) -> u64 {
        self.digits % self.power()
    }

    fn power(self) -> u64 {
        10u64.pow(self.places as u32)
    }

    /// The 64-bit float that is nearest; the Rust's `parse` rounds correctly.
    pub fn value(self) -> f64 {
        let Self { digits, places } = self;
        let nearest = format!("{digits}e-{places}").parse();
        nearest.expect("a decimal number")
    }

    /// The fraction whose float prints as this text, `0.95`.
    fn of_text(text: &str) -> Option<Self> {
        let (whole, after) = text.split_once('.')?;
        let digits = format!("{whole}{after}").parse().ok()?;
        Self::new(digits, after.len() as u64)
    }
}

#[derive(Debug, Clone, Copy, PartialEq, Eq)]
pub enum Number {
    Whole(u64),
    NegativeWhole(u64),
    NaN,
    Inf,
    NegativeInf,
    Fraction(Fraction),
    NegativeFraction(Fraction),
}

impl Number {
    /// A whole literal becomes the 64-bit float of exactly that value, a fraction the nearest one; negative 0 is minus
    /// zero.
    pub fn value(self) -> f64 {
        match self {
            Number::Whole(magnitude) => magnitude as f64,
            Number::NegativeWhole(magnitude) => -(magnitude as f64),
            Number::NaN => f64::NAN,
            Number::Inf => f64::INFINITY,
            Number::NegativeInf => f64::NEG_INFINITY,
            Number::Fraction(fraction) => fraction.value(),
            Number::NegativeFraction(fraction) => -fraction.value(),
        }
    }

    /// The form whose value is this one, for values that some form has; a fraction's by what the Rust prints.
    pub fn of_value(value: f64) -> Self {
        if value.is_nan() {
            return Number::NaN;
        }
        let magnitude = value.abs();
        let [plus, minus] = match Fraction::of_text(&magnitude.to_string()) {
            Some(fraction) => [
                Number::Fraction(fraction),
                Number::NegativeFraction(fraction),
            ],
            None if magnitude.is_infinite() => [Number::Inf, Number::NegativeInf],
            None => {
                let whole = magnitude as u64;
                [Number::Whole(whole), Number::NegativeWhole(whole)]
            }
        };
        if value.is_sign_negative() {
            minus
        } else {
            plus
        }
    }

    /// The fraction, if it is one, and whether it is negative.
    pub fn fraction(self) -> Option<(Fraction, bool)> {
        match self {
            Number::Fraction(fraction) => Some((fraction, false)),
            Number::NegativeFraction(fraction) => Some((fraction, true)),
            _ => None,
        }
    }
}

/// What has a number as a field: a record of kind 0, or a binary that has it as a fill.
#[derive(Debug, Clone, Copy, PartialEq, Eq)]
pub enum Holder {
    Record,
    LeftFill,
    RightFill,
}

impl Holder {
    pub const ALL: [Holder; 3] = [Holder::Record, Holder::LeftFill, Holder::RightFill];

    pub fn words(self) -> &'static str {
        match self {
            Holder::Record => "number",
            Holder::LeftFill => "left fill",
            Holder::RightFill => "right fill",
        }
    }
}
