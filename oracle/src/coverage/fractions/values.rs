//! Which fractions occurred: at the edges of their ranges, in every holder and with both signs, of every length.

use super::super::Coverage;
use super::sign;
use crate::page::record::*;
use crate::page::{MAX_DIGITS, MAX_PLACES};

#[rustfmt::skip]
const NAMED: &[&str] = &[
    "fractions: a 0 inside the digits", "fractions: a 0 after the point, and a whole part",
    "fractions: a 0 after the point, and none", "fractions: text of 3 bytes", "fractions: text of 18 bytes",
];

/// What may be said of digits and places.
const SHAPES: [&str; 7] = [
    "digits 1",
    "digits 10^15 - 1",
    "places 1",
    "places 15",
    "fewer digits than places",
    "as many digits as places",
    "more digits than places",
];

pub(super) fn classes() -> Vec<String> {
    let mut classes: Vec<String> = NAMED.iter().map(ToString::to_string).collect();
    for holder in Holder::ALL {
        for is_minus in [false, true] {
            classes.extend(SHAPES.map(|shape| shaped(holder, is_minus, shape)));
        }
    }
    for count in 1..=15 {
        classes.extend(["digits", "places"].map(|field| counted(count, field)));
    }
    classes
}

fn shaped(holder: Holder, is_minus: bool, shape: &str) -> String {
    format!("fractions: {}, {}, {shape}", holder.words(), sign(is_minus))
}

fn counted(count: usize, field: &str) -> String {
    format!("fractions: {count} {field}")
}

impl Coverage {
    pub(super) fn fraction_values(&mut self, record: &Record) {
        for (holder, number) in record.numbers() {
            if let Some((fraction, is_minus)) = number.fraction() {
                for (shape, is_so) in SHAPES.into_iter().zip(shapes(fraction)) {
                    self.hit_if(is_so, &shaped(holder, is_minus, shape));
                }
                self.fraction_text(fraction, &number.value().to_string());
            }
        }
    }

    fn fraction_text(&mut self, fraction: Fraction, text: &str) {
        self.hit(counted(count(fraction), "digits"));
        self.hit(counted(fraction.places() as usize, "places"));
        let has_zero = fraction.digits().to_string().contains('0');
        self.hit_if(has_zero, "fractions: a 0 inside the digits");
        if text.contains(".0") {
            let is_whole = fraction.whole_part() > 0;
            self.hit(
                [
                    "fractions: a 0 after the point, and none",
                    "fractions: a 0 after the point, and a whole part",
                ][usize::from(is_whole)],
            );
        }
        self.hit_if(text.len() == 3, "fractions: text of 3 bytes");
        self.hit_if(text.len() == 18, "fractions: text of 18 bytes");
    }
}

fn count(fraction: Fraction) -> usize {
    fraction.digits().to_string().len()
}

fn shapes(fraction: Fraction) -> [bool; 7] {
    let (digits, places) = (fraction.digits(), fraction.places());
    let count = count(fraction) as u64;
    [
        digits == 1,
        digits == MAX_DIGITS,
        places == 1,
        places == MAX_PLACES,
        count < places,
        count == places,
        count > places,
    ]
}
