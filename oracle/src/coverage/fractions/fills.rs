//! Fills of accepted binaries of which one at least is a fraction, and how they stand to each other.

use super::super::Coverage;
use super::sign;
use crate::fill_pair::FillPair;
use crate::page::code::is_set_operator;
use crate::page::record::*;

#[rustfmt::skip]
const NAMED: &[&str] = &[
    "fractions: left fill alone", "fractions: right fill alone", "fractions: fills of a set operator, one-to-one",
];

pub(super) fn classes() -> Vec<String> {
    let mut classes: Vec<String> = NAMED.iter().map(ToString::to_string).collect();
    for is_minus in [false, true] {
        classes.extend(FillPair::all().map(|pair| paired(pair, is_minus)));
    }
    classes
}

fn paired(pair: FillPair, is_minus: bool) -> String {
    format!("fractions: fills, {}, {}", pair.words(), sign(is_minus))
}

/// Whether a number is a fraction, and if so a negative one.
fn is_minus(number: Number) -> Option<bool> {
    number.fraction().map(|(_, is_minus)| is_minus)
}

impl Coverage {
    pub(super) fn fraction_fills(&mut self, record: &Record) {
        let Record::Binary {
            code,
            modifier: Some(modifier),
        } = record
        else {
            return;
        };
        let (left, right) = (modifier.left_fill, modifier.right_fill);
        let minus = left.and_then(is_minus).or(right.and_then(is_minus));
        let Some(minus) = minus else {
            return;
        };
        match (left, right) {
            (Some(left), Some(right)) => {
                if let Some(pair) = FillPair::find(left, right) {
                    self.hit(paired(pair, minus));
                }
            }
            (Some(_), None) => self.hit("fractions: left fill alone"),
            _ => self.hit("fractions: right fill alone"),
        }
        let is_copied = is_set_operator(*code) && modifier.cardinality == Cardinality::OneToOne;
        self.hit_if(is_copied, "fractions: fills of a set operator, one-to-one");
    }
}
