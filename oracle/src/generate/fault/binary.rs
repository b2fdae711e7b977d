//! Faulty binaries: refusals 16 to 23, each with sides, a code and a modifier that no earlier row refuses.

use super::super::{Generator, Records};
use crate::page::code::{is_comparison, is_set_operator};
use crate::page::record::*;

impl Generator<'_> {
    /// The kinds of both sides, the code and what the modifier must have for this refusal.
    pub(super) fn binary_fault(&mut self, number: u8) -> (Records, Record<'static>) {
        let code = self.faulty_code(number);
        let (left, right) = self.faulty_sides(number, code);
        let mut modifier = self.modifier(code, left, right);
        match number {
            16 => {}
            17 => modifier.get_or_insert(none()).is_bool = true,
            18 if self.random.chance(50) => modifier = None,
            18 => modifier.get_or_insert(none()).is_bool = false,
            19 => self.make_joint(modifier.get_or_insert(none())),
            21 => {
                let group = self.labels();
                let modifier = modifier.get_or_insert(none());
                modifier.matching = Matching::None;
                modifier.cardinality = if self.random.chance(50) {
                    Cardinality::GroupLeft(group)
                } else {
                    Cardinality::GroupRight(group)
                };
            }
            23 => {
                let labels = vec![self.label()];
                let modifier = modifier.get_or_insert(none());
                modifier.cardinality = Cardinality::OneToOne;
                modifier.matching = if self.random.chance(50) {
                    Matching::On(labels)
                } else {
                    Matching::Ignoring(labels)
                };
            }
            _ => {}
        }
        let mut before = self.small(left);
        before.extend(self.small(right));
        (before, Record::Binary { code, modifier })
    }

    fn faulty_code(&mut self, number: u8) -> u8 {
        loop {
            let code = self.random.between(1, 16) as u8;
            let is_fitting = match number {
                16 => return self.random.between(17, 30) as u8,
                17 => !is_comparison(code),
                18 => is_comparison(code),
                20 | 21 => is_set_operator(code),
                23 => !is_set_operator(code),
                _ => true,
            };
            if is_fitting {
                return code;
            }
        }
    }

    fn faulty_sides(&mut self, number: u8, code: u8) -> (Kind, Kind) {
        loop {
            let left = *self.random.pick(&Kind::ALL);
            let right = *self.random.pick(&Kind::ALL);
            let has = |kind| left == kind || right == kind;
            let is_numeric = !has(Kind::Matrix) && !has(Kind::String);
            let are_vectors = left == Kind::Vector && right == Kind::Vector;
            let is_fitting = match number {
                18 => left == Kind::Scalar && right == Kind::Scalar,
                20 => has(Kind::Scalar),
                21 => are_vectors,
                22 => !(is_numeric || is_set_operator(code) && has(Kind::Scalar)),
                23 => is_numeric && !are_vectors,
                _ => true,
            };
            if is_fitting {
                return (left, right);
            }
        }
    }

    /// 19: one label at least in both lists, at any place of each.
    fn make_joint(&mut self, modifier: &mut Modifier<'static>) {
        let mut on: Vec<_> = self.labels().into_iter().take(14).collect();
        let mut group: Vec<_> = self.labels().into_iter().take(14).collect();
        for _ in 0..self.random.between(1, 2) {
            let common = self.label();
            on.insert(self.random.between(0, on.len()), common.clone());
            group.insert(self.random.between(0, group.len()), common);
        }
        modifier.matching = Matching::On(on);
        modifier.cardinality = if self.random.chance(50) {
            Cardinality::GroupLeft(group)
        } else {
            Cardinality::GroupRight(group)
        };
    }
}

fn none() -> Modifier<'static> {
    Modifier {
        is_bool: false,
        matching: Matching::None,
        cardinality: Cardinality::OneToOne,
        left_fill: None,
        right_fill: None,
    }
}
